/* Edits, a refused edit, a commit and a renaming: cc example.c libtevondimby.a */
#include "tevondimby.h"
#include <stdio.h>
#include <string.h>

#define TEXT(words) (const uint8_t *)(words), strlen(words)

static tevondimby_handle document;
static uint8_t buffer[4096];

static void print_text(void) {
    size_t length;
    if (tevondimby_text(&document, buffer, sizeof buffer, &length) == TEV_OK)
        printf("%.*s\n", (int)length, (const char *)buffer);
}

static void print_tree(void) {
    static tevondimby_element tree[256];
    size_t count, length;
    if (tevondimby_tree(&document, tree, 256, &count) != TEV_OK)
        return;
    for (size_t i = 0; i < count && i < 4; i++) {
        tevondimby_kind_name(tree[i].kind, buffer, sizeof buffer, &length);
        printf("%*s%.*s@%u..%u\n", 2 * (int)tree[i].depth, "", (int)length, (const char *)buffer, tree[i].start, tree[i].end);
    }
}

int main(void) {
    const char *change = "[{\"do\":\"commit\",\"changes\":[{\"op\":\"replace\",\"at\":[\"PATH_EXPR\",26,27],\"with\":[\"expr\",\"%s\"]}]}]";
    char command[256];
    if (tevondimby_open(&document, TEXT("fn twice(a: u32) -> u32 { a * 2 }"), TEV_EDITION_2021, TEV_PROFILE) != TEV_OK)
        return 1;
    snprintf(command, sizeof command, change, "1 + 2");
    printf("commit of 1 + 2: %u\n", tevondimby_commit(&document, TEXT(command)));
    snprintf(command, sizeof command, change, "(1 + 2)");
    printf("commit of (1 + 2): %u\n", tevondimby_commit(&document, TEXT(command)));
    print_text();
    printf("edit outside of the text: %u\n", tevondimby_edit(&document, 26, 2600, TEXT("x")));
    printf("rename: %u\n", tevondimby_rename(&document, TEXT("twice"), TEXT("double")));
    print_text();
    print_tree();
    printf("free: %u\n", tevondimby_free(&document));
    printf("free again: %u\n", tevondimby_free(&document));
    return 0;
}
