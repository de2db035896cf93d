/* Nested texts on a stack of KIB KiB: deep KIB. The deepest text of each kind that is read has 1 level less than the first that is refused. */
#include "tevondimby.h"
#include <pthread.h>
#include <stdio.h>
#include <stdlib.h>
#include <string.h>

static const struct { const char *before, *open, *inside, *close, *after; } KINDS[] = {
    {"fn f(){", "(", "1", ")", ";}"}, {"fn f(){", "[", "1", "]", ";}"}, {"fn f(){", "{", "1", "}", "}"}, {"fn f(){", "-", "1", "", ";}"},
    {"type T=", "S<", "u8", ">", ";"}, {"fn f(){", "a!(", "1", ")", ";}"}, {"fn f(){", "if x{", "", "}", "}"}, {"fn f(){", "a+(", "1", ")", ";}"},
    {"fn f(){", "f(", "1", ")", ";}"}, {"fn f(){", "x.a(", "1", ")", ";}"}, {"fn f(){", "a[", "1", "]", ";}"}, {"fn f(){", "S{a:", "1", "}", ";}"},
    {"fn f(){", "a=", "1", "", ";}"}, {"fn f(){", "return ", "1", "", ";}"}, {"fn f(){", "|x|", "1", "", ";}"}, {"fn f(){", "|x,y|", "1", "", ";}"},
    {"fn f(){", "move|x|{", "1", "}", ";}"}, {"fn f(){", "match a{_=>", "1", "}", "}"}, {"fn f(){", "let a={", "1", "};", "}"},
    {"", "fn f(){", "", "}", ""}, {"", "impl A{fn f(){", "", "}}", ""}, {"", "mod a{", "", "}", ""}, {"use a::", "{", "b", "}", ";"},
    {"fn f(){", "#[a={", "1", "}]b;", "}"}, {"type T=", "dyn A<", "u8", ">", ";"}, {"type T=", "& ", "u8", "", ";"}, {"type T=", "A<u8,", "u8", ">", ";"},
    {"type T=", "for<'a,'b> ", "A", "", ";"}, {"fn f(){let ", "(", "a", ")", "=b;}"}, {"fn f(){let ", "[", "a", "]", "=b;}"}, {"fn f(){let ", "& ", "a", "", "=b;}"},
    {"fn f(){", "a+", "1", "", ";}"}, {"fn f(){a", "", "", ".b()", ";}"}, {"fn f(){a", "", "", "?", ";}"}, {"fn f(){a", "", "", "()", ";}"},
    {"fn f(){if a{}", "else if a{}", "", "", "}"}, {"fn f(){", "for a in ", "b", "{}", "}"}, {"fn f(){", "while ", "b", "{}", "}"}, {"type T=", "A::", "B", "", ";"},
    {"fn f(){", "a..", "b", "", ";}"}, {"fn f(){", "break 'a |x,y| ", "b", "", ";}"}, {"fn f(){", "a as b<", "c", ">", ";}"}, {"type T=", "fn()->", "u8", "", ";"},
    {"type T=", "A<{1} ", "u8", "", ";"}, {"fn f(){", "unsafe{", "1", "}", "}"}, {"fn f(){", "async move{", "1", "}", "}"}, {"m!{", "(", "a", ")", "}"}};
enum { COUNT = sizeof KINDS / sizeof *KINDS, LIMIT = 20000 };

static char *text_of(int kind, size_t depth) {
    size_t open = strlen(KINDS[kind].open), close = strlen(KINDS[kind].close);
    char *text = malloc(64 + depth * (open + close)), *at = stpcpy(text, KINDS[kind].before);
    for (size_t i = 0; i < depth; i++)
        at = stpcpy(at, KINDS[kind].open);
    at = stpcpy(at, KINDS[kind].inside);
    for (size_t i = 0; i < depth; i++)
        at = stpcpy(at, KINDS[kind].close);
    stpcpy(at, KINDS[kind].after);
    return text;
}

static uint32_t open_text(tevondimby_handle *document, int kind, size_t depth) {
    char *text = text_of(kind, depth);
    uint32_t code = tevondimby_open(document, (const uint8_t *)text, strlen(text), TEV_EDITION_2021, TEV_WHOLE);
    free(text);
    return code;
}

/* Opens a text of a kind, and returns its code. Nothing stays open. */
static uint32_t try_open(int kind, size_t depth) {
    tevondimby_handle document = {0};
    uint32_t code = open_text(&document, kind, depth);
    tevondimby_free(&document);
    return code;
}

/* Edits a text and reads its tree. Returns how many of the calls fail. */
static long use_text(int kind, size_t depth) {
    tevondimby_handle document = {0};
    tevondimby_element row;
    size_t count, at = strlen(KINDS[kind].before);
    long wrong = open_text(&document, kind, depth) != TEV_OK;
    wrong += tevondimby_edit(&document, at, at, (const uint8_t *)" ", 1) != TEV_OK;
    wrong += tevondimby_tree(&document, &row, 1, &count) != TEV_SHORT;
    tevondimby_rename(&document, (const uint8_t *)"none", 4, (const uint8_t *)"g", 1);
    return wrong + (tevondimby_free(&document) != TEV_OK);
}

static void *work(void *given) {
    long *wrong = given;
    for (int kind = 0; kind < COUNT; kind++) {
        size_t least = 1, most = LIMIT;
        *wrong += try_open(kind, least) != TEV_OK || try_open(kind, most) != TEV_TOO_DEEP;
        while (most - least > 1) {
            size_t middle = (least + most) / 2;
            uint32_t code = try_open(kind, middle);
            *wrong += code != TEV_OK && code != TEV_TOO_DEEP;
            if (code == TEV_OK)
                least = middle;
            else
                most = middle;
        }
        *wrong += use_text(kind, least);
        printf("%s%s: %zu levels\n", KINDS[kind].open, KINDS[kind].close, least);
        fflush(stdout);
    }
    return NULL;
}

int main(int count, char **words) {
    long wrong = 0;
    pthread_attr_t how;
    pthread_t thread;
    pthread_attr_init(&how);
    pthread_attr_setstacksize(&how, count > 1 ? atol(words[1]) * 1024 : 2048 * 1024);
    pthread_create(&thread, &how, work, &wrong);
    pthread_join(thread, NULL);
    printf("deep texts: %d kinds, %ld wrong\n", COUNT, wrong);
    return wrong != 0;
}
