/* Deep texts that edits, commits, renamings and requests make, on a stack of KIB KiB: made KIB. Each that is too deep is refused, and
 * changes nothing. */
#include "tevondimby.h"
#include <pthread.h>
#include <stdio.h>
#include <stdlib.h>
#include <string.h>

enum { HALF = 3000, QUARTER = 2000, FRONT = 7 };
static char expression[8 * HALF], text[16 * HALF], bytes[16 * HALF], command[32 * HALF], request[64 * HALF];
static int count, wrong;

static void expect(const char *what, uint32_t code, uint32_t wanted) {
    count++;
    if (code != wanted) {
        wrong++;
        printf("%s: code %u, not %u\n", what, code, wanted);
    }
}

/* Writes 1 in as many parentheses, and a function of that. */
static void nest(int depth) {
    memset(expression, '(', depth);
    expression[depth] = '1';
    memset(expression + depth + 1, ')', depth);
    expression[2 * depth + 1] = 0;
    sprintf(text, "fn f(){%s;}", expression);
}

/* Writes the commit that puts the expression for the literal in it. */
static void write_commit(int depth) {
    int at = FRONT + depth;
    sprintf(command, "[{\"do\":\"commit\",\"changes\":[{\"op\":\"replace\",\"at\":[\"LITERAL\",%d,%d],\"with\":[\"expr\",\"%s\"]}]}]", at, at + 1, expression);
}

static uint32_t open_text(tevondimby_handle *document, uint32_t edition) {
    return tevondimby_open(document, (const uint8_t *)text, strlen(text), edition, TEV_WHOLE);
}

static int has_text(tevondimby_handle *document) {
    size_t written;
    return tevondimby_text(document, (uint8_t *)bytes, sizeof bytes, &written) == TEV_OK && written == strlen(text) && memcmp(bytes, text, written) == 0;
}

/* An edit and a commit that nest two expressions. */
static void try_changes(int depth, uint32_t wanted) {
    tevondimby_handle document = {0};
    nest(depth);
    write_commit(depth);
    expect("open", open_text(&document, 2021), TEV_OK);
    expect("commit", tevondimby_commit(&document, (const uint8_t *)command, strlen(command)), wanted);
    expect("text after the commit", has_text(&document), wanted != TEV_OK);
    tevondimby_free(&document);
    expect("open", open_text(&document, 2021), TEV_OK);
    expect("edit", tevondimby_edit(&document, FRONT + depth, FRONT + depth + 1, (const uint8_t *)expression, 2 * depth + 1), wanted);
    expect("text after the edit", has_text(&document), wanted != TEV_OK);
    tevondimby_free(&document);
}

/* A commit that takes out what ends each of many short statements. */
static void try_deletions(int statements, uint32_t wanted) {
    tevondimby_handle document = {0};
    char *at = stpcpy(text, "fn f(){"), *end = stpcpy(command, "[{\"do\":\"commit\",\"changes\":[");
    for (int i = 0; i < statements; i++) {
        int start = at - text;
        at = stpcpy(at, i + 1 < statements ? "!b;" : "!b");
        if (i + 1 < statements)
            end += sprintf(end, "%s{\"op\":\"replace\",\"at\":[\"SEMICOLON\",%d,%d],\"with\":[\"token\",\"&&\"]}", i ? "," : "", start + 2, start + 3);
    }
    strcpy(at, "}");
    strcpy(end, "]}]");
    expect("open", open_text(&document, 2021), TEV_OK);
    uint32_t code = tevondimby_commit(&document, (const uint8_t *)command, strlen(command));
    if (wanted)
        expect("deletions", code, wanted);
    else
        expect("deletions", code != TEV_TOO_DEEP, 1);
    expect("text after deletions", wanted ? has_text(&document) : 1, 1);
    tevondimby_free(&document);
}

/* A renaming by which what a string holds is read. */
static void try_renaming(int depth, uint32_t wanted) {
    tevondimby_handle document = {0};
    char *at = stpcpy(text, "fn f(){m!(a#\"\\\"#");
    memset(at, '(', depth);
    strcpy(at + depth, "\")}");
    expect("open", open_text(&document, 2018), TEV_OK);
    uint32_t code = tevondimby_rename(&document, (const uint8_t *)"a", 1, (const uint8_t *)"r", 1);
    if (wanted)
        expect("rename", code, wanted);
    else
        expect("rename", code != TEV_TOO_DEEP, 1);
    expect("text after the renaming", wanted ? has_text(&document) : 1, 1);
    tevondimby_free(&document);
}

static uint32_t run(const char *commands) {
    size_t written;
    uint8_t status = 7, byte = 7;
    sprintf(request, "{\"edition\":\"2021\",\"text\":\"%s\",\"commands\":%s}", text, commands);
    uint32_t code = tevondimby_run((const uint8_t *)request, strlen(request), &byte, 1, &written, &status);
    if (code == TEV_TOO_DEEP)
        expect("run writes nothing", byte == 7 && status == 7 && written == 0, 1);
    return code;
}

static void try_requests(int depth, uint32_t wanted) {
    static char edit[16 * HALF];
    nest(2 * depth);
    expect("run", run("[{\"do\":\"tree\"}]"), wanted);
    nest(depth);
    write_commit(depth);
    expect("run of a commit", run(command), wanted);
    sprintf(edit, "[{\"do\":\"edit\",\"start\":%d,\"end\":%d,\"text\":\"%s\"}]", FRONT + depth, FRONT + depth + 1, expression);
    expect("run of an edit", run(edit), wanted);
}

static void *work(void *none) {
    try_changes(HALF, TEV_TOO_DEEP);
    try_changes(QUARTER, TEV_OK);
    try_requests(HALF, TEV_TOO_DEEP);
    try_requests(QUARTER, TEV_SHORT);
    try_deletions(20, TEV_OK);
    try_renaming(2 * HALF, TEV_TOO_DEEP);
    try_renaming(QUARTER, TEV_OK);
    return none;
}

int main(int words, char **word) {
    pthread_attr_t how;
    pthread_t thread;
    pthread_attr_init(&how);
    pthread_attr_setstacksize(&how, words > 1 ? atol(word[1]) * 1024 : 2048 * 1024);
    pthread_create(&thread, &how, work, NULL);
    pthread_join(thread, NULL);
    printf("made texts: %d checks, %d wrong\n", count, wrong);
    return wrong != 0;
}
