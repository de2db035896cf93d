/* Random edits against a mirror of the text: edits EDITS THREADS KIB, each thread with a stack of KIB KiB. Some of them put a text of
 * more than 16 MiB, or one that is not UTF-8, or have no such range: they change nothing. */
#include "tevondimby.h"
#include <pthread.h>
#include <stdio.h>
#include <stdlib.h>
#include <string.h>

#define ROOM 8192
#define LONG ((16 << 20) + 1)
#define TEXT "fn twice(a: u32) -> u32 { a * 2 }\nstruct S { x: u8 } // \xc3\xa9\n"

static const char *const PIECES[] = {"", "a", "(", ")", "{", "}", " + 1", "\"", "/*", "*/", "\n", "\xc3\xa9", "\xe2\x86\x92", "\xff", "if x ", "<", ";", "'", "fn f() {}"};
static long edits;
static char *long_text;

struct run {
    unsigned seed;
    long wrong, refused;
    char mirror[ROOM];
    size_t length;
    tevondimby_handle document;
};

static int is_boundary(const struct run *run, size_t at) {
    return at == run->length || (at < run->length && (run->mirror[at] & 0xc0) != 0x80);
}

static uint32_t wanted_code(const struct run *run, size_t start, size_t end, const char *put) {
    if (*put == '\xff')
        return TEV_NOT_UTF8;
    if (start > end || end > run->length || !is_boundary(run, start) || !is_boundary(run, end))
        return TEV_RANGE;
    return put == long_text ? TEV_TOO_LONG : TEV_OK;
}

static void edit(struct run *run) {
    size_t start = rand_r(&run->seed) % (run->length + 3), end = start + rand_r(&run->seed) % 6 - 1;
    if (run->length > 3000)
        start = 0, end = run->length;
    const char *put = PIECES[rand_r(&run->seed) % (sizeof PIECES / sizeof *PIECES)];
    if (rand_r(&run->seed) % 1000 == 0)
        put = long_text;
    size_t size = put == long_text ? LONG : strlen(put);
    uint32_t code = tevondimby_edit(&run->document, start, end, (const uint8_t *)put, size);
    run->wrong += code != wanted_code(run, start, end, put);
    if (code != TEV_OK) {
        run->refused++;
        return;
    }
    memmove(run->mirror + start + size, run->mirror + end, run->length - end);
    memcpy(run->mirror + start, put, size);
    run->length += size - (end - start);
}

static void compare(struct run *run) {
    static _Thread_local uint8_t text[ROOM];
    static _Thread_local tevondimby_token tokens[ROOM];
    static _Thread_local tevondimby_element tree[4 * ROOM];
    size_t count;
    run->wrong += tevondimby_text(&run->document, text, ROOM, &count) || count != run->length || memcmp(text, run->mirror, count);
    run->wrong += tevondimby_tokens(&run->document, tokens, ROOM, &count) != TEV_OK;
    uint32_t at = 0;
    for (size_t i = 0; i < count; at = tokens[i++].end)
        run->wrong += tokens[i].start != at || tokens[i].end <= at;
    run->wrong += at != run->length;
    run->wrong += tevondimby_tree(&run->document, tree, 4 * ROOM, &count) != TEV_OK;
    at = 0;
    for (size_t i = 0; i < count; i++)
        if ((i + 1 == count || tree[i + 1].depth <= tree[i].depth) && tree[i].start != tree[i].end) {
            run->wrong += tree[i].start != at;
            at = tree[i].end;
        }
    run->wrong += at != run->length || tree[0].start != 0 || tree[0].end != run->length || tree[0].depth != 0;
}

static void *work(void *given) {
    struct run *run = given;
    run->length = strlen(TEXT);
    memcpy(run->mirror, TEXT, run->length);
    if (tevondimby_open(&run->document, (const uint8_t *)TEXT, run->length, TEV_EDITION_2021, run->seed % 2)) {
        run->wrong++;
        return NULL;
    }
    for (long i = 0; i < edits; i++) {
        edit(run);
        compare(run);
    }
    run->wrong += tevondimby_free(&run->document) != TEV_OK;
    return NULL;
}

int main(int count, char **words) {
    if (count < 4)
        return 2;
    edits = atol(words[1]);
    long_text = malloc(LONG);
    memset(long_text, ' ', LONG);
    long threads = atol(words[2]), wrong = 0, refused = 0;
    struct run *runs = calloc(threads, sizeof *runs);
    pthread_t *started = calloc(threads, sizeof *started);
    pthread_attr_t how;
    pthread_attr_init(&how);
    pthread_attr_setstacksize(&how, atol(words[3]) * 1024);
    for (long i = 0; i < threads; i++) {
        runs[i].seed = i + 1;
        pthread_create(&started[i], &how, work, &runs[i]);
    }
    for (long i = 0; i < threads; i++) {
        pthread_join(started[i], NULL);
        wrong += runs[i].wrong;
        refused += runs[i].refused;
    }
    pthread_attr_destroy(&how);
    free(started);
    free(runs);
    free(long_text);
    printf("%ld edits in %ld threads, %ld of them refused, %ld wrong\n", edits * threads, threads, refused, wrong);
    return wrong != 0;
}
