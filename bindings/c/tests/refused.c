/* Each allocation of each export fails in turn: the code is 3, and the text and the allocated blocks are as before, or the call does
 * without the allocation and its code is 0. */
#include "tevondimby.h"
#include <stdio.h>
#include <string.h>

void *__libc_malloc(size_t);
void *__libc_realloc(void *, size_t);
void __libc_free(void *);
static long calls, refused_call, live, is_counted, absorbed;

static int is_refused(void) { return is_counted && ++calls == refused_call; }
static void *counted(void *block) {
    live += block && is_counted;
    return block;
}
void *malloc(size_t size) { return is_refused() ? NULL : counted(__libc_malloc(size)); }
void *realloc(void *block, size_t size) {
    if (is_refused())
        return NULL;
    return block ? __libc_realloc(block, size) : counted(__libc_malloc(size));
}
void free(void *block) {
    live -= block && is_counted;
    __libc_free(block);
}

#define BYTES(words) (const uint8_t *)(words), strlen(words)
#define TEXT "fn twice(a: u32) -> u32 { a * 2 }\nstruct S { x: u8 }\n/// d\nfn g( {}"
#define COMMIT "[{\"do\":\"commit\",\"changes\":[{\"op\":\"replace\",\"at\":[\"PATH_EXPR\",26,27],\"with\":[\"expr\",\"(1 + 2)\"]}]}]"
#define REQUEST "{\"edition\":\"2021\",\"text\":\"fn f() { a * 2 }\",\"commands\":[{\"do\":\"tree\"},{\"do\":\"edit\",\"start\":9,\"end\":10,\"text\":\"bb\"},{\"do\":\"errors\"},{\"do\":\"commit\",\"changes\":[{\"op\":\"replace\",\"at\":[\"IDENT\",9,11],\"with\":[\"token\",\"c\"]}]}]}"

enum { RUN, CHECK, KIND_NAME, OPEN, EDIT, COMMIT_CALL, RENAME, TEXT_CALL, TOKENS, TREE, ERRORS, CHANGED, FREE, CALLS };
static const char *const NAMES[] = {"run", "check", "kind_name", "open", "edit", "commit", "rename", "text", "tokens", "tree", "errors", "changed", "free"};
static tevondimby_handle document;
static uint8_t out[1 << 16], words[1 << 14];
static tevondimby_token tokens[4096];
static tevondimby_element tree[4096];
static tevondimby_message messages[256];
static tevondimby_range ranges[256];

static uint32_t call(int which) {
    size_t n, m;
    uint8_t status;
    switch (which) {
    case RUN: return tevondimby_run(BYTES(REQUEST), out, sizeof out, &n, &status);
    case CHECK: return tevondimby_check(BYTES(TEXT), 2021, 0, &n);
    case KIND_NAME: return tevondimby_kind_name(3, out, sizeof out, &n);
    case OPEN: return tevondimby_open(&document, BYTES(TEXT), 2021, 0);
    case EDIT: return tevondimby_edit(&document, 26, 27, BYTES("bcd"));
    case COMMIT_CALL: return tevondimby_commit(&document, BYTES(COMMIT));
    case RENAME: return tevondimby_rename(&document, BYTES("twice"), BYTES("x"));
    case TEXT_CALL: return tevondimby_text(&document, out, sizeof out, &n);
    case TOKENS: return tevondimby_tokens(&document, tokens, 4096, &n);
    case TREE: return tevondimby_tree(&document, tree, 4096, &n);
    case ERRORS: return tevondimby_errors(&document, messages, 256, &n, words, sizeof words, &m);
    case CHANGED: return tevondimby_changed(&document, ranges, 256, &n);
    default: return tevondimby_free(&document);
    }
}

static int has_text(const char *text) {
    size_t n;
    return tevondimby_text(&document, out, sizeof out, &n) == TEV_OK && n == strlen(text) && !memcmp(out, text, n);
}

/* Makes a call with an allocation refused. Returns how many things are wrong with it; `done` says that it has no such allocation. */
static long try_call(int which, long refusal, long *done) {
    long wrong = 0;
    memset(&document, 0, sizeof document);
    if (which > OPEN && tevondimby_open(&document, BYTES(TEXT), 2021, 0))
        return 1;
    calls = live = 0;
    refused_call = refusal;
    is_counted = 1;
    uint32_t code = call(which);
    is_counted = 0;
    *done = calls < refusal;
    int is_absorbed = !*done && code == TEV_OK;
    absorbed += is_absorbed;
    wrong += !*done && !is_absorbed && code != TEV_NO_MEMORY;
    wrong += *done && code != TEV_OK;
    wrong += code == TEV_NO_MEMORY && live != 0;
    if (document.is_open) {
        wrong += code == TEV_NO_MEMORY && !has_text(TEXT);
        wrong += tevondimby_edit(&document, 0, 0, BYTES(" ")) != TEV_OK;
        wrong += tevondimby_free(&document) != TEV_OK;
    }
    return wrong;
}

int main(void) {
    long sum = 0;
    for (int which = 0; which < CALLS; which++) {
        long refusal = 0, wrong = 0, done = 0;
        absorbed = 0;
        while (!done)
            wrong += try_call(which, ++refusal, &done);
        printf("%s: %ld allocations refused, %ld of them done without, %ld wrong\n", NAMES[which], refusal - 1, absorbed, wrong);
        sum += wrong;
    }
    return sum != 0;
}
