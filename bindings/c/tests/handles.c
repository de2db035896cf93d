/* Closed and open handles, and buffers that are empty, one item too short, and exact. */
#include "tevondimby.h"
#include <stdio.h>
#include <stdlib.h>
#include <string.h>

#define BYTES(words) (const uint8_t *)(words), strlen(words)
#define TEXT "fn f() { 1 + ; }"
static int wrong;

static void expect(const char *name, uint32_t code, uint32_t wanted) {
    if (code != wanted) {
        printf("%s: code %u, and not %u\n", name, code, wanted);
        wrong++;
    }
}

static tevondimby_handle document;
static size_t other;
static uint8_t words[4096], status;

typedef uint32_t reader(void *out, size_t room, size_t *written);
static uint32_t text(void *out, size_t room, size_t *written) { return tevondimby_text(&document, out, room, written); }
static uint32_t tokens(void *out, size_t room, size_t *written) { return tevondimby_tokens(&document, out, room, written); }
static uint32_t tree(void *out, size_t room, size_t *written) { return tevondimby_tree(&document, out, room, written); }
static uint32_t errors(void *out, size_t room, size_t *written) { return tevondimby_errors(&document, out, room, written, words, sizeof words, &other); }
static uint32_t changed(void *out, size_t room, size_t *written) { return tevondimby_changed(&document, out, room, written); }
static uint32_t name(void *out, size_t room, size_t *written) { return tevondimby_kind_name(200, out, room, written); }
static uint32_t run(void *out, size_t room, size_t *written) { return tevondimby_run(BYTES("{}"), out, room, written, &status); }
static const struct { const char *name; reader *call; size_t width; } READERS[] = {
    {"text", text, 1}, {"tokens", tokens, sizeof(tevondimby_token)}, {"tree", tree, sizeof(tevondimby_element)},
    {"errors", errors, sizeof(tevondimby_message)}, {"changed", changed, sizeof(tevondimby_range)}, {"kind_name", name, 1}, {"run", run, 1}};
enum { COUNT = sizeof READERS / sizeof *READERS, OF_HANDLES = 5 };

static int is_untouched(const uint8_t *bytes, size_t from, size_t to) {
    while (from < to && bytes[from] == 0xaa)
        from++;
    return from == to;
}

/* Calls a reader with room for `room` items of a buffer that is filled before. */
static void read_into(size_t which, size_t room, size_t count) {
    static uint8_t buffer[1 << 16];
    size_t written = 99, width = READERS[which].width;
    memset(buffer, 0xaa, sizeof buffer);
    expect(READERS[which].name, READERS[which].call(buffer, room, &written), room < count ? TEV_SHORT : TEV_OK);
    if (written != count || !is_untouched(buffer, room < count ? 0 : count * width, sizeof buffer)) {
        printf("%s, room %zu: written %zu, or the buffer is not as before\n", READERS[which].name, room, written);
        wrong++;
    }
}

static void read_all(void) {
    for (size_t which = 0; which < COUNT; which++) {
        size_t count = 0;
        uint32_t code = READERS[which].call(words, 0, &count);
        expect(READERS[which].name, code, count ? TEV_SHORT : TEV_OK);
        read_into(which, 0, count);
        read_into(which, count, count);
        read_into(which, count + 1, count);
        if (count)
            read_into(which, count - 1, count);
    }
}

static void use_closed(void) {
    for (size_t which = 0; which < OF_HANDLES; which++) {
        size_t written = 99;
        uint8_t buffer[64];
        memset(buffer, 0xaa, sizeof buffer);
        expect(READERS[which].name, READERS[which].call(buffer, 1, &written), TEV_NOT_OPEN);
        wrong += written != 0 || !is_untouched(buffer, 0, sizeof buffer);
    }
    expect("edit", tevondimby_edit(&document, 0, 0, BYTES("x")), TEV_NOT_OPEN);
    expect("commit", tevondimby_commit(&document, BYTES("[]")), TEV_NOT_OPEN);
    expect("rename", tevondimby_rename(&document, BYTES("f"), BYTES("g")), TEV_NOT_OPEN);
    expect("free", tevondimby_free(&document), TEV_NOT_OPEN);
    wrong += document.is_open != 0;
}

static void use_refusals(void) {
    size_t n;
    uint8_t *long_text = calloc(1, 16777217);
    memset(long_text, ' ', 16777217);
    expect("open twice", tevondimby_open(&document, BYTES("x"), 2021, 0), TEV_IS_OPEN);
    expect("range", tevondimby_edit(&document, 5, 4, BYTES("")), TEV_RANGE);
    expect("range", tevondimby_edit(&document, 0, 17, BYTES("")), TEV_RANGE);
    expect("range", tevondimby_edit(&document, SIZE_MAX, SIZE_MAX, BYTES("")), TEV_RANGE);
    expect("utf-8", tevondimby_edit(&document, 0, 0, BYTES("\xff")), TEV_NOT_UTF8);
    expect("long", tevondimby_edit(&document, 0, 0, long_text, 16777217 - strlen(TEXT)), TEV_TOO_LONG);
    expect("long", tevondimby_check(long_text, 16777217, 2021, 0, &n), TEV_TOO_LONG);
    expect("edition", tevondimby_check(BYTES("\xff"), 2022, 0, &n), TEV_NO_SUCH);
    expect("grammar", tevondimby_check(BYTES("\xff"), 2021, 2, &n), TEV_NO_SUCH);
    expect("utf-8", tevondimby_check(BYTES("\xff"), 2021, 0, &n), TEV_NOT_UTF8);
    expect("kind", tevondimby_kind_name(65536, words, sizeof words, &n), TEV_NO_SUCH);
    expect("kind", tevondimby_kind_name(65535, words, sizeof words, &n), TEV_NO_SUCH);
    expect("no commit", tevondimby_commit(&document, BYTES("[{\"do\":\"tree\"}]")), TEV_NO_COMMAND);
    expect("no commit", tevondimby_commit(&document, BYTES("[]")), TEV_NO_COMMAND);
    expect("no json", tevondimby_commit(&document, BYTES("[")), TEV_NO_COMMAND);
    expect("utf-8", tevondimby_commit(&document, BYTES("\xff")), TEV_NOT_UTF8);
    expect("no name", tevondimby_rename(&document, BYTES("f"), BYTES("if")), TEV_NO_COMMAND);
    expect("no name", tevondimby_rename(&document, BYTES("f"), BYTES("(")), TEV_NO_COMMAND);
    expect("target", tevondimby_commit(&document, BYTES("[{\"do\":\"commit\",\"changes\":[{\"op\":\"delete\",\"at\":[\"IDENT\",0,1]}]}]")), TEV_NO_TARGET);
    expect("text", tevondimby_text(&document, words, sizeof words, &n), TEV_OK);
    wrong += n != strlen(TEXT) || memcmp(words, TEXT, n) != 0;
    free(long_text);
}

int main(void) {
    use_closed();
    expect("open", tevondimby_open(&document, BYTES(TEXT), 2021, 0), TEV_OK);
    read_all();
    use_refusals();
    expect("free", tevondimby_free(&document), TEV_OK);
    use_closed();
    printf("handles and buffers: %d wrong\n", wrong);
    return wrong != 0;
}
