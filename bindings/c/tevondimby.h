/* tevondimby.h: the Rust syntax stack Tevondimby, for C.
 *
 * Each function returns a TEV_ code. A slice is a pointer and the number of its items; no pointer is NULL, even if the number is 0.
 * `written` gets the number of items that the whole answer has. At TEV_SHORT the buffer is too short for it and is unchanged: a call
 * with a buffer of that number of items gives the answer. At any other code but TEV_OK it is 0. No call keeps a pointer.
 *
 * A handle whose bytes are all 0 is closed. It belongs to one call at a time, is not copied while it is open, and its members are
 * neither read nor written. Each thread may use handles of its own at any time. At a code other than TEV_OK the document is as before.
 * Offsets are in bytes. 2 MiB of stack suffice for what is not TEV_TOO_DEEP: tried, not proved. The numbers of kinds are those of this version. */
#ifndef TEVONDIMBY_H
#define TEVONDIMBY_H
#include <stddef.h>
#include <stdint.h>
#ifdef __cplusplus
extern "C" {
#endif

enum {
    TEV_OK = 0,
    TEV_SHORT = 1,
    TEV_NOT_UTF8 = 2,
    TEV_NO_MEMORY = 3,
    TEV_NO_SUCH = 4,          /* no such edition, grammar or kind */
    TEV_TOO_LONG = 5,         /* more than 16,777,216 bytes */
    TEV_RANGE = 6,            /* it begins after its end, ends after the text, or has an end inside of a character */
    TEV_NOT_OPEN = 7,
    TEV_IS_OPEN = 8,
    TEV_NO_NUMBER = 9,        /* no tree number is left */
    TEV_NO_COMMAND = 10,      /* it is no commit, or no name */
    TEV_UNFAITHFUL = 11,      /* the new text does not read as the rewritten tree */
    TEV_NO_TARGET = 12,       /* no element has the target's kind and range */
    TEV_PAYLOAD = 13,         /* a text is not what it is to be read as */
    TEV_NO_PARENT = 14,       /* the root has no siblings */
    TEV_BAD_TARGET = 15,      /* the root would be deleted, or a token would replace it */
    TEV_INTERSECTING = 16,    /* two changes replace one element */
    TEV_MISSING_MAPPING = 17, /* a change in a replaced element has no place in what replaces it */
    TEV_TOO_DEEP = 18         /* reading might take more levels than 2 MiB of stack hold */
};
enum { TEV_EDITION_2015 = 2015, TEV_EDITION_2018 = 2018, TEV_EDITION_2021 = 2021, TEV_EDITION_2024 = 2024, TEV_EDITION_NEXT = 0 };
enum { TEV_PROFILE = 0, TEV_WHOLE = 1 };

typedef struct { uint64_t is_open; void *at; } tevondimby_handle;
typedef struct { uint32_t start, end; } tevondimby_range;
typedef struct { uint32_t kind, start, end; } tevondimby_token;
/* In preorder; `depth` is the number of nodes around it. */
typedef struct { uint32_t kind, depth, start, end; } tevondimby_element;
/* `words_start` and `words_end` are a range of the bytes of all words. */
typedef struct { uint32_t offset, words_start, words_end; } tevondimby_message;

/* Answers a request as the program document_tool does; `status` gets its exit status. TEV_TOO_DEEP: one of its texts is. */
uint32_t tevondimby_run(const uint8_t *request, size_t request_len, uint8_t *out, size_t out_len, size_t *written, uint8_t *status);
/* Counts the messages of a text. */
uint32_t tevondimby_check(const uint8_t *text, size_t text_len, uint32_t edition, uint32_t grammar, size_t *count);
/* Writes the name of a kind. */
uint32_t tevondimby_kind_name(uint32_t kind, uint8_t *out, size_t out_len, size_t *written);

/* Opens a document in a closed handle. */
uint32_t tevondimby_open(tevondimby_handle *handle, const uint8_t *text, size_t text_len, uint32_t edition, uint32_t grammar);
/* Closes an open handle and frees its document. */
uint32_t tevondimby_free(tevondimby_handle *handle);
/* Replaces the bytes from `start` to just before `end`. */
uint32_t tevondimby_edit(tevondimby_handle *handle, size_t start, size_t end, const uint8_t *text, size_t text_len);
/* Makes all changes of one commit, or none: [{"do":"commit","changes":[..]}]. */
uint32_t tevondimby_commit(tevondimby_handle *handle, const uint8_t *command, size_t command_len);
/* Renames each identifier `old_name`. */
uint32_t tevondimby_rename(tevondimby_handle *handle, const uint8_t *old_name, size_t old_len, const uint8_t *new_name, size_t new_len);

/* Writes the text. */
uint32_t tevondimby_text(tevondimby_handle *handle, uint8_t *out, size_t out_len, size_t *written);
/* Writes the tokens in order, trivia included. */
uint32_t tevondimby_tokens(tevondimby_handle *handle, tevondimby_token *out, size_t out_len, size_t *written);
/* Writes the elements of the tree. */
uint32_t tevondimby_tree(tevondimby_handle *handle, tevondimby_element *out, size_t out_len, size_t *written);
/* Writes the messages and their words, if both buffers suffice. */
uint32_t tevondimby_errors(tevondimby_handle *handle, tevondimby_message *out, size_t out_len, size_t *written, uint8_t *words, size_t words_len, size_t *words_written);
/* Writes the ranges that the last accepted commit put into the text. */
uint32_t tevondimby_changed(tevondimby_handle *handle, tevondimby_range *out, size_t out_len, size_t *written);

#ifdef __cplusplus
}
#endif
#endif
