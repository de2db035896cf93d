/* Answers the requests of standard input, and compares the answers: each is the sizes of a request and its output, 4 bytes each with the
 * lowest first, a byte with its status, the request and the output. A buffer without room, and one that is a byte too short, stay as
 * they are. */
#include "tevondimby.h"
#include <stdio.h>
#include <stdlib.h>
#include <string.h>

static size_t size_of(const uint8_t *bytes) { return bytes[0] | bytes[1] << 8 | bytes[2] << 16 | (size_t)bytes[3] << 24; }

/* Returns how many things are wrong with the answer to a request, in a buffer of `room` bytes. */
static long try_request(const uint8_t *request, size_t size, const uint8_t *output, size_t wanted, size_t room, uint8_t wanted_status) {
    uint8_t *out = malloc(room + 1), status = 255;
    size_t written = 99;
    memset(out, 0xaa, room + 1);
    uint32_t code = tevondimby_run(request, size, out, room, &written, &status);
    long wrong = code != (room < wanted ? TEV_SHORT : TEV_OK) || written != wanted || status != wanted_status || out[room] != 0xaa;
    for (size_t i = 0; i < room; i++)
        wrong += out[i] != (room < wanted ? 0xaa : output[i]);
    free(out);
    return wrong;
}

int main(void) {
    uint8_t head[9];
    long count = 0, wrong = 0;
    while (fread(head, 1, sizeof head, stdin) == sizeof head) {
        size_t size = size_of(head), wanted = size_of(head + 4);
        uint8_t *request = malloc(size + 1), *output = malloc(wanted + 1);
        if (fread(request, 1, size, stdin) != size || fread(output, 1, wanted, stdin) != wanted)
            return 2;
        long found = try_request(request, size, output, wanted, wanted, head[8]) + try_request(request, size, output, wanted, 0, head[8]);
        if (wanted)
            found += try_request(request, size, output, wanted, wanted - 1, head[8]);
        wrong += found != 0;
        count++;
        free(request);
        free(output);
    }
    printf("%ld requests, %ld answers differ\n", count, wrong);
    return wrong != 0;
}
