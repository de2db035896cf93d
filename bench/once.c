/* Answers the request of standard input by the library: a process for each request, for bench/library.py. */
#include "tevondimby.h"
#include <stdio.h>
#include <stdlib.h>

int main(void) {
    size_t size = 0, room = 1 << 16, written = 0;
    uint8_t *request = malloc(room), *out, status = 2;
    for (size_t got; (got = fread(request + size, 1, room - size, stdin)) > 0;)
        if ((size += got) == room)
            request = realloc(request, room *= 2);
    room = 4 * size + 4096;
    out = malloc(room);
    if (tevondimby_run(request, size, out, room, &written, &status) == TEV_SHORT)
        tevondimby_run(request, size, out = realloc(out, written), written, &written, &status);
    fwrite(out, 1, written, stdout);
    return status;
}
