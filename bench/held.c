/* Says, after each line that the program writes to standard error, how many bytes of memory it holds, and the sizes of the blocks of
   64 KiB and more among them, by what it asked for. */
#define _GNU_SOURCE
#include <dlfcn.h>
#include <errno.h>
#include <malloc.h>
#include <stddef.h>
#include <stdio.h>
#include <unistd.h>

void *__libc_malloc(size_t);
void *__libc_calloc(size_t, size_t);
void *__libc_realloc(void *, size_t);
void *__libc_memalign(size_t, size_t);
void __libc_free(void *);

enum { LARGE = 1 << 16, MOST = 256 };

static long held;
static struct {
    void *block;
    size_t size;
} large[MOST];

static void *noted(void *block, size_t size)
{
    if (!block)
        return block;
    held += malloc_usable_size(block);
    for (int i = 0; size >= LARGE && i < MOST; i++)
        if (!large[i].block) {
            large[i].block = block;
            large[i].size = size;
            break;
        }
    return block;
}

static void *forgotten(void *block)
{
    if (!block)
        return block;
    held -= malloc_usable_size(block);
    for (int i = 0; i < MOST; i++)
        if (large[i].block == block)
            large[i].block = NULL;
    return block;
}

void *malloc(size_t size)
{
    return noted(__libc_malloc(size), size);
}

void *calloc(size_t count, size_t size)
{
    return noted(__libc_calloc(count, size), count * size);
}

void *realloc(void *block, size_t size)
{
    void *moved = __libc_realloc(forgotten(block), size);
    return noted(moved ? moved : block, size);
}

void *aligned_alloc(size_t alignment, size_t size)
{
    return noted(__libc_memalign(alignment, size), size);
}

int posix_memalign(void **block, size_t alignment, size_t size)
{
    *block = noted(__libc_memalign(alignment, size), size);
    return *block ? 0 : ENOMEM;
}

void free(void *block)
{
    __libc_free(forgotten(block));
}

ssize_t write(int file, const void *bytes, size_t count)
{
    ssize_t (*next)(int, const void *, size_t) = dlsym(RTLD_NEXT, "write");
    ssize_t written = next(file, bytes, count);
    if (file == 2) {
        char line[8192];
        int end = snprintf(line, sizeof line, "held: %ld bytes:", held);
        for (int i = 0; i < MOST; i++)
            if (large[i].block)
                end += snprintf(line + end, sizeof line - end, " %zu", large[i].size);
        end += snprintf(line + end, sizeof line - end, "\n");
        next(2, line, end);
    }
    return written;
}
