/* Refuses one request for memory of the program that it is loaded into: the one of the number REFUSE, counted from 1. Where that
   comes, it makes the file REFUSED. (No header is included: the kit's compiler comes without those of the C library.) */
typedef __SIZE_TYPE__ size_t;

#define NULL ((void *)0)
#define ENOMEM 12
#define O_WRONLY 01
#define O_CREAT 0100

void *__libc_malloc(size_t);
void *__libc_calloc(size_t, size_t);
void *__libc_realloc(void *, size_t);
void *__libc_memalign(size_t, size_t);
size_t malloc_usable_size(void *);
int *__errno_location(void);
char *getenv(const char *);
long atol(const char *);
int open(const char *, int, ...);
int close(int);

static long left;

__attribute__((constructor)) static void count(void)
{
    const char *number = getenv("REFUSE");
    left = number ? atol(number) : 0;
}

static int is_refused(void)
{
    if (left == 0 || --left > 0)
        return 0;
    close(open(getenv("REFUSED"), O_CREAT | O_WRONLY, 0600));
    *__errno_location() = ENOMEM;
    return 1;
}

void *malloc(size_t size)
{
    return is_refused() ? NULL : __libc_malloc(size);
}

void *calloc(size_t count, size_t size)
{
    return is_refused() ? NULL : __libc_calloc(count, size);
}

/* A block that is to be smaller asks for nothing: a list that keeps its spare room is as good. */
void *realloc(void *block, size_t size)
{
    if (block != NULL && size <= malloc_usable_size(block))
        return __libc_realloc(block, size);
    return is_refused() ? NULL : __libc_realloc(block, size);
}

void *aligned_alloc(size_t alignment, size_t size)
{
    return is_refused() ? NULL : __libc_memalign(alignment, size);
}

int posix_memalign(void **block, size_t alignment, size_t size)
{
    if (is_refused())
        return ENOMEM;
    *block = __libc_memalign(alignment, size);
    return *block ? 0 : ENOMEM;
}
