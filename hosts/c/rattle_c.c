/* What a program of the kit calls of its C functions, for a processor that the kit has none for. */
#include <errno.h>
#include <stdbool.h>
#include <stddef.h>
#include <stdlib.h>

struct tried {
    bool ok;
    void *at;
};

int rattle_errno(void);
void rattle_set_errno(int error);
struct tried rattle_alloc(size_t size, size_t alignment);
struct tried rattle_realloc(void *at, size_t kept, size_t size, size_t alignment);
void rattle_dealloc(void *at);

int rattle_errno(void)
{
    return errno;
}

void rattle_set_errno(int error)
{
    errno = error;
}

/* Where there is no memory the answer names a byte that nothing owns. */
static struct tried answer(void *at)
{
    static char none;
    return (struct tried){at != NULL, at != NULL ? at : &none};
}

/* A block of no bytes has an address too. The C library's blocks are aligned to 16. */
struct tried rattle_alloc(size_t size, size_t alignment)
{
    return answer(malloc(size != 0 ? size : alignment));
}

struct tried rattle_realloc(void *at, size_t kept, size_t size, size_t alignment)
{
    (void)kept;
    return answer(realloc(at, size != 0 ? size : alignment));
}

void rattle_dealloc(void *at)
{
    free(at);
}
