/* Loaded before the C library: refuses one allocation, that with the number in the variable REFUSE. If the program makes
   it, the file that the variable REFUSED names is made, to show that it was refused. */
#define _GNU_SOURCE
#include <dlfcn.h>
#include <errno.h>
#include <fcntl.h>
#include <stdlib.h>
#include <unistd.h>

/* How many allocations are left up to the refused one; -1 before the first, 0 if none is left to refuse. */
static long left = -1;

/* Counts an allocation, and returns whether it is refused. */
static int refuses(void)
{
    if (left < 0) {
        const char *text = getenv("REFUSE");
        left = text ? atol(text) : 0;
    }
    if (left == 0 || --left > 0)
        return 0;
    close(open(getenv("REFUSED"), O_CREAT | O_WRONLY, 0600));
    errno = ENOMEM;
    return 1;
}

/* The function of this name in the C library. */
#define REAL(name) ((__typeof__(&name))dlsym(RTLD_NEXT, #name))

void *malloc(size_t n) { return refuses() ? NULL : REAL(malloc)(n); }
void *calloc(size_t n, size_t size) { return refuses() ? NULL : REAL(calloc)(n, size); }
void *realloc(void *at, size_t n) { return refuses() ? NULL : REAL(realloc)(at, n); }
void *aligned_alloc(size_t align, size_t n) { return refuses() ? NULL : REAL(aligned_alloc)(align, n); }
int posix_memalign(void **at, size_t align, size_t n)
{
    return refuses() ? ENOMEM : REAL(posix_memalign)(at, align, n);
}
