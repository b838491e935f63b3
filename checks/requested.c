/* Loaded before the C library: compares the requests of each heap with what the heap said, for the test
   each_heap_asks_for_the_memory_it_says of cf_tool. A request of BEFORE bytes says that the next three requests are numbers:
   how many blocks the heap asks for, their bytes, and those of the largest. One of AFTER bytes ends the heap's requests. Prints
   a line for each heap that asks for something else, and at the end how many heaps agreed. */
#define _GNU_SOURCE
#include <dlfcn.h>
#include <stdio.h>
#include <stdlib.h>

enum { BEFORE = 1000003, AFTER = 1000033 };

static size_t wanted[3], given[3];
static int numbers = -1, agreed;

/* Counts a request. */
static void see(size_t bytes)
{
    if (bytes == BEFORE) {
        numbers = 0;
        given[0] = given[1] = given[2] = 0;
    } else if (bytes == AFTER && numbers == 3) {
        numbers = -1;
        if (given[0] == wanted[0] && given[1] == wanted[1] && given[2] == wanted[2])
            agreed++;
        else
            printf("a heap asks for %zu blocks, %zu bytes, at most %zu; it says %zu, %zu, %zu\n", given[0], given[1],
                   given[2], wanted[0], wanted[1], wanted[2]);
    } else if (numbers >= 0 && numbers < 3) {
        wanted[numbers++] = bytes;
    } else if (numbers == 3) {
        given[0]++;
        given[1] += bytes;
        given[2] = bytes > given[2] ? bytes : given[2];
    }
}

/* The function of this name in the C library. */
#define REAL(name) ((__typeof__(&name))dlsym(RTLD_NEXT, #name))

void *malloc(size_t n) { see(n); return REAL(malloc)(n); }
void *calloc(size_t n, size_t size) { see(n * size); return REAL(calloc)(n, size); }
void *realloc(void *at, size_t n) { see(n); return REAL(realloc)(at, n); }
void *aligned_alloc(size_t align, size_t n) { see(n); return REAL(aligned_alloc)(align, n); }
int posix_memalign(void **at, size_t align, size_t n) { see(n); return REAL(posix_memalign)(at, align, n); }

__attribute__((destructor)) static void report(void) { printf("%d heaps ask for what they say\n", agreed); }
