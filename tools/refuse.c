/* Refuses requests for memory of the program that it is loaded before (`LD_PRELOAD`), as the program orders it to by
   requests of agreed sizes:

   FIRST              ends what was ordered, and is itself refused where a request was;
   FIRST + n          refuses the n-th request from now on, n being 1 to MOST;
   FIRST + MOST + n   refuses the n-th request from now on, and every one behind it.

   With REFUSE_AT=n in the environment the n-th request of the whole program is refused, with no order. With REFUSE_COUNT=PATH
   the number of requests since the last order, or since the beginning, is written into that file at the end.

   To make a block no larger is no request. So each block ends with the size that was asked for, in the bytes behind
   those that the program may use. */
#define _GNU_SOURCE
#include <dlfcn.h>
#include <errno.h>
#include <malloc.h>
#include <stdint.h>
#include <stdio.h>
#include <stdlib.h>
#include <string.h>

enum { FIRST = 1048577, MOST = 65535, LAST = FIRST + 2 * MOST };

static void *(*real_malloc)(size_t);
static void *(*real_calloc)(size_t, size_t);
static void *(*real_realloc)(void *, size_t);
static int (*real_posix_memalign)(void **, size_t, size_t);
static void *(*real_aligned_alloc)(size_t, size_t);

/* How many requests there were since the last order, which are refused, and how many were. */
static size_t requests, refused_from, refused_to, refused;

/* Finds the real functions. What is asked for until these are known is refused. */
static void begin(void) {
    static int has_begun;
    if (has_begun) return;
    has_begun = 1;
    const char *at = getenv("REFUSE_AT");
    refused_from = refused_to = at ? strtoul(at, 0, 10) : 0;
    real_calloc = dlsym(RTLD_NEXT, "calloc");
    real_realloc = dlsym(RTLD_NEXT, "realloc");
    real_posix_memalign = dlsym(RTLD_NEXT, "posix_memalign");
    real_aligned_alloc = dlsym(RTLD_NEXT, "aligned_alloc");
    real_malloc = dlsym(RTLD_NEXT, "malloc");
}

/* Whether a request is refused. */
static int is_refused(void) {
    requests++;
    if (requests < refused_from || requests > refused_to) return 0;
    refused++;
    errno = ENOMEM;
    return 1;
}

/* Does what a size orders, if it is an order, and answers whether it is: 2 where the order itself is refused. */
static int is_order(size_t size) {
    if (size < FIRST || size > LAST) return 0;
    int was_refused = refused != 0;
    size_t number = size - FIRST;
    requests = refused = 0;
    refused_from = number > MOST ? number - MOST : number;
    refused_to = number > MOST ? SIZE_MAX : number;
    return number == 0 && was_refused ? 2 : 1;
}

/* Where a block keeps the size that was asked for. */
static size_t *size_of(void *block) {
    return (size_t *)((char *)block + malloc_usable_size(block) - sizeof(size_t));
}

static void *noted(void *block, size_t size) {
    if (block) memcpy(size_of(block), &size, sizeof size);
    return block;
}

void *malloc(size_t size) {
    begin();
    if (!real_malloc) return 0;
    int order = is_order(size);
    if (order == 2 || (!order && is_refused())) return 0;
    return noted(real_malloc(size + sizeof size), size);
}

void *calloc(size_t count, size_t each) {
    size_t size;
    begin();
    if (__builtin_mul_overflow(count, each, &size)) return 0;
    if (!real_malloc || is_refused()) return 0;
    return noted(real_calloc(1, size + sizeof size), size);
}

void *realloc(void *block, size_t size) {
    begin();
    if (!block) return malloc(size);
    size_t had;
    memcpy(&had, size_of(block), sizeof had);
    if (size > had && is_refused()) return 0;
    return noted(real_realloc(block, size + sizeof size), size);
}

int posix_memalign(void **block, size_t alignment, size_t size) {
    begin();
    if (is_refused()) return ENOMEM;
    int status = real_posix_memalign(block, alignment, size + sizeof size);
    if (!status) noted(*block, size);
    return status;
}

void *aligned_alloc(size_t alignment, size_t size) {
    begin();
    if (is_refused()) return 0;
    return noted(real_aligned_alloc(alignment, size + sizeof size), size);
}

/* Writes down how many requests there were. What the C library asks for while it writes that counts no more. */
__attribute__((destructor)) static void end(void) {
    size_t count = requests;
    const char *path = getenv("REFUSE_COUNT");
    FILE *file = path ? fopen(path, "w") : 0;
    if (file) {
        fprintf(file, "%zu", count);
        fclose(file);
    }
}
