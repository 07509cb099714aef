/* Loaded before a program (LD_PRELOAD), this makes an allocation fail.

   An allocation is a request for memory and, if it fails, the next request if that is for the same block and no larger, and
   nothing was freed in between. A collection that is filled from an iterator makes two such requests: first for all items that
   may come, then for fewer. Both fail.

   When the program requests 2^60 + n bytes, which no machine has, counting starts, and allocation number n fails; when it
   requests 2^60 bytes, counting ends. For a program that makes no such request, the variable REFUSE has a number: allocations
   are counted from the start, and the one with that number fails.

   When counting ends, a line is added to the file that REFUSE_LOG names: how many allocations were counted, and how many requests
   were made to fail. Requests are those of malloc, calloc, realloc, posix_memalign and aligned_alloc. */

#define _GNU_SOURCE
#include <errno.h>
#include <fcntl.h>
#include <stddef.h>
#include <stdio.h>
#include <stdlib.h>
#include <unistd.h>

extern void *__libc_malloc(size_t);
extern void *__libc_calloc(size_t, size_t);
extern void *__libc_realloc(void *, size_t);
extern void *__libc_memalign(size_t, size_t);
extern void __libc_free(void *);

#define ORDER ((size_t)1 << 60)
#define MOST_NUMBERED ((size_t)1 << 32)

static struct {
    int is_counting;
    unsigned long number;  /* of the allocation that fails */
    unsigned long growths; /* counted so far */
    unsigned long refused; /* requests that failed so far */
} counted;

/* The last request that failed, if nothing was requested or freed after it. */
static struct {
    int is_there;
    const void *block;
    size_t size;
} last;

static int log_file = -1;

static void count_from(unsigned long number) {
    counted.is_counting = 1;
    counted.number = number;
    counted.growths = counted.refused = 0;
    last.is_there = 0;
}

static void end_counting(void) {
    if (!counted.is_counting) return;
    counted.is_counting = 0;
    char line[64];
    int length = snprintf(line, sizeof line, "%lu %lu\n", counted.growths, counted.refused);
    if (log_file >= 0 && write(log_file, line, (size_t)length) != length) _exit(126);
}

__attribute__((constructor)) static void begin(void) {
    const char *path = getenv("REFUSE_LOG");
    const char *number = getenv("REFUSE");
    if (path) log_file = open(path, O_WRONLY | O_CREAT | O_APPEND | O_CLOEXEC, 0600);
    if (number) count_from(strtoul(number, NULL, 10));
}

__attribute__((destructor)) static void end(void) {
    end_counting();
}

static int is_order(size_t size) {
    return size >= ORDER && size - ORDER < MOST_NUMBERED;
}

static void follow(size_t order) {
    if (order == ORDER) end_counting();
    else count_from((unsigned long)(order - ORDER));
}

/* Whether a request is the second one of the failing allocation. */
static int is_repeated(const void *block, size_t size) {
    return last.is_there && block == last.block && size <= last.size;
}

static int is_refused(const void *block, size_t size) {
    if (!counted.is_counting) return 0;
    if (!is_repeated(block, size) && ++counted.growths != counted.number) {
        last.is_there = 0;
        return 0;
    }
    last.is_there = !is_repeated(block, size);
    last.block = block;
    last.size = size;
    counted.refused++;
    return 1;
}

static void *no_memory(void) {
    errno = ENOMEM;
    return NULL;
}

void *malloc(size_t size) {
    if (is_order(size)) {
        follow(size);
        return no_memory();
    }
    return is_refused(NULL, size) ? no_memory() : __libc_malloc(size);
}

void *calloc(size_t count, size_t size) {
    return is_refused(NULL, count * size) ? no_memory() : __libc_calloc(count, size);
}

void *realloc(void *block, size_t size) {
    return is_refused(block, size) ? no_memory() : __libc_realloc(block, size);
}

void *aligned_alloc(size_t alignment, size_t size) {
    return is_refused(NULL, size) ? no_memory() : __libc_memalign(alignment, size);
}

int posix_memalign(void **block, size_t alignment, size_t size) {
    if (is_refused(NULL, size)) return ENOMEM;
    void *fresh = __libc_memalign(alignment, size);
    if (fresh == NULL) return ENOMEM;
    *block = fresh;
    return 0;
}

void free(void *block) {
    last.is_there = 0;
    __libc_free(block);
}
