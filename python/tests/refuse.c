/*
 * Preloaded into Python, this refuses one request for memory: `call_refusing(callable, n)` calls a Python object, and
 * the request after the first n ones of that call gets none. Requests are those of malloc, calloc and realloc by any
 * thread. `was_refused` says whether the last call had so many.
 */
#include <errno.h>
#include <stddef.h>

extern void *__libc_malloc(size_t);
extern void *__libc_calloc(size_t, size_t);
extern void *__libc_realloc(void *, size_t);

/* Python's own, found when it is first called. */
extern void *PyObject_CallNoArgs(void *callable);

static long left = -1;
static int is_past;

static int is_refused(void) {
    if (left < 0 || left-- != 0) return 0;
    is_past = 1;
    errno = ENOMEM;
    return 1;
}

void *malloc(size_t size) { return is_refused() ? NULL : __libc_malloc(size); }
void *calloc(size_t count, size_t size) { return is_refused() ? NULL : __libc_calloc(count, size); }
void *realloc(void *block, size_t size) { return is_refused() ? NULL : __libc_realloc(block, size); }

void *call_refusing(void *callable, long n) {
    void *answer;
    is_past = 0;
    left = n;
    answer = PyObject_CallNoArgs(callable);
    left = -1;
    return answer;
}

int was_refused(void) { return is_past; }
