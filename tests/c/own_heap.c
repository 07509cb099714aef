/*
 * A program that defines the names by which the crate calls the kit's heap. The library must not call these functions: whoever links
 * it does not know of them.
 */
#include "mpslp.h"

void *rattle_alloc(size_t size);
void *rattle_realloc(void *at, size_t size);
void rattle_dealloc(void *at);

void *rattle_alloc(size_t size) {
    (void)size;
    abort();
}

void *rattle_realloc(void *at, size_t size) {
    (void)at;
    (void)size;
    abort();
}

void rattle_dealloc(void *at) {
    (void)at;
    abort();
}

int main(int count, char **words) {
    static const char lp[] = "min x + 2 y\nst\nlim: x + y >= 1\nend\n";
    mpslp_text text = MPSLP_NO_TEXT;
    mpslp_fault fault = MPSLP_NO_FAULT;
    (void)words;
    /* They are linked, and never called. */
    if (count > 9) rattle_dealloc(rattle_realloc(rattle_alloc(1), 2));
    if (mpslp_canonical(MPSLP_LP, MPSLP_MPS, MPSLP_POINTER(const uint8_t *, lp), sizeof lp - 1, &text, &fault) != MPSLP_OK) return 1;
    mpslp_free(&text);
    return 0;
}
