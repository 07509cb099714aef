/*
 * Makes each allocation of each call fail in turn: failing_allocations FORMAT FILE, linked with
 * -Wl,--wrap=malloc,--wrap=realloc. A call whose allocation fails either reports it and leaves its outputs unchanged, or can do
 * without it and returns what it always does.
 */
#include "mpslp.h"

#include <stdio.h>
#include <string.h>

void *__real_malloc(size_t size);
void *__real_realloc(void *at, size_t size);
void *__wrap_malloc(size_t size);
void *__wrap_realloc(void *at, size_t size);

static long left = -1;
static int fails(void) { return left >= 0 && left-- == 0; }
void *__wrap_malloc(size_t size) { return fails() ? NULL : __real_malloc(size); }
void *__wrap_realloc(void *at, size_t size) { return fails() ? NULL : __real_realloc(at, size); }

enum { CANONICAL_MPS, CANONICAL_LP, SAME, IS_CANONICAL, LOAD, STORE_MPS, STORE_LP, NORMALIZE, CALLS };
static const char *const names[CALLS] = {
    "mpslp_canonical to MPS", "mpslp_canonical to LP", "mpslp_same", "mpslp_is_canonical", "mpslp_load", "mpslp_store to MPS", "mpslp_store to LP",
    "mpslp_normalize",
};

static uint8_t bytes[1 << 20];
static size_t len;
static mpslp_model stored = MPSLP_NO_MODEL;

/* The outputs of a call. */
typedef struct {
    mpslp_text text;
    mpslp_model model;
    mpslp_fault fault;
} answer;

#define NO_ANSWER { MPSLP_NO_TEXT, MPSLP_NO_MODEL, MPSLP_NO_FAULT }

static uint32_t call(int which, uint32_t format, answer *to) {
    switch (which) {
    case CANONICAL_MPS: return mpslp_canonical(format, MPSLP_MPS, bytes, len, &to->text, &to->fault);
    case CANONICAL_LP: return mpslp_canonical(format, MPSLP_LP, bytes, len, &to->text, &to->fault);
    case SAME: return mpslp_same(format, bytes, len, format, bytes, len, &to->fault);
    case IS_CANONICAL: return mpslp_is_canonical(format, bytes, len, &to->fault);
    case STORE_MPS: return mpslp_store(MPSLP_MPS, &stored, &to->text, &to->fault);
    case NORMALIZE: return mpslp_normalize(&stored, &to->model, &to->fault);
    case STORE_LP: return mpslp_store(MPSLP_LP, &stored, &to->text, &to->fault);
    default: return mpslp_load(format, bytes, len, &to->model, &to->fault);
    }
}

static void give_back(answer *it) {
    mpslp_free(&it->text);
    mpslp_free_model(&it->model);
}

static int is_untouched(const answer *it) {
    const mpslp_fault *fault = &it->fault;
    return it->text.len == 0 && it->model.names.len == 0 && it->model.num_rows == 0 && it->model.num_columns == 0
        && it->model.num_elements == 0 && fault->kind.len == 0 && fault->line == 0 && fault->place == MPSLP_NOWHERE && fault->name_len == 0;
}

static int is_same_text(const mpslp_text *one, const mpslp_text *other) {
    return one->len == other->len && memcmp(one->bytes, other->bytes, one->len) == 0;
}

/* Whether two columns are the same. Padding follows the kind of a column. */
static int is_same_column(const mpslp_column *one, const mpslp_column *other) {
    return memcmp(one, other, offsetof(mpslp_column, kind) + sizeof one->kind) == 0;
}

/* Whether two outputs are alike. */
static int is_same(const answer *one, const answer *other) {
    const mpslp_model *a = &one->model, *b = &other->model;
    if (a->num_rows != b->num_rows || a->num_columns != b->num_columns || a->num_elements != b->num_elements) return 0;
    for (size_t j = 0; j < a->num_columns; j++)
        if (!is_same_column(&a->columns[j], &b->columns[j])) return 0;
    return is_same_text(&one->text, &other->text) && is_same_text(&a->names, &b->names) && memcmp(a->rows, b->rows, a->num_rows * sizeof *a->rows) == 0
        && memcmp(a->elements, b->elements, a->num_elements * sizeof *a->elements) == 0;
}

static int try_call(int which, uint32_t format) {
    answer wanted = NO_ANSWER;
    uint32_t done = call(which, format, &wanted);
    long n = 0, reported = 0;
    int is_refused = 1;
    for (; is_refused; n++) {
        answer got = NO_ANSWER;
        uint32_t status;
        left = n;
        status = call(which, format, &got);
        is_refused = left < 0;
        left = -1;
        if (status == MPSLP_OUT_OF_MEMORY ? !is_refused || !is_untouched(&got) : status != done || !is_same(&got, &wanted)) {
            fprintf(stderr, "%s returns %u if allocation %ld fails\n", names[which], (unsigned)status, n);
            return 1;
        }
        reported += status == MPSLP_OUT_OF_MEMORY;
        give_back(&got);
    }
    give_back(&wanted);
    printf("%s: %ld of %ld allocations that fail are reported\n", names[which], reported, n - 1);
    return reported == 0;
}

int main(int count, char **words) {
    FILE *file = count == 3 ? fopen(words[2], "rb") : NULL;
    mpslp_fault fault = MPSLP_NO_FAULT;
    uint32_t format;
    int wrong = 0;
    if (!file) return 3;
    len = fread(bytes, 1, sizeof bytes, file);
    fclose(file);
    format = strcmp(words[1], "mps") == 0 ? MPSLP_MPS : MPSLP_LP;
    if (mpslp_load(format, bytes, len, &stored, &fault) != MPSLP_OK) return 3;
    for (int which = 0; which < CALLS; which++) wrong |= try_call(which, format);
    mpslp_free_model(&stored);
    return wrong;
}
