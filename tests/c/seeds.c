/*
 * The seeds of the library, which asks the system for random bits by getentropy; this program defines it.
 *
 * `seeds FILE..` makes each call on each file with three seeds, and where the system has no random bits: each call asks once, and
 * returns the same every time. `seeds growth COLLIDING OTHER` compares the time of names whose hashes are equal under the fixed seed
 * with that of other names. Prints what is wrong, and returns 1 if anything is.
 */
#include "mpslp.h"

#include <time.h>

int getentropy(void *bytes, size_t len);

/* What the system answers. */
typedef enum { ZEROS, ONES, MIXED, NO_BITS, ANSWERS } answer;

static answer answered;
static int times_asked;

int getentropy(void *bytes, size_t len) {
    static const unsigned char mixed[] = { 0x5b, 0x0e, 0xc7, 0x91, 0x22, 0xf8, 0x3d, 0xa4, 0x6f, 0x10, 0xe9, 0x87, 0x34, 0xdc, 0x4a, 0x73 };
    times_asked++;
    if (len != sizeof mixed) abort();
    switch (answered) {
    case MIXED: memcpy(bytes, mixed, len); return 0;
    case NO_BITS: errno = ENOSYS; return -1;
    default: memset(bytes, answered == ZEROS ? 0 : 255, len); return 0;
    }
}

static const char *work;
static int errors = 0;

static void check(bool is_so, const char *what) {
    if (is_so) return;
    printf("%s: %s, with seed %d\n", work, what, (int)answered);
    errors = 1;
}

/* ---- the same results */

enum { CANONICAL_MPS, CANONICAL_LP, SAME, IS_CANONICAL, LOAD, STORE_MPS, STORE_LP, NORMALIZE, CALLS };

/* What a call returns. */
typedef struct {
    mpslp_status status;
    mpslp_text text;
    mpslp_model model;
    mpslp_fault fault;
} result;

static result call(int which, mpslp_format format, const uint8_t *bytes, size_t len, const mpslp_model *stored) {
    result it = { MPSLP_OK, MPSLP_NO_TEXT, MPSLP_NO_MODEL, MPSLP_NO_FAULT };
    const int before = times_asked;
    switch (which) {
    case CANONICAL_MPS: it.status = mpslp_canonical(format, MPSLP_MPS, bytes, len, &it.text, &it.fault); break;
    case CANONICAL_LP: it.status = mpslp_canonical(format, MPSLP_LP, bytes, len, &it.text, &it.fault); break;
    case SAME: it.status = mpslp_same(format, bytes, len, format, bytes, len, &it.fault); break;
    case IS_CANONICAL: it.status = mpslp_is_canonical(format, bytes, len, &it.fault); break;
    case LOAD: it.status = mpslp_load(format, bytes, len, &it.model, &it.fault); break;
    case STORE_MPS: it.status = mpslp_store(MPSLP_MPS, stored, &it.text, &it.fault); break;
    case STORE_LP: it.status = mpslp_store(MPSLP_LP, stored, &it.text, &it.fault); break;
    default: it.status = mpslp_normalize(stored, &it.model, &it.fault);
    }
    check(times_asked == before + 1, "a call does not ask for random bits once");
    return it;
}

static void give_back(result *it) {
    mpslp_free(&it->text);
    mpslp_free_model(&it->model);
}

static bool is_same_text(mpslp_text one, mpslp_text other) { return one.len == other.len && memcmp(one.bytes, other.bytes, one.len) == 0; }

static bool are_same_columns(const mpslp_model *one, const mpslp_model *other) {
    /* The kind is followed by bytes of padding. */
    for (size_t j = 0; j < one->num_columns; j++)
        if (memcmp(&one->columns[j], &other->columns[j], offsetof(mpslp_column, kind) + sizeof one->columns[j].kind) != 0) return false;
    return true;
}

static bool is_same_model(const mpslp_model *one, const mpslp_model *other) {
    return is_same_text(one->names, other->names) && one->num_rows == other->num_rows && one->num_columns == other->num_columns &&
           one->num_elements == other->num_elements && one->sense == other->sense &&
           memcmp(&one->constant, &other->constant, sizeof one->constant) == 0 &&
           memcmp(&one->objective, &other->objective, sizeof one->objective) == 0 &&
           memcmp(one->rows, other->rows, one->num_rows * sizeof *one->rows) == 0 && are_same_columns(one, other) &&
           memcmp(one->elements, other->elements, one->num_elements * sizeof *one->elements) == 0;
}

static bool is_same_fault(const mpslp_fault *one, const mpslp_fault *other) {
    return is_same_text(one->kind, other->kind) && one->line == other->line && one->place == other->place && one->number == other->number &&
           one->name_len == other->name_len && memcmp(one->name, other->name, sizeof one->name) == 0;
}

static void check_same(int which, mpslp_format format, const uint8_t *bytes, size_t len, const mpslp_model *stored) {
    result first;
    answered = ZEROS;
    first = call(which, format, bytes, len, stored);
    for (int next = ONES; next < ANSWERS; next++) {
        result other;
        answered = (answer)next;
        other = call(which, format, bytes, len, stored);
        check(first.status == other.status && is_same_text(first.text, other.text) && is_same_model(&first.model, &other.model) &&
                  is_same_fault(&first.fault, &other.fault),
              "another result");
        give_back(&other);
    }
    give_back(&first);
}

static mpslp_format format_of(const char *path) {
    const char *end = strrchr(path, '.');
    return end && strcmp(end, ".lp") == 0 ? MPSLP_LP : MPSLP_MPS;
}

enum { MOST = 1 << 25 };

static size_t read_file(const char *path, uint8_t *bytes) {
    FILE *file = fopen(path, "rb");
    size_t len;
    if (!file) exit(3);
    len = fread(bytes, 1, MOST, file);
    fclose(file);
    work = path;
    return len;
}

static void check_file(const char *path, uint8_t *bytes) {
    const size_t len = read_file(path, bytes);
    const mpslp_format format = format_of(path);
    mpslp_model stored = MPSLP_NO_MODEL;
    mpslp_fault fault = MPSLP_NO_FAULT;
    /* A file that is rejected leaves arrays that are rejected too. */
    if (mpslp_load(format, bytes, len, &stored, &fault) > MPSLP_REFUSED) exit(3);
    for (int which = 0; which < CALLS; which++) check_same(which, format, bytes, len, &stored);
    mpslp_free_model(&stored);
}

/* ---- the time of names that collide */

enum { ROUNDS = 5 };

/* The least processor time of reading a file and storing its model, in seconds. */
static double seconds(const char *path, uint8_t *bytes, answer seed, int rounds) {
    const size_t len = read_file(path, bytes);
    double least = 0;
    answered = seed;
    for (int i = 0; i < rounds; i++) {
        mpslp_model model = MPSLP_NO_MODEL, normal = MPSLP_NO_MODEL;
        mpslp_fault fault = MPSLP_NO_FAULT;
        const clock_t begun = clock();
        double taken;
        if (mpslp_load(format_of(path), bytes, len, &model, &fault) != MPSLP_OK) exit(3);
        if (mpslp_normalize(&model, &normal, &fault) != MPSLP_OK) exit(3);
        taken = (double)(clock() - begun) / CLOCKS_PER_SEC;
        if (i == 0 || taken < least) least = taken;
        mpslp_free_model(&model);
        mpslp_free_model(&normal);
    }
    return least;
}

static void check_growth(const char *colliding, const char *alike, uint8_t *bytes) {
    const double other = seconds(alike, bytes, MIXED, ROUNDS), secret = seconds(colliding, bytes, MIXED, ROUNDS);
    const double fixed = seconds(colliding, bytes, NO_BITS, 1);
    printf("%s: %.4f s, names that do not collide %.4f s, with the fixed seed %.4f s\n", colliding, secret, other, fixed);
    check(secret < 3 * other, "names that collide under the fixed seed are slow under another one");
    /* Otherwise the names do not collide, and nothing was tried. */
    check(fixed > 10 * other, "the names do not collide");
}

int main(int count, char **words) {
    uint8_t *bytes = malloc(MOST);
    if (count < 2 || !bytes) return 3;
    if (strcmp(words[1], "growth") == 0) {
        if (count != 4) return 3;
        check_growth(words[2], words[3], bytes);
    } else {
        for (int i = 1; i < count; i++) check_file(words[i], bytes);
    }
    free(bytes);
    return errors;
}
