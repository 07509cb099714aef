/*
 * The commands of the program mpslp, done by the calls of the library: canon, same and show, so that what tests the program
 * tests the library. Also `is FORMAT PATH`, which says whether a text is canonical; `double FORMAT PATH`, which prints each
 * number of a model in hexadecimal; and `store FORMAT FORMAT PATH`, which is canon by mpslp_load and mpslp_store
 * and also tries mpslp_normalize.
 */
#include "mpslp.h"

#include <inttypes.h>
#include <stdbool.h>
#include <stdio.h>
#include <string.h>

enum { DONE = 0, NO = 1, REFUSED = 2, WRONG_WORDS = 3, BROKEN = 4, NO_MEMORY = 5, UNEQUAL = 6 };

typedef struct {
    uint8_t *bytes;
    size_t len;
} content;

/* All of a file, or of standard input if the path is `-`. Exits if a read fails. */
static content load(const char *path) {
    FILE *file = strcmp(path, "-") == 0 ? stdin : fopen(path, "rb");
    content all = { malloc(1), 0 };
    size_t room = 1;
    if (!file) exit(BROKEN);
    while (all.bytes) {
        size_t got = fread(all.bytes + all.len, 1, room - all.len, file);
        if (got == 0) break;
        all.len += got;
        if (all.len == room) all.bytes = realloc(all.bytes, room *= 2);
    }
    if (!all.bytes) exit(NO_MEMORY);
    if (ferror(file)) exit(BROKEN);
    if (file != stdin) fclose(file);
    return all;
}

static bool format_of(const char *word, uint32_t *format) {
    *format = strcmp(word, "mps") == 0 ? MPSLP_MPS : MPSLP_LP;
    return *format == MPSLP_MPS || strcmp(word, "lp") == 0;
}

static void put(FILE *to, mpslp_text text) { fwrite(text.bytes, 1, text.len, to); }

static void print_place(const mpslp_fault *fault) {
    switch (fault->place) {
    case MPSLP_AT_OBJECTIVE: fprintf(stderr, "objective: "); break;
    case MPSLP_AT_ROW: fprintf(stderr, "row %zu: ", fault->number); break;
    case MPSLP_AT_COLUMN: fprintf(stderr, "column %zu: ", fault->number); break;
    default:
        if (fault->line) fprintf(stderr, "line %" PRIu64 ": ", fault->line);
        else fprintf(stderr, "file: ");
    }
}

/* Prints the error of an input, after a word for one of two inputs. Returns the exit status of the program. */
static int print_error(uint32_t status, const char *input, const mpslp_fault *fault) {
    if (status == MPSLP_OUT_OF_MEMORY) {
        fprintf(stderr, "out of memory\n");
        return NO_MEMORY;
    }
    if (status == MPSLP_UNKNOWN_FORMAT) return WRONG_WORDS;
    fprintf(stderr, "%s", input);
    print_place(fault);
    put(stderr, fault->kind);
    if (fault->name_len) fprintf(stderr, " %s", fault->name);
    fprintf(stderr, "\n");
    return REFUSED;
}

static int canon(uint32_t from, uint32_t to, const char *path) {
    content all = load(path);
    mpslp_text text = MPSLP_NO_TEXT;
    mpslp_fault fault = MPSLP_NO_FAULT;
    uint32_t status = mpslp_canonical(from, to, all.bytes, all.len, &text, &fault);
    free(all.bytes);
    if (status != MPSLP_OK) return print_error(status, "", &fault);
    put(stdout, text);
    mpslp_free(&text);
    return DONE;
}

static int same(uint32_t first_format, const char *first_path, uint32_t second_format, const char *second_path) {
    content first = load(first_path), second = load(second_path);
    mpslp_fault fault = MPSLP_NO_FAULT;
    uint32_t status = mpslp_same(first_format, first.bytes, first.len, second_format, second.bytes, second.len, &fault);
    free(first.bytes);
    free(second.bytes);
    if (status > MPSLP_DIFFERS) return print_error(status, status == MPSLP_REFUSED ? "first: " : "second: ", &fault);
    printf("%s\n", status == MPSLP_OK ? "same" : "not the same");
    return status == MPSLP_OK ? DONE : NO;
}

static int is(uint32_t format, const char *path) {
    content all = load(path);
    mpslp_fault fault = MPSLP_NO_FAULT;
    uint32_t status = mpslp_is_canonical(format, all.bytes, all.len, &fault);
    free(all.bytes);
    if (status > MPSLP_DIFFERS) return print_error(status, "", &fault);
    return status == MPSLP_OK ? DONE : NO;
}

/* ---- a model as the program shows it, through the accessors */

/* Digits of a number, the lowest first, from 10^-500 on: those of any number, and of the difference of two. */
enum { LOWEST = -500, DIGITS = 1040 };

/* Adds a finite number to digits, or takes it from them. Digits may be below 0 then. */
static void add(int digits[DIGITS], mpslp_number number, int sign) {
    char text[MPSLP_NUMBER_ROOM];
    size_t len = mpslp_number_text(number, text);
    const char *first = text + (number.high < 0);
    const char *at = text + len;
    int place = number.exponent - LOWEST;
    while (*--at != 'e') {}
    while (at-- != first) digits[place++] += (*at - '0') * (number.high < 0 ? -sign : sign);
}

/* Prints digits with a sign, times ten to a power. */
static void put_digits(bool is_negative, const char *digits, int len, int exponent) {
    if (is_negative) putchar('-');
    if (exponent > 5) printf("%.*se%d", len, digits, exponent);
    else if (exponent >= 0) printf("%.*s%.*s", len, digits, exponent, "00000");
    else if (exponent < -18) printf("%.*se%d", len, digits, exponent);
    else if (len > -exponent) printf("%.*s.%s", len + exponent, digits, digits + len + exponent);
    else printf("0.%.*s%s", -exponent - len, "00000000000000000", digits);
}

static void put_number(mpslp_number number) {
    char text[MPSLP_NUMBER_ROOM];
    const char *first = text + (number.high < 0);
    if (number.infinity != 0) {
        printf(number.infinity < 0 ? "-inf" : "inf");
        return;
    }
    mpslp_number_text(number, text);
    *strchr(text, 'e') = 0;
    put_digits(number.high < 0, first, (int)strlen(first), number.exponent);
}

/* Prints what lies between two finite numbers, the second of which is not below the first. */
static void put_range(mpslp_number lower, mpslp_number upper) {
    int digits[DIGITS] = { 0 }, from = 0, to = DIGITS, place;
    char text[DIGITS + 1];
    add(digits, upper, 1);
    add(digits, lower, -1);
    for (place = 0; place + 1 < DIGITS; place++) {
        int carry = digits[place] < 0 ? -1 : digits[place] / 10;
        digits[place] -= 10 * carry;
        digits[place + 1] += carry;
    }
    while (from < to && digits[from] == 0) from++;
    while (from < to && digits[to - 1] == 0) to--;
    if (from == to) {
        putchar('0');
        return;
    }
    for (place = to; place-- > from;) text[to - 1 - place] = (char)('0' + digits[place]);
    text[to - from] = 0;
    put_digits(false, text, to - from, from + LOWEST);
}

static bool is_same_number(mpslp_number one, mpslp_number other) {
    return one.low == other.low && one.high == other.high && one.exponent == other.exponent && one.infinity == other.infinity;
}

static mpslp_number negative(mpslp_number number) {
    number.high = (int64_t)(~(uint64_t)number.high + (number.low == 0));
    number.low = ~number.low + 1;
    return number;
}

/* Prints the letter of a row, its limits, its right side and its range. */
static void put_limits(mpslp_number lower, mpslp_number upper) {
    const mpslp_number zero = { 0, 0, 0, 0 };
    const bool has_lower = lower.infinity == 0, has_upper = upper.infinity == 0;
    printf(" %c ", !has_lower ? (has_upper ? 'L' : 'N') : !has_upper ? 'G' : is_same_number(lower, upper) ? 'E' : 'R');
    put_number(lower);
    putchar(' ');
    put_number(upper);
    printf(" rhs ");
    put_number(has_upper ? upper : has_lower ? lower : zero);
    printf(" range ");
    if (has_lower && has_upper) put_range(lower, upper);
    else putchar('0');
    putchar('\n');
}

static void put_model(const mpslp_model *model) {
    static const char *const kinds[] = { "continuous", "integer", "semi" };
    printf("sense %s\nobjective ", mpslp_objective_sense(model) == MPSLP_MAXIMIZE ? "maximize" : "minimize");
    put(stdout, mpslp_objective_name(model));
    printf(" constant ");
    put_number(mpslp_objective_constant(model));
    printf(" offset ");
    put_number(negative(mpslp_objective_constant(model)));
    printf("\nrows %zu columns %zu elements %zu\n", mpslp_num_rows(model), mpslp_num_columns(model), mpslp_num_elements(model));
    for (size_t i = 0; i < mpslp_num_rows(model); i++) {
        printf("row %zu ", i);
        put(stdout, mpslp_row_name(model, i));
        put_limits(mpslp_row_lower(model, i), mpslp_row_upper(model, i));
    }
    for (size_t j = 0; j < mpslp_num_columns(model); j++) {
        printf("column %zu ", j);
        put(stdout, mpslp_column_name(model, j));
        printf(" %s ", kinds[mpslp_column_kind(model, j)]);
        put_number(mpslp_column_lower(model, j));
        putchar(' ');
        put_number(mpslp_column_upper(model, j));
        printf(" objective ");
        put_number(mpslp_objective_coefficient(model, j));
        putchar('\n');
        for (size_t k = 0; k < mpslp_column_len(model, j); k++) {
            const mpslp_element entry = mpslp_entry(model, j, k);
            printf("entry %zu %zu ", j, entry.row);
            put_number(entry.value);
            putchar('\n');
        }
    }
}

/* Prints a number exactly, and the nearest double with whether it is the number. */
static void put_double(mpslp_number number) {
    bool is_exact;
    const double nearest = mpslp_to_double(number, &is_exact);
    put_number(number);
    printf(" %a %s\n", nearest, is_exact ? "exact" : "rounded");
}

static void put_doubles(const mpslp_model *model) {
    put_double(mpslp_objective_constant(model));
    for (size_t i = 0; i < mpslp_num_rows(model); i++) {
        put_double(mpslp_row_lower(model, i));
        put_double(mpslp_row_upper(model, i));
    }
    for (size_t j = 0; j < mpslp_num_columns(model); j++) {
        put_double(mpslp_column_lower(model, j));
        put_double(mpslp_column_upper(model, j));
        put_double(mpslp_objective_coefficient(model, j));
        for (size_t k = 0; k < mpslp_column_len(model, j); k++) put_double(mpslp_entry(model, j, k).value);
    }
}

static int show(uint32_t format, const char *path, void (*put_it)(const mpslp_model *)) {
    content all = load(path);
    mpslp_model model = MPSLP_NO_MODEL;
    mpslp_fault fault = MPSLP_NO_FAULT;
    uint32_t status = mpslp_load(format, all.bytes, all.len, &model, &fault);
    free(all.bytes);
    if (status != MPSLP_OK) return print_error(status, "", &fault);
    put_it(&model);
    mpslp_free_model(&model);
    return DONE;
}

/* ---- a model that is loaded, shuffled and stored */

/* As loaded, and then in so many random orders. */
enum { ORDERS = 8 };

static void *room_for(size_t count, size_t size) {
    void *room = calloc(count + 1, size);
    if (!room) exit(NO_MEMORY);
    return room;
}

/* The next number of a linear congruential generator, below `limit`. */
static size_t below(uint64_t *seed, size_t limit) {
    *seed = *seed * 6364136223846793005u + 1442695040888963407u;
    return (size_t)(*seed >> 33) % limit;
}

/* The numbers from 0 in a random order; with the seed 0 in their own. */
static size_t *shuffled_numbers(size_t count, uint64_t *seed) {
    size_t *numbers = room_for(count, sizeof *numbers);
    for (size_t i = 0; i < count; i++) numbers[i] = i;
    for (size_t i = count; *seed != 0 && i > 1; i--) {
        const size_t other = below(seed, i), number = numbers[i - 1];
        numbers[i - 1] = numbers[other];
        numbers[other] = number;
    }
    return numbers;
}

/* The same value, with one more zero after its digits if there is room. */
static mpslp_number with_zero(mpslp_number number) {
    if (number.infinity == 0 && number.high == 0 && number.low < UINT64_MAX / 10) {
        number.low *= 10;
        number.exponent--;
    }
    return number;
}

static mpslp_row *shuffled_rows(const mpslp_model *model, const size_t *old_rows) {
    mpslp_row *rows = room_for(model->num_rows, sizeof *rows);
    for (size_t i = 0; i < model->num_rows; i++) {
        rows[i] = model->rows[old_rows[i]];
        rows[i].lower = with_zero(rows[i].lower);
        rows[i].upper = with_zero(rows[i].upper);
    }
    return rows;
}

/* The model with its rows, its columns and the elements of each column in a random order. */
static mpslp_model shuffled(const mpslp_model *model, uint64_t seed) {
    mpslp_model other = *model;
    size_t *old_rows = shuffled_numbers(model->num_rows, &seed), *old_columns = shuffled_numbers(model->num_columns, &seed);
    size_t *new_rows = room_for(model->num_rows, sizeof *new_rows), count = 0;
    mpslp_column *columns = room_for(model->num_columns, sizeof *columns);
    mpslp_element *elements = room_for(model->num_elements, sizeof *elements);
    for (size_t i = 0; i < model->num_rows; i++) new_rows[old_rows[i]] = i;
    for (size_t j = 0; j < model->num_columns; j++) {
        size_t *own = shuffled_numbers(mpslp_column_len(model, old_columns[j]), &seed);
        columns[j] = model->columns[old_columns[j]];
        columns[j].first = count;
        columns[j].cost = with_zero(columns[j].cost);
        for (size_t k = 0; k < mpslp_column_len(model, old_columns[j]); k++) {
            const mpslp_element entry = mpslp_entry(model, old_columns[j], own[k]);
            elements[count].row = new_rows[entry.row];
            elements[count++].value = with_zero(entry.value);
        }
        free(own);
    }
    other.rows = shuffled_rows(model, old_rows);
    other.columns = columns;
    other.elements = elements;
    free(old_rows);
    free(old_columns);
    free(new_rows);
    return other;
}

static bool is_same_text(mpslp_text one, mpslp_text other) { return one.len == other.len && memcmp(one.bytes, other.bytes, one.len) == 0; }

/* Whether two models have the same arrays. Padding follows the kind of a column. */
static bool has_same_arrays(const mpslp_model *one, const mpslp_model *other) {
    bool are_same = is_same_text(one->names, other->names) && one->num_rows == other->num_rows && one->num_columns == other->num_columns &&
                    one->num_elements == other->num_elements && one->sense == other->sense &&
                    memcmp(&one->constant, &other->constant, sizeof one->constant) == 0 &&
                    memcmp(&one->objective, &other->objective, sizeof one->objective) == 0;
    if (!are_same) return false;
    for (size_t j = 0; j < one->num_columns; j++)
        are_same &= memcmp(&one->columns[j], &other->columns[j], offsetof(mpslp_column, kind) + sizeof one->columns[j].kind) == 0;
    return are_same && memcmp(one->rows, other->rows, one->num_rows * sizeof *one->rows) == 0 &&
           memcmp(one->elements, other->elements, one->num_elements * sizeof *one->elements) == 0;
}

/* Whether a model that was loaded is made again of arrays that define it. */
static bool is_made_again(const mpslp_model *model, const mpslp_model *arrays) {
    mpslp_model normal = MPSLP_NO_MODEL;
    mpslp_fault fault = MPSLP_NO_FAULT;
    const bool is_same = mpslp_normalize(arrays, &normal, &fault) == MPSLP_OK && has_same_arrays(model, &normal);
    mpslp_free_model(&normal);
    return is_same;
}

/* Whether a model has the same text, or the same error, and the same normal form in a random order. */
static bool is_stored_alike(uint32_t to, const mpslp_model *model, uint64_t seed, uint32_t status, mpslp_text text, const mpslp_fault *fault) {
    mpslp_model other = shuffled(model, seed);
    mpslp_text other_text = MPSLP_NO_TEXT;
    mpslp_fault other_fault = MPSLP_NO_FAULT;
    bool is_alike = mpslp_store(to, &other, &other_text, &other_fault) == status && is_same_text(text, other_text) &&
                    is_same_text(fault->kind, other_fault.kind) && fault->place == other_fault.place && fault->number == other_fault.number && is_made_again(model, &other);
    mpslp_free(&other_text);
    free((void *)(uintptr_t)other.rows);
    free((void *)(uintptr_t)other.columns);
    free((void *)(uintptr_t)other.elements);
    return is_alike;
}

static int store(uint32_t from, uint32_t to, const char *path) {
    content all = load(path);
    mpslp_model model = MPSLP_NO_MODEL;
    mpslp_text text = MPSLP_NO_TEXT;
    mpslp_fault fault = MPSLP_NO_FAULT;
    bool are_alike = true;
    uint32_t status = mpslp_load(from, all.bytes, all.len, &model, &fault);
    free(all.bytes);
    if (status != MPSLP_OK) return print_error(status, "", &fault);
    status = mpslp_store(to, &model, &text, &fault);
    for (uint64_t seed = 0; seed <= ORDERS; seed++) are_alike &= is_stored_alike(to, &model, seed, status, text, &fault);
    mpslp_free_model(&model);
    if (!are_alike) return UNEQUAL;
    if (status != MPSLP_OK) return print_error(status, "", &fault);
    put(stdout, text);
    mpslp_free(&text);
    return DONE;
}

static int run(int count, char **words) {
    uint32_t format, other;
    if (count < 4 || !format_of(words[2], &format)) return WRONG_WORDS;
    if (count == 5 && strcmp(words[1], "canon") == 0 && format_of(words[3], &other)) return canon(format, other, words[4]);
    if (count == 5 && strcmp(words[1], "store") == 0 && format_of(words[3], &other)) return store(format, other, words[4]);
    if (count == 6 && strcmp(words[1], "same") == 0 && format_of(words[4], &other)) return same(format, words[3], other, words[5]);
    if (count == 4 && strcmp(words[1], "is") == 0) return is(format, words[3]);
    if (count == 4 && strcmp(words[1], "show") == 0) return show(format, words[3], put_model);
    if (count == 4 && strcmp(words[1], "double") == 0) return show(format, words[3], put_doubles);
    return WRONG_WORDS;
}

int main(int count, char **words) {
    int status = run(count, words);
    return fflush(stdout) ? BROKEN : status;
}
