/*
 * The inline calls of mpslp.h that program.c does not make: `header VERSION` checks them, and `header doubles` reads doubles in
 * hexadecimal, one a line, and prints the shortest and the exact decimal of each, or `-`.
 */
#include "mpslp.h"

#include <assert.h>

static const char lp[] = "max profit: 3 b + 0.1 a + 7\nst\nlimit: a + 2 b <= 4\nleast: b >= -1e19\nany: a >= -inf\nbounds\n"
                         "b <= 2.5\nc free\ngenerals\na\nend\n";

static const uint8_t *bytes_of(const char *text) { return MPSLP_POINTER(const uint8_t *, text); }

static mpslp_model model_of(const char *text) {
    mpslp_model model = MPSLP_NO_MODEL;
    mpslp_fault fault = MPSLP_NO_FAULT;
    if (mpslp_load(MPSLP_LP, bytes_of(text), strlen(text), &model, &fault) != MPSLP_OK) abort();
    return model;
}

static void check_version(const char *wanted) {
    char version[30];
    snprintf(version, sizeof version, "%d.%d.%d", MPSLP_VERSION_MAJOR, MPSLP_VERSION_MINOR, MPSLP_VERSION_PATCH);
    assert(strcmp(version, wanted) == 0);
    assert(strcmp(mpslp_version(), wanted) == 0);
}

static void check_status_texts(void) {
    for (unsigned one = MPSLP_OK; one <= 7; one++)
        for (unsigned other = MPSLP_OK; other < one; other++)
            assert(strcmp(mpslp_status_text(MPSLP_CAST(mpslp_status, one)), mpslp_status_text(MPSLP_CAST(mpslp_status, other))) != 0);
    assert(strcmp(mpslp_status_text(MPSLP_OUT_OF_MEMORY), "out of memory") == 0);
    assert(strcmp(mpslp_status_text(MPSLP_CAST(mpslp_status, 7)), "unknown status") == 0);
}

/* The line of the error of a text. */
static void check_line(mpslp_format from, const char *text, const char *wanted) {
    char line[MPSLP_LINE_ROOM], cut[6] = "?????";
    mpslp_text out = MPSLP_NO_TEXT;
    mpslp_fault fault = MPSLP_NO_FAULT;
    const mpslp_status status = mpslp_canonical(from, MPSLP_LP, bytes_of(text), strlen(text), &out, &fault);
    assert(status == MPSLP_REFUSED || status == MPSLP_NOT_LP);
    assert(mpslp_fault_line(&fault, line, sizeof line) == strlen(wanted));
    assert(strcmp(line, wanted) == 0);
    assert(mpslp_fault_line(&fault, cut, sizeof cut) == strlen(wanted));
    assert(strncmp(cut, wanted, 5) == 0 && cut[5] == 0);
    assert(mpslp_fault_line(&fault, NULL, 0) == strlen(wanted));
}

static void check_lines(void) {
    char line[MPSLP_LINE_ROOM];
    mpslp_fault fault = MPSLP_NO_FAULT;
    check_line(MPSLP_LP, "min x\n+ x\nend\n", "line 2: DuplicateEntry");
    check_line(MPSLP_LP, "min x\n", "file: MissingEnd");
    check_line(MPSLP_MPS, "ROWS\n N  c\nCOLUMNS\n    x  c  1\nBOUNDS\n UP  B  x  -1\nENDATA\n", "file: NegativeUpper x");
    check_line(MPSLP_MPS, "ROWS\n N  free\nCOLUMNS\n    x  free  1\nENDATA\n", "objective: NotLp");
    check_line(MPSLP_MPS, "ROWS\n N  c\n L  a\n L  b[2]\nCOLUMNS\n    x  c  1\nENDATA\n", "row 1: NotLp");
    check_line(MPSLP_MPS, "ROWS\n N  c\nCOLUMNS\n    x[1]  c  1\nENDATA\n", "column 0: NotLp");
    /* The longest line has room: a kind, and a name of 255 bytes. */
    memset(fault.name, 'n', 255);
    fault.name_len = 255;
    fault.kind.bytes = bytes_of("UnknownObjectiveRow");
    fault.kind.len = 19;
    fault.line = UINT64_MAX;
    assert(mpslp_fault_line(&fault, line, sizeof line) == 25 + 2 + 19 + 1 + 255);
    assert(strlen(line) == 25 + 2 + 19 + 1 + 255 && strncmp(line, "line 18446744073709551615: UnknownObjectiveRow nnn", 50) == 0);
}

static void check_names(const mpslp_model *model) {
    size_t number = 99;
    for (size_t i = 0; i < mpslp_num_rows(model); i++) {
        const mpslp_text name = mpslp_row_name(model, i);
        assert(mpslp_find_row(model, MPSLP_POINTER(const char *, name.bytes), name.len, &number) && number == i);
    }
    for (size_t j = 0; j < mpslp_num_columns(model); j++) {
        const mpslp_text name = mpslp_column_name(model, j);
        assert(mpslp_find_column(model, MPSLP_POINTER(const char *, name.bytes), name.len, &number) && number == j);
    }
    number = 99;
    assert(!mpslp_find_row(model, "limits", 6, &number) && !mpslp_find_row(model, "limi", 4, &number) && !mpslp_find_row(model, "", 0, &number));
    assert(!mpslp_find_row(model, "a", 1, &number) && !mpslp_find_column(model, "limit", 5, &number) && !mpslp_find_column(model, "z", 1, &number));
    assert(number == 99);
}

static void check_bulk(const mpslp_model *model) {
    /* Columns a, b, c; rows any, least, limit. */
    double costs[3], lower[3], upper[3], row_lower[3], row_upper[3], values[4];
    int32_t starts[4], rows[4];
    assert(mpslp_num_columns(model) == 3 && mpslp_num_rows(model) == 3 && mpslp_num_elements(model) == 4 && mpslp_fits_int32(model));
    mpslp_costs(model, costs);
    assert(costs[0] == 0.1 && costs[1] == 3 && costs[2] == 0);
    mpslp_column_bounds(model, lower, upper);
    assert(lower[0] == 0 && upper[0] == HUGE_VAL && lower[1] == 0 && upper[1] == 2.5 && lower[2] == -HUGE_VAL && upper[2] == HUGE_VAL);
    mpslp_row_limits(model, row_lower, row_upper);
    assert(row_lower[0] == -HUGE_VAL && row_upper[0] == HUGE_VAL && row_lower[1] == -1e19 && row_upper[1] == HUGE_VAL);
    assert(row_lower[2] == -HUGE_VAL && row_upper[2] == 4);
    mpslp_matrix(model, starts, rows, values);
    assert(starts[0] == 0 && starts[1] == 2 && starts[2] == 4 && starts[3] == 4);
    assert(rows[0] == 0 && values[0] == 1 && rows[1] == 2 && values[1] == 1 && rows[2] == 1 && values[2] == 1 && rows[3] == 2 && values[3] == 2);
}

static void check_kinds(void) {
    mpslp_model model = model_of("min x + y + z\nbounds\nz <= 9\ngenerals\ny\nsemi-continuous\nz\nend\n");
    assert(!mpslp_is_integer(&model, 0) && mpslp_is_integer(&model, 1) && !mpslp_is_integer(&model, 2));
    mpslp_free_model(&model);
}

static void check_large(void) {
    mpslp_model model = MPSLP_NO_MODEL;
    model.num_elements = INT32_MAX;
    assert(mpslp_fits_int32(&model));
    model.num_elements = MPSLP_CAST(size_t, INT32_MAX) + 1;
    assert(!mpslp_fits_int32(&model));
    model.num_elements = 0;
    model.num_rows = MPSLP_CAST(size_t, INT32_MAX) + 1;
    assert(!mpslp_fits_int32(&model));
    model.num_rows = 0;
    model.num_columns = MPSLP_CAST(size_t, INT32_MAX) + 1;
    assert(!mpslp_fits_int32(&model));
}

static void check_no_numbers(void) {
    mpslp_number number = { 1, 2, 3, 0 };
    assert(!mpslp_from_double(NAN, MPSLP_SHORTEST, &number) && !mpslp_from_double(0.1, MPSLP_EXACT, &number));
    assert(number.low == 1 && number.high == 2 && number.exponent == 3);
    assert(mpslp_from_double(-HUGE_VAL, MPSLP_EXACT, &number) && number.infinity == -1 && number.low == 0 && number.high == 0 && number.exponent == 0);
    assert(mpslp_from_double(HUGE_VAL, MPSLP_SHORTEST, &number) && number.infinity == 1);
    assert(mpslp_from_double(-0.0, MPSLP_EXACT, &number) && number.infinity == 0 && number.low == 0 && number.high == 0 && number.exponent == 0);
}

static void put_double(double value, mpslp_decimal wanted) {
    char text[MPSLP_NUMBER_ROOM] = "-";
    mpslp_number number;
    if (mpslp_from_double(value, wanted, &number)) mpslp_number_text(number, text);
    printf("%s%c", text, wanted == MPSLP_EXACT ? '\n' : ' ');
}

int main(int count, char **words) {
    mpslp_model model;
    double value;
    if (count != 2) return 3;
    if (strcmp(words[1], "doubles") == 0) {
        while (scanf("%lf", &value) == 1) {
            put_double(value, MPSLP_SHORTEST);
            put_double(value, MPSLP_EXACT);
        }
        return fflush(stdout) != 0;
    }
    model = model_of(lp);
    check_version(words[1]);
    check_status_texts();
    check_lines();
    check_names(&model);
    check_bulk(&model);
    check_kinds();
    check_large();
    check_no_numbers();
    mpslp_free_model(&model);
    return 0;
}
