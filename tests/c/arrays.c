/*
 * Models that are made in C: the text of mpslp_store, the same of what mpslp_normalize makes of them, and each kind of error,
 * with its place in the arrays. Compiles as C99 and as C++. Prints what differs, and returns 1 if anything does.
 */
#include "mpslp.h"

/* The names of the model, and some that are not legal. */
static const char names[] = "costr1x1r2x2'MARKER'\tfree";
static const mpslp_name cost = { 0, 4 }, r1 = { 4, 2 }, x1 = { 6, 2 }, r2 = { 8, 2 }, x2 = { 10, 2 }, marker = { 12, 8 }, tab = { 20, 1 }, reserved = { 21, 4 };

static const mpslp_number zero = { 0, 0, 0, 0 }, one = { 1, 0, 0, 0 }, three = { 3, 0, 0, 0 }, minus_two = { MPSLP_CAST(uint64_t, -2), -1, 0, 0 };
static const mpslp_number plus = { 0, 0, 0, 1 }, minus = { 0, 0, 0, -1 };
/* 10^36 + 1, with 37 digits, and numbers whose exponents are too large and too small. */
static const mpslp_number long_number = { 12919594847110692865u, 54210108624275221, 0, 0 }, large = { 1, 0, 501, 0 }, small = { 1, 0, -501, 0 };

/* Two rows, two columns and three elements, none of them in byte order. */
typedef struct {
    mpslp_row rows[2];
    mpslp_column columns[2];
    mpslp_element elements[3];
    mpslp_model model;
} arrays;

static arrays made(void) {
    const mpslp_row rows[2] = { { r2, minus, three }, { r1, one, plus } };
    const mpslp_column columns[2] = { { x2, zero, plus, three, 0, MPSLP_CONTINUOUS }, { x1, minus_two, three, zero, 1, MPSLP_INTEGER } };
    const mpslp_element elements[3] = { { 1, one }, { 0, three }, { 1, minus_two } };
    const mpslp_model none = MPSLP_NO_MODEL;
    arrays it;
    memcpy(it.rows, rows, sizeof rows);
    memcpy(it.columns, columns, sizeof columns);
    memcpy(it.elements, elements, sizeof elements);
    it.model = none;
    it.model.names.bytes = MPSLP_POINTER(const uint8_t *, names);
    it.model.names.len = sizeof names - 1;
    it.model.num_rows = it.model.num_columns = 2;
    it.model.num_elements = 3;
    it.model.objective = cost;
    return it;
}

static mpslp_status store(mpslp_format to, arrays *it, mpslp_text *text, mpslp_fault *fault) {
    it->model.rows = it->rows;
    it->model.columns = it->columns;
    it->model.elements = it->elements;
    return mpslp_store(to, &it->model, text, fault);
}

static int differences = 0;

static void check(bool is_so, const char *what) {
    if (is_so) return;
    printf("%s\n", what);
    differences = 1;
}

/* Normalized arrays have the text of those that they were made from. */
static void check_normalized(mpslp_format to, const arrays *it, const char *what, mpslp_text wanted) {
    mpslp_text text = MPSLP_NO_TEXT;
    mpslp_model model = MPSLP_NO_MODEL;
    mpslp_fault fault = MPSLP_NO_FAULT;
    check(mpslp_normalize(&it->model, &model, &fault) == MPSLP_OK && fault.kind.len == 0, what);
    check(mpslp_store(to, &model, &text, &fault) == MPSLP_OK && text.len == wanted.len && memcmp(text.bytes, wanted.bytes, text.len) == 0, what);
    check(model.num_rows == 2 && memcmp(model.names.bytes + model.rows[0].name.at, "r1", 2) == 0, what);
    mpslp_free(&text);
    mpslp_free_model(&model);
}

/* A model has this text, and nothing else is set. */
static void check_text(mpslp_format to, arrays *it, const char *what, const char *wanted) {
    mpslp_text text = MPSLP_NO_TEXT;
    mpslp_fault fault = MPSLP_NO_FAULT;
    const mpslp_status status = store(to, it, &text, &fault);
    check(status == MPSLP_OK && text.len == strlen(wanted) && memcmp(text.bytes, wanted, text.len) == 0 && fault.kind.len == 0, what);
    check_normalized(to, it, what, text);
    mpslp_free(&text);
}

/* A model has this error, and no text. If the arrays define no model, they have no normal form either. */
static void check_error(mpslp_format to, mpslp_status status, arrays *it, const char *what, const char *line) {
    char found[MPSLP_LINE_ROOM];
    mpslp_text text = MPSLP_NO_TEXT;
    mpslp_model model = MPSLP_NO_MODEL;
    mpslp_fault fault = MPSLP_NO_FAULT, other = MPSLP_NO_FAULT;
    check(store(to, it, &text, &fault) == status && text.len == 0 && fault.line == 0, what);
    mpslp_fault_line(&fault, found, sizeof found);
    if (strcmp(found, line) != 0) printf("%s: ", found);
    check(strcmp(found, line) == 0, what);
    if (status != MPSLP_REFUSED) return;
    check(mpslp_normalize(&it->model, &model, &other) == status && model.num_columns == 0, what);
    mpslp_fault_line(&other, found, sizeof found);
    check(strcmp(found, line) == 0, what);
}

/* The text, or the error, of the model `it` after a change. */
#define TEXT(change, wanted) \
    do { \
        arrays it = made(); \
        change; \
        check_text(MPSLP_MPS, &it, #change, wanted); \
    } while (0)
#define ERROR_OF(format, status, change, line) \
    do { \
        arrays it = made(); \
        change; \
        check_error(format, status, &it, #change, line); \
    } while (0)
#define REJECTED(change, line) ERROR_OF(MPSLP_MPS, MPSLP_REFUSED, change, line)
#define NOT_LP(change, line) ERROR_OF(MPSLP_LP, MPSLP_NOT_LP, change, line)

static const char mps[] = "NAME\nROWS\n N  cost\n G  r1\n L  r2\nCOLUMNS\n    x2  cost  3\n    x2  r1  1\n"
                          "    MARKER  'MARKER'  'INTORG'\n    x1  r1  -2\n    x1  r2  3\n    MARKER  'MARKER'  'INTEND'\n"
                          "RHS\n    RHS  r1  1\n    RHS  r2  3\nBOUNDS\n LO  BND  x1  -2\n UP  BND  x1  3\nENDATA\n";

static void check_texts(void) {
    const mpslp_number not_normal = { 300, 0, -2, 0 }, far_zero = { 0, 0, INT32_MAX, 0 }, one_e20 = { 1, 0, 20, 0 }, near_e500 = { 1000, 0, 497, 0 };
    const mpslp_number loose_plus = { 7, 8, 9, 5 };
    arrays it = made();
    TEXT((void)0, mps);
    /* Numbers in another form, zeros, and infinities: the model is the same. */
    TEXT(it.rows[0].upper = it.columns[1].upper = it.elements[1].value = not_normal, mps);
    TEXT(it.model.constant = it.columns[1].cost = far_zero, mps);
    TEXT(it.columns[0].upper = it.rows[1].upper = one_e20, mps);
    TEXT(it.columns[0].upper = it.rows[1].upper = near_e500, mps);
    TEXT(it.columns[0].upper = it.rows[1].upper = loose_plus, mps);
    check_text(MPSLP_LP, &it, "LP",
               "Minimize\n cost:\n  + 3 x2\nSubject To\n r1:\n  - 2 x1\n  + 1 x2\n  >= 1\n r2:\n  + 3 x1\n  <= 3\n"
               "Bounds\n -2 <= x1 <= 3\nGenerals\n x1\nEnd\n");
}

static void check_items(void) {
    /* Names. */
    REJECTED(it.model.objective.len = 0, "objective: NameLength");
    REJECTED(it.model.objective.at = SIZE_MAX, "objective: NameLength");
    REJECTED(it.rows[1].name.len = SIZE_MAX, "row 1: NameLength");
    REJECTED(it.columns[1].name.at = it.model.names.len - 1, "column 1: NameLength");
    REJECTED(it.columns[1].name = marker, "column 1: NameMarker");
    REJECTED(it.rows[0].name = tab, "row 0: NameByte");
    REJECTED(it.model.names.len = 0, "objective: NameLength");
    /* Numbers. */
    REJECTED(it.model.constant = plus, "objective: BadNumber");
    REJECTED(it.columns[1].cost = minus, "column 1: BadNumber");
    REJECTED(it.elements[2].value = minus, "element 2: BadNumber");
    REJECTED(it.rows[0].upper = long_number, "row 0: TooManyDigits");
    REJECTED(it.elements[0].value = long_number, "element 0: TooManyDigits");
    REJECTED(it.columns[1].cost = large, "column 1: ExponentRange");
    REJECTED(it.rows[1].lower = small, "row 1: ExponentRange");
    REJECTED(it.rows[1].upper = large, "row 1: ExponentRange");
    /* Sense and type. */
    REJECTED(it.model.sense = MPSLP_CAST(mpslp_sense, 2), "objective: BadType");
    REJECTED(it.columns[0].kind = MPSLP_CAST(mpslp_kind, 4294967295u), "column 0: BadType");
    /* What is there twice. */
    REJECTED(it.rows[1].name = r2, "row 1: DuplicateRow");
    REJECTED(it.rows[0].name = cost, "row 0: DuplicateRow");
    REJECTED(it.columns[1].name = x2, "column 1: DuplicateBound");
    REJECTED(it.elements[2].row = 0, "element 2: DuplicateEntry");
    /* Limits and bounds of the wrong infinity. */
    REJECTED(it.rows[0].lower = plus, "row 0: InfiniteValue");
    REJECTED(it.rows[1].upper = minus, "row 1: InfiniteValue");
    REJECTED(it.columns[0].lower = plus, "column 0: InfiniteValue");
    REJECTED(it.columns[1].upper = minus, "column 1: InfiniteValue");
    /* Indices. */
    REJECTED(it.elements[1].row = 2, "element 1: UnknownRow");
    REJECTED(it.elements[0].row = SIZE_MAX, "element 0: UnknownRow");
    REJECTED(it.columns[0].first = 1, "column 0: ColumnSplit");
    REJECTED(it.columns[1].first = 4, "column 0: ColumnSplit");
    REJECTED(it.columns[1].first = SIZE_MAX, "column 0: ColumnSplit");
}

/* The elements of each of three columns begin here, and there are three elements. */
static void check_split(size_t first, size_t second, size_t third, const char *line) {
    static const mpslp_number none = { 0, 0, 0, 0 };
    const mpslp_column columns[3] = { { x1, none, plus, one, first, MPSLP_CONTINUOUS },
                                      { x2, none, plus, one, second, MPSLP_CONTINUOUS },
                                      { r1, none, plus, one, third, MPSLP_CONTINUOUS } };
    mpslp_text text = MPSLP_NO_TEXT;
    mpslp_fault fault = MPSLP_NO_FAULT;
    char found[MPSLP_LINE_ROOM] = "";
    arrays it = made();
    it.model.rows = it.rows;
    it.model.elements = it.elements;
    it.model.columns = columns;
    it.model.num_columns = 3;
    if (mpslp_store(MPSLP_MPS, &it.model, &text, &fault) != MPSLP_OK) mpslp_fault_line(&fault, found, sizeof found);
    check(strcmp(found, line) == 0, line);
    mpslp_free(&text);
}

static void check_splits(void) {
    check_split(0, 0, 2, "");
    check_split(0, 2, 3, "");
    check_split(0, 2, 1, "column 1: ColumnSplit");
    check_split(0, 1, 4, "column 1: ColumnSplit");
    check_split(0, 4, 4, "column 0: ColumnSplit");
    check_split(1, 1, 1, "column 0: ColumnSplit");
    check_split(3, 2, 4, "column 0: ColumnSplit");
}

static void check_whole(void) {
    const mpslp_number far_apart = { 1, 0, -400, 0 }, most = { 5, 0, 19, 0 }, least = { MPSLP_CAST(uint64_t, -5), -1, 19, 0 };
    REJECTED((it.model.num_columns = 0, it.model.num_elements = 0), "file: NoColumns");
    REJECTED(it.rows[0].lower = far_apart, "file: RangeInexact r2");
    REJECTED((it.rows[1].lower = least, it.rows[1].upper = most), "file: LimitTooLarge r1");
    REJECTED((it.rows[0].lower = three, it.rows[0].upper = one), "file: LimitsCrossed r2");
    REJECTED(it.columns[1].upper = least, "file: BoundsCrossed x1");
    REJECTED(it.columns[0].kind = MPSLP_SEMI_CONTINUOUS, "file: SemiBounds x2");
    REJECTED((it.columns[1].kind = MPSLP_SEMI_CONTINUOUS, it.columns[1].upper = three), "file: SemiBounds x1");
}

/* Of several errors, the first one. */
static void check_order(void) {
    REJECTED((it.model.objective = tab, it.model.constant = plus), "objective: NameByte");
    REJECTED((it.model.constant = plus, it.model.sense = MPSLP_CAST(mpslp_sense, 2)), "objective: BadNumber");
    REJECTED((it.model.sense = MPSLP_CAST(mpslp_sense, 2), it.rows[0].name = tab), "objective: BadType");
    REJECTED((it.rows[1].name = tab, it.columns[0].name = tab), "row 1: NameByte");
    REJECTED((it.elements[0].row = 2, it.columns[1].name = tab), "element 0: UnknownRow");
    REJECTED((it.columns[0].first = 1, it.rows[1].name = tab), "row 1: NameByte");
    REJECTED((it.columns[0].first = 1, it.columns[0].name = tab), "column 0: ColumnSplit");
    REJECTED((it.columns[1].first = 4, it.columns[0].kind = MPSLP_CAST(mpslp_kind, 3)), "column 0: BadType");
    REJECTED((it.columns[1].first = 4, it.elements[0].row = 2), "column 0: ColumnSplit");
    REJECTED((it.columns[1].first = 4, it.columns[1].name = tab), "column 0: ColumnSplit");
    REJECTED((it.columns[1].upper = minus, it.rows[0].upper = minus_two, it.rows[0].lower = one), "column 1: InfiniteValue");
    REJECTED((it.rows[0].lower = three, it.rows[0].upper = one, it.rows[1].upper = zero), "file: LimitsCrossed r1");
}

/* The place of a name that is not legal in LP is that of the model, in byte order of names. */
static void check_names(void) {
    NOT_LP(it.model.objective = reserved, "objective: NotLp");
    NOT_LP(it.rows[0].name = reserved, "row 0: NotLp");
    NOT_LP(it.rows[1].name = reserved, "row 0: NotLp");
    NOT_LP(it.columns[0].name = reserved, "column 0: NotLp");
    ERROR_OF(MPSLP_CAST(mpslp_format, 2), MPSLP_UNKNOWN_FORMAT, it.model.objective.len = 0, "file: ");
}

int main(void) {
    check_texts();
    check_items();
    check_splits();
    check_whole();
    check_order();
    check_names();
    return differences;
}
