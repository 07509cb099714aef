/* The text of show, whose lines are those of rows, and then those of each column and its nonzeros. */
#include "extension.h"

/* In texts, the maximum number of zeros that are written out after digits, and of decimal places. */
enum { MOST_ZEROS_OF_TEXT = 5, MOST_PLACES_OF_TEXT = 18 };

/* The bytes of a block of lines, and room for a line: a name, and numbers of up to 36 digits. */
enum { BLOCK = 1 << 16, LONGEST_LINE = 1 << 10 };

static char *put_bytes(char *at, const char *bytes, size_t len) {
    memcpy(at, bytes, len);
    return at + len;
}

static char *put_word(char *at, const char *word) { return put_bytes(at, word, strlen(word)); }

static char *put_zeros(char *at, size_t count) {
    memset(at, '0', count);
    return at + count;
}

static char *put_count(char *at, size_t count) {
    char digits[20], *const end = digits + sizeof digits;
    const char *first = put_digits(end, count);
    return put_bytes(at, first, (size_t)(end - first));
}

/* Writes a number as canonical texts have it. */
static char *put_number(char *at, const mpslp_number *number) {
    char digits[40], *const end = digits + sizeof digits;
    const char *first;
    size_t len, places;
    if (number->infinity != 0) return put_word(at, number->infinity < 0 ? "-inf" : "inf");
    if (number->high < 0) *at++ = '-';
    first = put_digits(end, size_of(number));
    len = (size_t)(end - first);
    if (number->exponent > MOST_ZEROS_OF_TEXT || number->exponent < -MOST_PLACES_OF_TEXT) {
        at = put_word(put_bytes(at, first, len), number->exponent < 0 ? "e-" : "e");
        return put_count(at, (size_t)labs(number->exponent));
    }
    if (number->exponent >= 0) return put_zeros(put_bytes(at, first, len), (size_t)number->exponent);
    places = (size_t)-number->exponent;
    if (len <= places) return put_bytes(put_zeros(put_word(at, "0."), places - len), first, len);
    return put_bytes(put_word(put_bytes(at, first, len - places), "."), end - places, places);
}

static char *put_name(char *at, const mpslp_model *model, mpslp_name name) {
    return put_bytes(at, (const char *)model->names.bytes + name.at, name.len);
}

/*
 * The upper limit of a ranged row minus the lower one. It is a number of a model, or the library would have rejected
 * the row: so it has at most 36 digits from the smaller exponent on, and nothing here is too large.
 */
static mpslp_number range_of(const mpslp_row *row) {
    magnitude upper = mantissa_of(&row->upper), lower = mantissa_of(&row->lower), range;
    int32_t exponent = row->upper.exponent;
    for (int32_t from = row->lower.exponent; from > exponent; from--) lower *= 10;
    for (; exponent > row->lower.exponent; exponent--) upper *= 10;
    for (range = upper - lower; range % 10 == 0; range /= 10) exponent++;
    const mpslp_number made = { (uint64_t)range, (int64_t)(range >> 64), exponent, 0 };
    return made;
}

/* Writes what the limits of a row are: its type, both limits, right-hand side and range. */
static char *put_limits(char *at, const mpslp_row *row) {
    static const mpslp_number zero = { 0, 0, 0, 0 };
    const int has_lower = row->lower.infinity == 0, has_upper = row->upper.infinity == 0;
    const int is_equal = has_lower && memcmp(&row->lower, &row->upper, sizeof row->lower) == 0;
    const int is_ranged = has_lower && has_upper && !is_equal;
    const mpslp_number range = is_ranged ? range_of(row) : zero;
    const char *type = is_ranged ? " R " : is_equal ? " E " : has_lower ? " G " : has_upper ? " L " : " N ";
    at = put_number(put_word(put_number(put_word(at, type), &row->lower), " "), &row->upper);
    at = put_number(put_word(at, " rhs "), has_upper ? &row->upper : has_lower ? &row->lower : &zero);
    return put_number(put_word(at, " range "), &range);
}

static char *put_row(char *at, const mpslp_model *model, size_t i) {
    at = put_word(put_count(put_word(at, "row "), i), " ");
    return put_limits(put_name(at, model, model->rows[i].name), &model->rows[i]);
}

static char *put_column(char *at, const mpslp_model *model, size_t j) {
    static const char *const kinds[] = { " continuous ", " integer ", " semi " };
    const mpslp_column *column = &model->columns[j];
    at = put_word(put_count(put_word(at, "column "), j), " ");
    at = put_number(put_word(put_name(at, model, column->name), kinds[column->kind]), &column->lower);
    return put_number(put_word(put_number(put_word(at, " "), &column->upper), " objective "), &column->cost);
}

static char *put_element(char *at, size_t j, const mpslp_element *element) {
    at = put_word(put_count(put_word(at, "entry "), j), " ");
    return put_number(put_word(put_count(at, element->row), " "), &element->value);
}

/* The line with the number of a column: those of all rows, of the columns before it, and of their nonzeros precede it.
 */
static size_t line_of_column(const mpslp_model *model, size_t j) {
    return model->num_rows + j + model->columns[j].first;
}

/* The column to which the line with a number belongs, which is no line of a row. */
static size_t column_of_line(const mpslp_model *model, size_t line) {
    size_t first = 0, end = model->num_columns;
    while (end - first > 1) {
        size_t middle = first + (end - first) / 2;
        if (line_of_column(model, middle) <= line) first = middle;
        else end = middle;
    }
    return first;
}

static size_t count_lines(const mpslp_model *model) {
    return model->num_rows + model->num_columns + model->num_elements;
}

/* Writes lines from `*line` on until a block is full, and sets `*line` to the next one. Returns where they end. */
static char *put_lines(char *at, const mpslp_model *model, size_t *line) {
    const char *full = at + BLOCK;
    size_t j;
    for (; *line < model->num_rows && at < full; ++*line) at = put_word(put_row(at, model, *line), "\n");
    if (*line < model->num_rows) return at;
    j = column_of_line(model, *line);
    for (; *line < count_lines(model) && at < full; ++*line) {
        if (j + 1 < model->num_columns && *line == line_of_column(model, j + 1)) j++;
        at = *line == line_of_column(model, j) ? put_column(at, model, j)
                                               : put_element(at, j, &model->elements[*line - model->num_rows - j - 1]);
        at = put_word(at, "\n");
    }
    return at;
}

PyObject *arrays_lines(PyObject *self, PyObject *number) {
    const mpslp_model *model = model_of(self);
    size_t line;
    char *block, *end;
    PyObject *made = NULL;
    if (!find_number(number, count_lines(model), &line)) return NULL;
    block = malloc(BLOCK + LONGEST_LINE);
    if (block == NULL) return PyErr_NoMemory();
    Py_BEGIN_ALLOW_THREADS
        end = put_lines(block, model, &line);
    Py_END_ALLOW_THREADS
    made = PyTuple_New(2);
    /* Without the last end of line. */
    made = filled(made, made != NULL && put(made, 0, PyUnicode_FromStringAndSize(block, end - block - 1)) &&
                            put(made, 1, PyLong_FromSize_t(line)));
    free(block);
    return made;
}
