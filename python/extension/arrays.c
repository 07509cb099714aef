/* A model as arrays of doubles, and what is counted of it. */
#include "extension.h"

enum { COSTS, STARTS, ROWS, VALUES, ROW_LOWER, ROW_UPPER, LOWER, UPPER, KINDS, PARTS };

/* Writes the numbers of a model into memory that is large enough. */
static void write_doubles(const mpslp_model *model, void *at[PARTS]) {
    mpslp_costs(model, at[COSTS]);
    mpslp_matrix(model, at[STARTS], at[ROWS], at[VALUES]);
    mpslp_row_limits(model, at[ROW_LOWER], at[ROW_UPPER]);
    mpslp_column_bounds(model, at[LOWER], at[UPPER]);
    for (size_t j = 0; j < model->num_columns; j++) ((int8_t *)at[KINDS])[j] = (int8_t)model->columns[j].kind;
}

PyObject *arrays_doubles(PyObject *self, PyObject *Py_UNUSED(none)) {
    const mpslp_model *model = model_of(self);
    const size_t rows = model->num_rows, columns = model->num_columns, elements = model->num_elements;
    const size_t sizes[PARTS] = {
        [COSTS] = columns * sizeof(double),
        [STARTS] = (columns + 1) * sizeof(int32_t),
        [ROWS] = elements * sizeof(int32_t),
        [VALUES] = elements * sizeof(double),
        [ROW_LOWER] = rows * sizeof(double),
        [ROW_UPPER] = rows * sizeof(double),
        [LOWER] = columns * sizeof(double),
        [UPPER] = columns * sizeof(double),
        [KINDS] = columns * sizeof(int8_t),
    };
    void *at[PARTS];
    PyObject *made;
    if (!mpslp_fits_int32(model)) {
        PyErr_SetString(PyExc_OverflowError, "the model has more parts than an index of 32 bits");
        return NULL;
    }
    made = PyTuple_New(PARTS);
    if (made == NULL) return NULL;
    for (Py_ssize_t part = 0; part < PARTS; part++) {
        /* It is resized, because CPython does not initialise the count of views if it cannot allocate a new bytearray's
         * bytes. */
        PyObject *room = PyByteArray_FromStringAndSize(NULL, 0);
        if (!put(made, part, room) || PyByteArray_Resize(room, (Py_ssize_t)sizes[part]) < 0) return filled(made, 0);
        at[part] = PyByteArray_AsString(room);
    }
    /* Nothing else refers to these objects yet. */
    Py_BEGIN_ALLOW_THREADS
        write_doubles(model, at);
    Py_END_ALLOW_THREADS
    return made;
}

/* The names of so many rows or columns; `name_at` returns the name of one. */
static PyObject *names_of(const mpslp_model *model, size_t count, mpslp_text (*name_at)(const mpslp_model *, size_t)) {
    PyObject *made = PyList_New((Py_ssize_t)count);
    int is_filled = made != NULL;
    for (size_t i = 0; is_filled && i < count; i++) {
        mpslp_text name = name_at(model, i);
        is_filled = put_listed(made, i, PyUnicode_FromStringAndSize((const char *)name.bytes, (Py_ssize_t)name.len));
    }
    return filled(made, is_filled);
}

PyObject *arrays_names(PyObject *self, PyObject *Py_UNUSED(none)) {
    const mpslp_model *model = model_of(self);
    PyObject *made = PyTuple_New(2);
    return filled(made, made != NULL && put(made, 0, names_of(model, model->num_rows, mpslp_row_name)) &&
                            put(made, 1, names_of(model, model->num_columns, mpslp_column_name)));
}

/* The powers of ten of the numbers of a model, which have exponents of up to 500 and up to 36 digits. */
enum { LEAST_POWER = -500, MOST_POWER = 535 };

/* A number that is finite and not 0, the power of ten of its first digit, and which row, column or element has it. */
typedef struct {
    const mpslp_number *number;
    int32_t power;
    size_t at;
} sized;

/* How many numbers there are by their powers of ten, how many are 0, and the first ones of the least and the greatest
 * size. */
typedef struct {
    size_t counts[MOST_POWER - LEAST_POWER + 1], zeros;
    sized smallest, largest;
} magnitudes;

static int32_t power_of(const mpslp_number *number) {
    magnitude size = size_of(number);
    int32_t power = number->exponent;
    uint64_t rest;
    for (; size >> 64 != 0; size /= 10) power++;
    for (rest = (uint64_t)size; rest >= 10; rest /= 10) power++;
    return power;
}

/* The sign of the difference of the sizes of two numbers. With the same power of ten both have up to 36 digits from the
 * smaller exponent on. */
static int compare_sizes(const sized *one, const sized *other) {
    magnitude size = size_of(one->number), other_size = size_of(other->number);
    if (one->power != other->power) return one->power < other->power ? -1 : 1;
    for (int32_t from = one->number->exponent; from > other->number->exponent; from--) size *= 10;
    for (int32_t from = other->number->exponent; from > one->number->exponent; from--) other_size *= 10;
    return (size > other_size) - (size < other_size);
}

/* Counts a number; one that is infinite is left out. */
static void count_number(magnitudes *all, const mpslp_number *number, size_t at) {
    if (number->infinity != 0) return;
    if (mantissa_of(number) == 0) {
        all->zeros++;
        return;
    }
    const sized found = { number, power_of(number), at };
    all->counts[found.power - LEAST_POWER]++;
    if (all->smallest.number == NULL || compare_sizes(&found, &all->smallest) < 0) all->smallest = found;
    if (all->largest.number == NULL || compare_sizes(&found, &all->largest) > 0) all->largest = found;
}

static int is_same_number(const mpslp_number *one, const mpslp_number *other) {
    return memcmp(one, other, sizeof *one) == 0;
}

enum { OF_ELEMENTS, OF_COSTS, OF_ROWS, OF_COLUMNS, SORTS };

/* Counts the elements, the costs, and the limits of rows and of columns. Limits that are equal are one number. */
static void count_numbers(const mpslp_model *model, magnitudes all[SORTS]) {
    for (size_t k = 0; k < model->num_elements; k++) count_number(&all[OF_ELEMENTS], &model->elements[k].value, k);
    for (size_t i = 0; i < model->num_rows; i++) {
        const mpslp_row *row = &model->rows[i];
        count_number(&all[OF_ROWS], &row->upper, i);
        if (!is_same_number(&row->lower, &row->upper)) count_number(&all[OF_ROWS], &row->lower, i);
    }
    for (size_t j = 0; j < model->num_columns; j++) {
        const mpslp_column *column = &model->columns[j];
        count_number(&all[OF_COSTS], &column->cost, j);
        count_number(&all[OF_COLUMNS], &column->upper, j);
        if (!is_same_number(&column->lower, &column->upper)) count_number(&all[OF_COLUMNS], &column->lower, j);
    }
}

/* A tuple of a number, and of which row, column or element has it; or None if there is none. */
static PyObject *sized_of(PyObject *self, const sized *found) {
    if (found->number == NULL) return Py_NewRef(Py_None);
    PyObject *made = PyTuple_New(2);
    return filled(made, made != NULL && put(made, 0, decimal_of(state_at(self), found->number)) &&
                            put(made, 1, PyLong_FromSize_t(found->at)));
}

/* Stores a new object in a dictionary, by a number. Returns whether there was an object. */
static int put_by_number(PyObject *dictionary, long number, PyObject *item) {
    PyObject *key = PyLong_FromLong(number);
    const int is_put = item != NULL && key != NULL && PyDict_SetItem(dictionary, key, item) == 0;
    Py_XDECREF(key);
    Py_XDECREF(item);
    return is_put;
}

static PyObject *powers_of(const magnitudes *all) {
    PyObject *made = PyDict_New();
    int is_filled = made != NULL;
    for (long power = LEAST_POWER; is_filled && power <= MOST_POWER; power++) {
        const size_t count = all->counts[power - LEAST_POWER];
        if (count != 0) is_filled = put_by_number(made, power, PyLong_FromSize_t(count));
    }
    return filled(made, is_filled);
}

static PyObject *magnitudes_of(PyObject *self, const magnitudes *all) {
    PyObject *made = PyTuple_New(4);
    return filled(made, made != NULL && put(made, 0, powers_of(all)) && put(made, 1, PyLong_FromSize_t(all->zeros)) &&
                            put(made, 2, sized_of(self, &all->smallest)) &&
                            put(made, 3, sized_of(self, &all->largest)));
}

PyObject *arrays_magnitudes(PyObject *self, PyObject *Py_UNUSED(none)) {
    magnitudes *all = calloc(SORTS, sizeof *all);
    PyObject *made;
    int is_filled;
    if (all == NULL) return PyErr_NoMemory();
    Py_BEGIN_ALLOW_THREADS
        count_numbers(model_of(self), all);
    Py_END_ALLOW_THREADS
    made = PyTuple_New(SORTS);
    is_filled = made != NULL;
    for (Py_ssize_t sort = 0; is_filled && sort < SORTS; sort++)
        is_filled = put(made, sort, magnitudes_of(self, &all[sort]));
    free(all);
    return filled(made, is_filled);
}

/* What two limits are; the last two are kinds of bounds only. The modules of the package have words for these, in this
 * order. */
enum { EQUAL, ONLY_UPPER, ONLY_LOWER, BOTH, NEITHER, FROM_0, FROM_0_TO_1 };

static char kind_of_limits(const mpslp_number *lower, const mpslp_number *upper) {
    const int has_lower = lower->infinity == 0, has_upper = upper->infinity == 0;
    if (!has_lower) return has_upper ? ONLY_UPPER : NEITHER;
    if (is_same_number(lower, upper)) return EQUAL;
    return has_upper ? BOTH : ONLY_LOWER;
}

static char kind_of_bounds(const mpslp_column *column) {
    static const mpslp_number one = { 1, 0, 0, 0 };
    const char kind = kind_of_limits(&column->lower, &column->upper);
    if (mantissa_of(&column->lower) != 0) return kind;
    return kind == ONLY_LOWER ? FROM_0 : kind == BOTH && is_same_number(&column->upper, &one) ? FROM_0_TO_1 : kind;
}

static void write_kinds(const mpslp_model *model, char *rows, char *columns) {
    for (size_t i = 0; i < model->num_rows; i++) rows[i] = kind_of_limits(&model->rows[i].lower, &model->rows[i].upper);
    for (size_t j = 0; j < model->num_columns; j++) columns[j] = kind_of_bounds(&model->columns[j]);
}

PyObject *arrays_kinds(PyObject *self, PyObject *Py_UNUSED(none)) {
    const mpslp_model *model = model_of(self);
    PyObject *made = PyTuple_New(2);
    const int is_filled = made != NULL && put(made, 0, PyBytes_FromStringAndSize(NULL, (Py_ssize_t)model->num_rows)) &&
                          put(made, 1, PyBytes_FromStringAndSize(NULL, (Py_ssize_t)model->num_columns));
    /* Nothing else refers to these objects yet. */
    if (is_filled)
        write_kinds(model, PyBytes_AsString(PyTuple_GetItem(made, 0)), PyBytes_AsString(PyTuple_GetItem(made, 1)));
    return filled(made, is_filled);
}
