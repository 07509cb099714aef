/* The class Arrays: a model that keeps the arrays of the library. Python's objects are made on access. */
#include "extension.h"

static void arrays_dealloc(PyObject *self) {
    PyTypeObject *type = Py_TYPE(self);
    arrays *held = (arrays *)self;
    free(held->row_starts);
    free(held->row_elements);
    mpslp_free_model(&held->model);
    PyObject_Free(self);
    Py_DECREF(type);
}

/* Takes ownership of a model, even if there is no memory for its object. */
PyObject *arrays_of(PyObject *module, mpslp_model *model) {
    arrays *made = PyObject_New(arrays, (PyTypeObject *)state_of(module)->arrays);
    if (made == NULL) {
        mpslp_free_model(model);
        return PyErr_NoMemory();
    }
    made->model = *model;
    made->row_starts = NULL;
    made->row_elements = NULL;
    return (PyObject *)made;
}

static int is_same_column(const mpslp_column *one, const mpslp_column *other) {
    /* The kind is followed by bytes of padding. */
    return memcmp(one, other, offsetof(mpslp_column, kind) + sizeof one->kind) == 0;
}

/* Whether two models are the same: numbers are in normal form, and names are in the order of what has them. */
static int is_same_model(const mpslp_model *one, const mpslp_model *other) {
    if (one->sense != other->sense || memcmp(&one->constant, &other->constant, sizeof one->constant) != 0) return 0;
    if (one->names.len != other->names.len || one->num_rows != other->num_rows ||
        one->num_columns != other->num_columns || one->num_elements != other->num_elements)
        return 0;
    if (memcmp(&one->objective, &other->objective, sizeof one->objective) != 0 ||
        memcmp(one->names.bytes, other->names.bytes, one->names.len) != 0 ||
        memcmp(one->rows, other->rows, one->num_rows * sizeof *one->rows) != 0 ||
        memcmp(one->elements, other->elements, one->num_elements * sizeof *one->elements) != 0)
        return 0;
    for (size_t j = 0; j < one->num_columns; j++)
        if (!is_same_column(&one->columns[j], &other->columns[j])) return 0;
    return 1;
}

static PyObject *arrays_compare(PyObject *self, PyObject *other, int operation) {
    int is_same;
    if (Py_TYPE(self) != Py_TYPE(other) || (operation != Py_EQ && operation != Py_NE))
        return Py_NewRef(Py_NotImplemented);
    Py_BEGIN_ALLOW_THREADS
        is_same = self == other || is_same_model(model_of(self), model_of(other));
    Py_END_ALLOW_THREADS
    return PyBool_FromLong(is_same == (operation == Py_EQ));
}

static PyObject *arrays_counts(PyObject *self, PyObject *Py_UNUSED(none)) {
    const mpslp_model *model = model_of(self);
    PyObject *made = PyTuple_New(3);
    return filled(made, made != NULL && put(made, 0, PyLong_FromSize_t(model->num_rows)) &&
                            put(made, 1, PyLong_FromSize_t(model->num_columns)) &&
                            put(made, 2, PyLong_FromSize_t(model->num_elements)));
}

static PyObject *arrays_objective(PyObject *self, PyObject *Py_UNUSED(none)) {
    const mpslp_model *model = model_of(self);
    PyObject *made = PyTuple_New(3);
    return filled(made, made != NULL && put(made, 0, PyLong_FromLong((long)model->sense)) &&
                            put(made, 1, name_of(model, model->objective)) &&
                            put(made, 2, decimal_of(state_at(self), &model->constant)));
}

/* The double that is nearest to the constant of the objective, in each rounding mode. */
static PyObject *arrays_nearest_constant(PyObject *self, PyObject *Py_UNUSED(none)) {
    return PyFloat_FromDouble(mpslp_to_double(model_of(self)->constant, NULL));
}

/* Whether an object is a number below a count; otherwise it raises. */
int find_number(PyObject *object, size_t count, size_t *number) {
    *number = PyLong_AsSize_t(object);
    if (*number == (size_t)-1 && PyErr_Occurred()) return 0;
    if (*number < count) return 1;
    PyErr_SetString(PyExc_IndexError, "the model has no such row or column");
    return 0;
}

static PyObject *arrays_row_name(PyObject *self, PyObject *number) {
    const mpslp_model *model = model_of(self);
    size_t i;
    return find_number(number, model->num_rows, &i) ? name_of(model, model->rows[i].name) : NULL;
}

static PyObject *arrays_column_name(PyObject *self, PyObject *number) {
    const mpslp_model *model = model_of(self);
    size_t j;
    return find_number(number, model->num_columns, &j) ? name_of(model, model->columns[j].name) : NULL;
}

static PyObject *arrays_row(PyObject *self, PyObject *number) {
    const mpslp_model *model = model_of(self);
    size_t i;
    if (!find_number(number, model->num_rows, &i)) return NULL;
    const mpslp_row *row = &model->rows[i];
    const state *held = state_at(self);
    PyObject *made = PyTuple_New(3);
    return filled(made, made != NULL && put(made, 0, name_of(model, row->name)) &&
                            put(made, 1, decimal_of(held, &row->lower)) && put(made, 2, decimal_of(held, &row->upper)));
}

static PyObject *arrays_column(PyObject *self, PyObject *number) {
    const mpslp_model *model = model_of(self);
    size_t j;
    if (!find_number(number, model->num_columns, &j)) return NULL;
    const mpslp_column *column = &model->columns[j];
    const state *held = state_at(self);
    PyObject *made = PyTuple_New(5);
    return filled(
        made, made != NULL && put(made, 0, name_of(model, column->name)) &&
                  put(made, 1, PyLong_FromLong((long)column->kind)) && put(made, 2, decimal_of(held, &column->lower)) &&
                  put(made, 3, decimal_of(held, &column->upper)) && put(made, 4, decimal_of(held, &column->cost)));
}

/* The number of the row or column with a name, or None, also for what is not a text or cannot be a name. */
static PyObject *number_of_name(
    PyObject *self, PyObject *name, bool (*find)(const mpslp_model *, const char *, size_t, size_t *)) {
    Py_ssize_t len;
    const char *bytes = PyUnicode_Check(name) ? PyUnicode_AsUTF8AndSize(name, &len) : NULL;
    size_t number;
    if (bytes != NULL)
        return find(model_of(self), bytes, (size_t)len, &number) ? PyLong_FromSize_t(number) : Py_NewRef(Py_None);
    if (PyErr_Occurred() && !PyErr_ExceptionMatches(PyExc_UnicodeEncodeError)) return NULL;
    PyErr_Clear();
    return Py_NewRef(Py_None);
}

static PyObject *arrays_find_row(PyObject *self, PyObject *name) { return number_of_name(self, name, mpslp_find_row); }

static PyObject *arrays_find_column(PyObject *self, PyObject *name) {
    return number_of_name(self, name, mpslp_find_column);
}

/* Where the nonzeros of a column end. */
size_t column_end(const mpslp_model *model, size_t j) {
    return j + 1 < model->num_columns ? model->columns[j + 1].first : model->num_elements;
}

/* The coefficient of column `j` in row `i`, or None. */
static PyObject *arrays_entry(PyObject *self, PyObject *arguments) {
    const mpslp_model *model = model_of(self);
    PyObject *row, *column;
    size_t i, j;
    if (!PyArg_ParseTuple(arguments, "OO:entry", &row, &column)) return NULL;
    if (!find_number(row, model->num_rows, &i) || !find_number(column, model->num_columns, &j)) return NULL;
    size_t first = model->columns[j].first, end = column_end(model, j);
    while (first < end) {
        size_t middle = first + (end - first) / 2;
        const mpslp_element *element = &model->elements[middle];
        if (element->row == i) return decimal_of(state_at(self), &element->value);
        if (element->row < i) first = middle + 1;
        else end = middle;
    }
    return Py_NewRef(Py_None);
}

/* A name and a coefficient. */
static PyObject *entry_of(PyObject *self, mpslp_name name, const mpslp_number *value) {
    PyObject *made = PyTuple_New(2);
    return filled(made,
        made != NULL && put(made, 0, name_of(model_of(self), name)) && put(made, 1, decimal_of(state_at(self), value)));
}

static PyObject *arrays_column_len(PyObject *self, PyObject *number) {
    const mpslp_model *model = model_of(self);
    size_t j;
    return find_number(number, model->num_columns, &j)
               ? PyLong_FromSize_t(column_end(model, j) - model->columns[j].first)
               : NULL;
}

static PyObject *arrays_column_entries(PyObject *self, PyObject *number) {
    const mpslp_model *model = model_of(self);
    size_t j;
    if (!find_number(number, model->num_columns, &j)) return NULL;
    size_t first = model->columns[j].first, len = column_end(model, j) - first;
    PyObject *made = PyList_New((Py_ssize_t)len);
    int is_filled = made != NULL;
    for (size_t k = 0; is_filled && k < len; k++) {
        const mpslp_element *element = &model->elements[first + k];
        is_filled = put_listed(made, k, entry_of(self, model->rows[element->row].name, &element->value));
    }
    return filled(made, is_filled);
}

static int is_same_name(const mpslp_model *one, mpslp_name name, const mpslp_model *other, mpslp_name other_name) {
    return mpslp_compare_name(one, name, (const char *)other->names.bytes + other_name.at, other_name.len) == 0;
}

enum {
    NUMBERS_OF_COLUMN = offsetof(mpslp_column, first) - offsetof(mpslp_column, lower)
}; /* its bounds and its cost */

/* Whether two columns have the same kind and numbers, and as many elements. */
static int has_same_numbers(const mpslp_model *one, size_t j, const mpslp_model *other, size_t k) {
    const mpslp_column *column = &one->columns[j], *other_column = &other->columns[k];
    return column->kind == other_column->kind && memcmp(&column->lower, &other_column->lower, NUMBERS_OF_COLUMN) == 0 &&
           column_end(one, j) - column->first == column_end(other, k) - other_column->first;
}

/* Whether two columns are one but for their names; rows are the same if their names are. */
static int has_same_content(const mpslp_model *one, size_t j, const mpslp_model *other, size_t k) {
    const mpslp_element *at = &one->elements[one->columns[j].first],
                        *other_at = &other->elements[other->columns[k].first];
    const mpslp_element *end = &one->elements[column_end(one, j)];
    if (!has_same_numbers(one, j, other, k)) return 0;
    for (; at < end; at++, other_at++)
        if (memcmp(&at->value, &other_at->value, sizeof at->value) != 0 ||
            !is_same_name(one, one->rows[at->row].name, other, other->rows[other_at->row].name))
            return 0;
    return 1;
}

/* The same in models whose rows have the same names, so that each row has one number. */
static int has_same_elements(const mpslp_model *one, size_t j, const mpslp_model *other, size_t k) {
    const size_t first = one->columns[j].first, len = column_end(one, j) - first;
    return has_same_numbers(one, j, other, k) &&
           memcmp(&one->elements[first], &other->elements[other->columns[k].first], len * sizeof *one->elements) == 0;
}

static int has_same_rows(const mpslp_model *one, const mpslp_model *other) {
    size_t i = 0;
    if (one->num_rows != other->num_rows) return 0;
    while (i < one->num_rows && is_same_name(one, one->rows[i].name, other, other->rows[i].name)) i++;
    return i == one->num_rows;
}

/* Whether the rows of two models have the same names. */
static PyObject *arrays_has_same_rows(PyObject *self, PyObject *arguments) {
    PyObject *other;
    int is_same;
    if (!PyArg_ParseTuple(arguments, "O!:has_same_rows", Py_TYPE(self), &other)) return NULL;
    Py_BEGIN_ALLOW_THREADS
        is_same = has_same_rows(model_of(self), model_of(other));
    Py_END_ALLOW_THREADS
    return PyBool_FromLong(is_same);
}

static int has_same_limits(const mpslp_model *one, size_t i, const mpslp_model *other, size_t k) {
    return memcmp(&one->rows[i].lower, &other->rows[k].lower, sizeof one->rows[i].lower) == 0 &&
           memcmp(&one->rows[i].upper, &other->rows[k].upper, sizeof one->rows[i].upper) == 0;
}

static int compare_names(const mpslp_model *one, mpslp_name name, const mpslp_model *other, mpslp_name other_name) {
    return mpslp_compare_name(one, name, (const char *)other->names.bytes + other_name.at, other_name.len);
}

static int compare_rows(const mpslp_model *one, size_t i, const mpslp_model *other, size_t k) {
    return compare_names(one, one->rows[i].name, other, other->rows[k].name);
}

static int compare_columns(const mpslp_model *one, size_t j, const mpslp_model *other, size_t k) {
    return compare_names(one, one->columns[j].name, other, other->columns[k].name);
}

/* How the rows, or the columns, of two models are compared: all that have the same name and the same content are
 * skipped. */
typedef struct {
    int (*compare)(const mpslp_model *, size_t, const mpslp_model *, size_t);
    int (*is_same)(const mpslp_model *, size_t, const mpslp_model *, size_t);
} comparison;

/* The next numbers in two models, from those that are given on, where they differ, and the order of their names; or
 * None. */
static PyObject *next_difference(PyObject *self, PyObject *first, PyObject *other, PyObject *second,
    size_t (*count)(const mpslp_model *), comparison each) {
    const mpslp_model *one = model_of(self), *two = model_of(other);
    size_t i, k;
    int order = 0;
    if (!find_number(first, count(one) + 1, &i) || !find_number(second, count(two) + 1, &k)) return NULL;
    Py_BEGIN_ALLOW_THREADS
        for (; i < count(one) && k < count(two); i++, k++) {
            order = each.compare(one, i, two, k);
            if (order != 0 || !each.is_same(one, i, two, k)) break;
        }
    Py_END_ALLOW_THREADS
    if (i == count(one) && k == count(two)) return Py_NewRef(Py_None);
    if (i == count(one) || k == count(two)) order = k == count(two) ? -1 : 1;
    PyObject *made = PyTuple_New(3);
    return filled(made, made != NULL && put(made, 0, PyLong_FromSize_t(i)) && put(made, 1, PyLong_FromSize_t(k)) &&
                            put(made, 2, PyLong_FromLong(order)));
}

static PyObject *arrays_next_row(PyObject *self, PyObject *arguments) {
    const comparison of_rows = { compare_rows, has_same_limits };
    PyObject *first, *other, *second;
    if (!PyArg_ParseTuple(arguments, "OO!O:next_row_difference", &first, Py_TYPE(self), &other, &second)) return NULL;
    return next_difference(self, first, other, second, mpslp_num_rows, of_rows);
}

static PyObject *arrays_next_column(PyObject *self, PyObject *arguments) {
    const comparison of_columns = { compare_columns, has_same_content },
                     with_same_rows = { compare_columns, has_same_elements };
    PyObject *first, *other, *second;
    int is_with_same_rows;
    if (!PyArg_ParseTuple(
            arguments, "OO!Op:next_column_difference", &first, Py_TYPE(self), &other, &second, &is_with_same_rows))
        return NULL;
    return next_difference(
        self, first, other, second, mpslp_num_columns, is_with_same_rows ? with_same_rows : of_columns);
}

/* Sorts the nonzeros by row: counts those of each row, computes where each row begins, then puts each into its place.
 */
static void sort_by_rows(const mpslp_model *model, size_t *starts, size_t *elements) {
    size_t i, k, place = 0;
    memset(starts, 0, (model->num_rows + 1) * sizeof *starts);
    for (k = 0; k < model->num_elements; k++) starts[model->elements[k].row]++;
    for (i = 0; i <= model->num_rows; i++) {
        size_t count = starts[i];
        starts[i] = place;
        place += count;
    }
    for (k = 0; k < model->num_elements; k++) elements[starts[model->elements[k].row]++] = k;
    /* Each start is now that of the next row. */
    for (i = model->num_rows; i > 0; i--) starts[i] = starts[i - 1];
    starts[0] = 0;
}

/* Sorts the nonzeros by row if they are not; returns whether they are. Another thread may have done it meanwhile. */
static int is_sorted_by_rows(PyObject *self) {
    arrays *held = (arrays *)self;
    const mpslp_model *model = &held->model;
    size_t *starts, *elements;
    if (held->row_starts != NULL) return 1;
    Py_BEGIN_ALLOW_THREADS
        starts = malloc((model->num_rows + 1) * sizeof *starts);
        elements = malloc((model->num_elements + 1) * sizeof *elements);
        if (starts != NULL && elements != NULL) sort_by_rows(model, starts, elements);
    Py_END_ALLOW_THREADS
    if (held->row_starts == NULL && starts != NULL && elements != NULL) {
        held->row_elements = elements;
        held->row_starts = starts;
        return 1;
    }
    free(starts);
    free(elements);
    if (held->row_starts == NULL) PyErr_NoMemory();
    return held->row_starts != NULL;
}

static PyObject *arrays_row_len(PyObject *self, PyObject *number) {
    const arrays *held = (const arrays *)self;
    size_t i;
    if (!find_number(number, held->model.num_rows, &i) || !is_sorted_by_rows(self)) return NULL;
    return PyLong_FromSize_t(held->row_starts[i + 1] - held->row_starts[i]);
}

/* The column of a nonzero: the last one that begins with it or before it. */
static size_t column_of_element(const mpslp_model *model, size_t element) {
    size_t first = 0, end = model->num_columns;
    while (end - first > 1) {
        size_t middle = first + (end - first) / 2;
        if (model->columns[middle].first <= element) first = middle;
        else end = middle;
    }
    return first;
}

static PyObject *arrays_row_entries(PyObject *self, PyObject *number) {
    const arrays *held = (const arrays *)self;
    const mpslp_model *model = &held->model;
    size_t i;
    if (!find_number(number, model->num_rows, &i) || !is_sorted_by_rows(self)) return NULL;
    size_t first = held->row_starts[i], len = held->row_starts[i + 1] - first;
    PyObject *made = PyList_New((Py_ssize_t)len);
    int is_filled = made != NULL;
    for (size_t k = 0; is_filled && k < len; k++) {
        size_t element = held->row_elements[first + k];
        mpslp_name name = model->columns[column_of_element(model, element)].name;
        is_filled = put_listed(made, k, entry_of(self, name, &model->elements[element].value));
    }
    return filled(made, is_filled);
}

static PyMethodDef arrays_methods[] = {
    { "doubles", arrays_doubles, METH_NOARGS,
        "doubles($self, /)\n--\n\nThe numbers of the model as arrays of doubles and of 32-bit indices." },
    { "names", arrays_names, METH_NOARGS, "names($self, /)\n--\n\nThe names of the rows, and of the columns." },
    { "counts", arrays_counts, METH_NOARGS,
        "counts($self, /)\n--\n\nHow many rows, columns and nonzero coefficients of rows there are." },
    { "objective", arrays_objective, METH_NOARGS,
        "objective($self, /)\n--\n\nThe sense, and the objective's name and constant." },
    { "nearest_constant", arrays_nearest_constant, METH_NOARGS,
        "nearest_constant($self, /)\n--\n\nThe double nearest to the objective's constant." },
    { "row_name", arrays_row_name, METH_O, "row_name($self, number, /)\n--\n\nThe name of a row." },
    { "column_name", arrays_column_name, METH_O, "column_name($self, number, /)\n--\n\nThe name of a column." },
    { "row", arrays_row, METH_O, "row($self, number, /)\n--\n\nA row's name, lower and upper limit." },
    { "column", arrays_column, METH_O,
        "column($self, number, /)\n--\n\nA column's name, kind, lower and upper bound, and cost." },
    { "find_row", arrays_find_row, METH_O,
        "find_row($self, name, /)\n--\n\nThe number of the row that has a name, or None." },
    { "find_column", arrays_find_column, METH_O,
        "find_column($self, name, /)\n--\n\nThe number of the column that has a name, or None." },
    { "entry", arrays_entry, METH_VARARGS,
        "entry($self, row, column, /)\n--\n\nA coefficient, or None where it is 0." },
    { "next_row_difference", arrays_next_row, METH_VARARGS,
        "next_row_difference($self, number, other, other_number, /)\n--\n\n"
        "The numbers, from these on, of the next rows that differ, and the order of their names; or None." },
    { "has_same_rows", arrays_has_same_rows, METH_VARARGS,
        "has_same_rows($self, other, /)\n--\n\nWhether the rows of two models have the same names." },
    { "next_column_difference", arrays_next_column, METH_VARARGS,
        "next_column_difference($self, number, other, other_number, has_same_rows, /)\n--\n\n"
        "The numbers, from these on, of the next columns that differ, and the order of their names; or None." },
    { "row_len", arrays_row_len, METH_O, "row_len($self, number, /)\n--\n\nHow many coefficients of a row are not 0." },
    { "column_len", arrays_column_len, METH_O,
        "column_len($self, number, /)\n--\n\nHow many coefficients of a column are not 0." },
    { "row_entries", arrays_row_entries, METH_O,
        "row_entries($self, number, /)\n--\n\nThe columns of a row, and their coefficients." },
    { "column_entries", arrays_column_entries, METH_O,
        "column_entries($self, number, /)\n--\n\nThe rows of a column, and their coefficients." },
    { "magnitudes", arrays_magnitudes, METH_NOARGS,
        "magnitudes($self, /)\n--\n\n"
        "Of the coefficients, the costs, and the limits of rows and of columns: how many there are by powers of ten, "
        "and how many are 0,\n"
        "and the smallest and the largest, each with the number of the coefficient, the row or the column that has it "
        "first." },
    { "shape", arrays_shape, METH_NOARGS,
        "shape($self, /)\n--\n\n"
        "What does not depend on names, as arrays: where the entries of each column begin, their rows and the hashes "
        "of their values; the\n"
        "colours of rows, the hashes of kinds and bounds, and the colours of columns; and the hash of the sense and "
        "the constant." },
    { "kinds", arrays_kinds, METH_NOARGS, "kinds($self, /)\n--\n\nWhich limits each row has, and each column." },
    { "lines", arrays_lines, METH_O,
        "lines($self, number, /)\n--\n\nLines of rows, columns and coefficients from this one on, and the number of "
        "the next." },
    { NULL, NULL, 0, NULL },
};

static PyType_Slot arrays_slots[] = {
    { Py_tp_doc, "A model as the arrays of the library. Rows and columns are numbered in byte order of their names." },
    { Py_tp_dealloc, arrays_dealloc },
    { Py_tp_richcompare, arrays_compare },
    { Py_tp_methods, arrays_methods },
    { 0, NULL },
};

PyType_Spec arrays_spec = {
    .name = "mpslp._mpslp.Arrays",
    .basicsize = sizeof(arrays),
    .flags = Py_TPFLAGS_DEFAULT | Py_TPFLAGS_DISALLOW_INSTANTIATION,
    .slots = arrays_slots,
};

PyObject *load(PyObject *module, PyObject *arguments) {
    PyObject *source;
    unsigned format;
    content text;
    mpslp_model model = MPSLP_NO_MODEL;
    mpslp_fault fault = MPSLP_NO_FAULT;
    mpslp_status status;
    if (!PyArg_ParseTuple(arguments, "SI:load", &source, &format) || !find_content(source, &text)) return NULL;
    Py_BEGIN_ALLOW_THREADS
        status = mpslp_load(format, text.bytes, text.len, &model, &fault);
    Py_END_ALLOW_THREADS
    return status == MPSLP_OK ? arrays_of(module, &model) : refuse(module, status, &fault, NULL);
}

PyObject *store(PyObject *module, PyObject *arguments) {
    PyObject *source;
    unsigned to;
    mpslp_text out = MPSLP_NO_TEXT;
    mpslp_fault fault = MPSLP_NO_FAULT;
    mpslp_status status;
    if (!PyArg_ParseTuple(arguments, "O!I:store", state_of(module)->arrays, &source, &to)) return NULL;
    Py_BEGIN_ALLOW_THREADS
        status = mpslp_store(to, model_of(source), &out, &fault);
    Py_END_ALLOW_THREADS
    return text_of(module, status, &out, &fault);
}
