/* Models that are made of arrays of doubles. */
#include "extension.h"

/* What a model is made of: names, and bytes objects that hold an array each. */
typedef struct {
    PyObject *row_names, *column_names;
    PyObject *row_lower, *row_upper, *lower, *upper, *costs, *values; /* doubles */
    PyObject *starts, *rows;                                          /* 64-bit integers */
    PyObject *kinds;                                                  /* bytes */
} of_doubles;

static double double_at(PyObject *array, size_t i) {
    double found;
    memcpy(&found, PyBytes_AsString(array) + i * sizeof found, sizeof found);
    return found;
}

static int64_t integer_at(PyObject *array, size_t i) {
    int64_t found;
    memcpy(&found, PyBytes_AsString(array) + i * sizeof found, sizeof found);
    return found;
}

static int has_items(PyObject *array, size_t count, size_t size) { return (size_t)PyBytes_Size(array) == count * size; }

/*
 * Sets a double with few decimal places as the decimal of its shortest text. No double is nearest to two decimals of up
 * to 15 digits, so if one of them is nearest to this double, it is the shortest. All is done by integers, in each
 * rounding mode: the double is a mantissa times 2^-twos, and that times 10^places is compared with whole numbers.
 */
static int set_short(double value, mpslp_number *number) {
    uint64_t bits, mantissa, power = 1;
    int twos;
    memcpy(&bits, &value, sizeof bits);
    mantissa = (bits & (((uint64_t)1 << 52) - 1)) | (uint64_t)1 << 52;
    twos = 1075 - (int)(bits >> 52 & 0x7ff);
    /* From 2^-30 to below 2^50. */
    if (twos < 3 || twos > 82) return 0;
    for (int places = 0; places <= 9; places++, power *= 10) {
        const magnitude scaled = (magnitude)mantissa * power, unit = (magnitude)1 << twos;
        const magnitude digits = (scaled + unit / 2) >> twos, whole = digits << twos;
        const magnitude distance = whole < scaled ? scaled - whole : whole - scaled;
        if (digits >= 1000000000000000u) return 0;
        /* Half of the distance to the next double, which below a power of two is a quarter. */
        if (distance * (mantissa == (uint64_t)1 << 52 ? 4 : 2) < power) {
            const mpslp_number found = { value < 0 ? 0 - (uint64_t)digits : (uint64_t)digits, value < 0 ? -1 : 0,
                -places, 0 };
            *number = found;
            return 1;
        }
    }
    return 0;
}

/* Sets a finite double as the decimal of its shortest text, in each rounding mode. */
static int set_finite(double value, mpslp_number *number) {
    if (value - value != 0) return 0;
    return set_short(value, number) || mpslp_from_double(value, MPSLP_SHORTEST, number);
}

/* The same of a limit, which is infinite, by its sign, from a magnitude of 1e20. */
static int set_limit(double value, mpslp_number *number) {
    const mpslp_number infinite = { 0, 0, 0, value < 0 ? -1 : 1 };
    if (value > -1e20 && value < 1e20) return set_finite(value, number);
    *number = infinite;
    return value == value;
}

int make_listed_name(parts *all, PyObject *names, size_t number, mpslp_name *name) {
    Py_ssize_t len;
    PyObject *item = PyList_GetItem(names, (Py_ssize_t)number);
    const char *bytes = PyUnicode_Check(item) ? PyUnicode_AsUTF8AndSize(item, &len) : NULL;
    return bytes != NULL && make_name(all, bytes, len, name);
}

static int make_row_of_doubles(parts *all, const of_doubles *from, size_t i) {
    mpslp_row *row = more(&all->rows, 1, sizeof *row);
    return row != NULL && make_listed_name(all, from->row_names, i, &row->name) &&
           set_limit(double_at(from->row_lower, i), &row->lower) &&
           set_limit(double_at(from->row_upper, i), &row->upper);
}

/* The items of one column, without zeros. `seen` has the number from 1 of the last column with an item in each row. */
static int make_elements_of_doubles(parts *all, const of_doubles *from, size_t j, size_t *seen) {
    const int64_t first = integer_at(from->starts, j), end = integer_at(from->starts, j + 1),
                  most = integer_at(from->starts, (size_t)PyList_Size(from->column_names));
    const size_t num_rows = (size_t)PyList_Size(from->row_names);
    if (first < 0 || first > end || end > most) return 0;
    for (size_t k = (size_t)first; k < (size_t)end; k++) {
        const int64_t row = integer_at(from->rows, k);
        const double value = double_at(from->values, k);
        mpslp_element *element;
        if (row < 0 || (uint64_t)row >= num_rows || seen[row] == j + 1) return 0;
        seen[row] = j + 1;
        if (value == 0) continue;
        element = more(&all->elements, 1, sizeof *element);
        if (element == NULL || !set_finite(value, &element->value)) return 0;
        element->row = (size_t)row;
    }
    return 1;
}

static int make_column_of_doubles(parts *all, const of_doubles *from, size_t j, size_t *seen) {
    const unsigned kind = (unsigned char)PyBytes_AsString(from->kinds)[j];
    mpslp_column *column = more(&all->columns, 1, sizeof *column);
    if (column == NULL || kind > MPSLP_SEMI_CONTINUOUS) return 0;
    column->kind = kind;
    column->first = all->elements.len;
    return make_listed_name(all, from->column_names, j, &column->name) &&
           set_limit(double_at(from->lower, j), &column->lower) &&
           set_limit(double_at(from->upper, j), &column->upper) &&
           set_finite(double_at(from->costs, j), &column->cost) && make_elements_of_doubles(all, from, j, seen);
}

/* Whether the arrays have as many items as the model has rows, columns and elements. */
static int have_lengths(const of_doubles *from, size_t num_rows, size_t num_columns) {
    const size_t count = (size_t)PyBytes_Size(from->rows) / sizeof(int64_t);
    return has_items(from->row_lower, num_rows, sizeof(double)) &&
           has_items(from->row_upper, num_rows, sizeof(double)) &&
           has_items(from->lower, num_columns, sizeof(double)) && has_items(from->upper, num_columns, sizeof(double)) &&
           has_items(from->costs, num_columns, sizeof(double)) && has_items(from->kinds, num_columns, 1) &&
           has_items(from->starts, num_columns + 1, sizeof(int64_t)) &&
           has_items(from->values, count, sizeof(double)) && integer_at(from->starts, 0) == 0 &&
           integer_at(from->starts, num_columns) == (int64_t)count;
}

static int make_parts_of_doubles(parts *all, const of_doubles *from) {
    const size_t num_rows = (size_t)PyList_Size(from->row_names), num_columns = (size_t)PyList_Size(from->column_names);
    size_t *seen;
    int is_made = 1;
    if (!have_lengths(from, num_rows, num_columns)) return 0;
    seen = calloc(num_rows + 1, sizeof *seen);
    if (seen == NULL) {
        PyErr_NoMemory();
        return 0;
    }
    for (size_t i = 0; is_made && i < num_rows; i++) is_made = make_row_of_doubles(all, from, i);
    for (size_t j = 0; is_made && j < num_columns; j++) is_made = make_column_of_doubles(all, from, j, seen);
    free(seen);
    return is_made;
}

/* The model of arrays, or None if they define none: why they do not is found by the modules of the package. */
PyObject *make_of_doubles(PyObject *module, PyObject *arguments) {
    const char *objective;
    Py_ssize_t len;
    unsigned sense;
    double constant;
    of_doubles from;
    PyObject *arrays = NULL;
    parts all = NO_PARTS;
    mpslp_model made = MPSLP_NO_MODEL, model = MPSLP_NO_MODEL;
    if (!PyArg_ParseTuple(arguments, "Is#dO!O!SSSSSSSSS:make_of_doubles", &sense, &objective, &len, &constant,
            &PyList_Type, &from.row_names, &PyList_Type, &from.column_names, &from.row_lower, &from.row_upper,
            &from.lower, &from.upper, &from.costs, &from.kinds, &from.starts, &from.rows, &from.values))
        return NULL;
    made.sense = sense;
    if (make_name(&all, objective, len, &made.objective) && set_finite(constant, &made.constant) &&
        make_parts_of_doubles(&all, &from)) {
        mpslp_fault fault = MPSLP_NO_FAULT;
        mpslp_status status;
        take_parts(&made, &all);
        Py_BEGIN_ALLOW_THREADS
            status = mpslp_normalize(&made, &model, &fault);
        Py_END_ALLOW_THREADS
        if (status == MPSLP_OK) arrays = arrays_of(module, &model);
        if (status == MPSLP_OUT_OF_MEMORY) PyErr_NoMemory();
    }
    free_parts(&all);
    if (arrays == NULL && PyErr_Occurred() && PyErr_ExceptionMatches(PyExc_UnicodeError)) PyErr_Clear();
    return arrays != NULL || PyErr_Occurred() ? arrays : Py_NewRef(Py_None);
}
