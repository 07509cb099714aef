/* Colours of rows and columns, which do not depend on names: python/README.md defines them. */
#include "extension.h"

/* Adds a word to a hash. */
static uint64_t mixed(uint64_t hash, uint64_t word) {
    hash = (hash ^ word) + UINT64_C(0x9E3779B97F4A7C15);
    hash = (hash ^ (hash >> 30)) * UINT64_C(0xBF58476D1CE4E5B9);
    hash = (hash ^ (hash >> 27)) * UINT64_C(0x94D049BB133111EB);
    return hash ^ (hash >> 31);
}

static uint64_t with_number(uint64_t hash, const mpslp_number *number) {
    hash = mixed(mixed(hash, number->low), (uint64_t)number->high);
    return mixed(mixed(hash, (uint64_t)(int64_t)number->exponent), (uint64_t)(int64_t)number->infinity);
}

/* The first words of the hashes, which keep what they are of apart. */
enum { OF_ROW = 1, OF_COLUMN, OF_VALUE, OF_MODEL };

enum {
    SHAPE_STARTS,
    SHAPE_ROWS,
    SHAPE_VALUES,
    SHAPE_ROW_COLOURS,
    SHAPE_BOUNDS,
    SHAPE_COLUMN_COLOURS,
    SHAPE_MODEL,
    SHAPE_PARTS
};

static void write_shape(const mpslp_model *model, void *at[SHAPE_PARTS]) {
    uint64_t *starts = at[SHAPE_STARTS], *values = at[SHAPE_VALUES], *bounds = at[SHAPE_BOUNDS],
             *column_colours = at[SHAPE_COLUMN_COLOURS];
    uint64_t *row_colours = at[SHAPE_ROW_COLOURS];
    uint32_t *rows = at[SHAPE_ROWS];
    for (size_t i = 0; i < model->num_rows; i++)
        row_colours[i] = with_number(with_number(mixed(0, OF_ROW), &model->rows[i].lower), &model->rows[i].upper);
    for (size_t j = 0; j < model->num_columns; j++) {
        const mpslp_column *column = &model->columns[j];
        starts[j] = column->first;
        bounds[j] = with_number(
            with_number(mixed(mixed(0, OF_COLUMN), (uint64_t)column->kind), &column->lower), &column->upper);
        column_colours[j] = with_number(bounds[j], &column->cost);
    }
    starts[model->num_columns] = model->num_elements;
    for (size_t k = 0; k < model->num_elements; k++) {
        rows[k] = (uint32_t)model->elements[k].row;
        values[k] = with_number(mixed(0, OF_VALUE), &model->elements[k].value);
    }
    *(uint64_t *)at[SHAPE_MODEL] = with_number(mixed(mixed(0, OF_MODEL), (uint64_t)model->sense), &model->constant);
}

PyObject *arrays_shape(PyObject *self, PyObject *Py_UNUSED(none)) {
    const mpslp_model *model = model_of(self);
    const size_t rows = model->num_rows, columns = model->num_columns, elements = model->num_elements;
    const size_t sizes[SHAPE_PARTS] = {
        [SHAPE_STARTS] = (columns + 1) * sizeof(uint64_t),
        [SHAPE_ROWS] = elements * sizeof(uint32_t),
        [SHAPE_VALUES] = elements * sizeof(uint64_t),
        [SHAPE_ROW_COLOURS] = rows * sizeof(uint64_t),
        [SHAPE_BOUNDS] = columns * sizeof(uint64_t),
        [SHAPE_COLUMN_COLOURS] = columns * sizeof(uint64_t),
        [SHAPE_MODEL] = sizeof(uint64_t),
    };
    void *at[SHAPE_PARTS];
    PyObject *made;
    if (!mpslp_fits_int32(model)) {
        PyErr_SetString(PyExc_OverflowError, "the model has more parts than an index of 32 bits");
        return NULL;
    }
    made = PyTuple_New(SHAPE_PARTS);
    if (made == NULL) return NULL;
    for (Py_ssize_t part = 0; part < SHAPE_PARTS; part++) {
        PyObject *room = PyBytes_FromStringAndSize(NULL, (Py_ssize_t)sizes[part]);
        if (!put(made, part, room)) return filled(made, 0);
        at[part] = PyBytes_AsString(room);
    }
    /* Nothing else refers to these objects yet. */
    Py_BEGIN_ALLOW_THREADS
        write_shape(model, at);
    Py_END_ALLOW_THREADS
    return made;
}

/* A graph of rows and columns: the entries of column j are those from starts[j] on, each with its row and the hash of
 * its value. */
typedef struct {
    size_t num_rows, num_columns;
    const uint64_t *starts, *values;
    const uint32_t *rows;
} graph;

/* Whether the parts of a graph fit each other, so that each index is one of a row. */
static int is_graph(const graph *given, size_t num_rows_listed, size_t num_values) {
    if (num_values == SIZE_MAX || num_rows_listed != num_values || given->starts[0] != 0 ||
        given->starts[given->num_columns] != num_values)
        return 0;
    for (size_t j = 0; j < given->num_columns; j++)
        if (given->starts[j] > given->starts[j + 1]) return 0;
    for (size_t k = 0; k < num_values; k++)
        if (given->rows[k] >= given->num_rows) return 0;
    return 1;
}

/* One round: each colour gets the colours that it is joined with added, each with the value there. `sums` has room for
 * each row. */
static void refine_once(const graph *given, uint64_t *row_colours, uint64_t *column_colours, uint64_t *sums) {
    memset(sums, 0, given->num_rows * sizeof *sums);
    for (size_t j = 0; j < given->num_columns; j++) {
        const uint64_t own = column_colours[j];
        uint64_t sum = 0;
        for (size_t k = given->starts[j]; k < given->starts[j + 1]; k++) {
            const uint32_t i = given->rows[k];
            sum += mixed(row_colours[i], given->values[k]);
            sums[i] += mixed(own, given->values[k]);
        }
        column_colours[j] = mixed(own, sum);
    }
    for (size_t i = 0; i < given->num_rows; i++) row_colours[i] = mixed(row_colours[i], sums[i]);
}

/* The number of items of this size in bytes, or the greatest size if they are no whole number. */
static size_t items_of(PyObject *bytes, size_t size) {
    const size_t len = (size_t)PyBytes_Size(bytes);
    return len % size == 0 ? len / size : SIZE_MAX;
}

PyObject *refined(PyObject *Py_UNUSED(module), PyObject *arguments) {
    PyObject *starts, *rows, *values, *row_colours, *column_colours, *made = NULL;
    unsigned rounds;
    graph given;
    if (!PyArg_ParseTuple(arguments, "SSSSSI:refined", &starts, &rows, &values, &row_colours, &column_colours, &rounds))
        return NULL;
    given.num_rows = items_of(row_colours, sizeof(uint64_t));
    given.num_columns = items_of(column_colours, sizeof(uint64_t));
    given.starts = (const uint64_t *)PyBytes_AsString(starts);
    given.rows = (const uint32_t *)PyBytes_AsString(rows);
    given.values = (const uint64_t *)PyBytes_AsString(values);
    if (given.num_rows == SIZE_MAX || given.num_columns == SIZE_MAX ||
        items_of(starts, sizeof(uint64_t)) != given.num_columns + 1 ||
        !is_graph(&given, items_of(rows, sizeof(uint32_t)), items_of(values, sizeof(uint64_t)))) {
        PyErr_SetString(PyExc_ValueError, "these are no rows and columns with their entries");
        return NULL;
    }
    made = PyTuple_New(2);
    if (made != NULL &&
        put(made, 0, PyBytes_FromStringAndSize(PyBytes_AsString(row_colours), PyBytes_Size(row_colours))) &&
        put(made, 1, PyBytes_FromStringAndSize(PyBytes_AsString(column_colours), PyBytes_Size(column_colours)))) {
        uint64_t *sums = malloc((given.num_rows + 1) * sizeof *sums);
        uint64_t *new_rows = (uint64_t *)PyBytes_AsString(PyTuple_GetItem(made, 0));
        uint64_t *new_columns = (uint64_t *)PyBytes_AsString(PyTuple_GetItem(made, 1));
        if (sums != NULL) {
            Py_BEGIN_ALLOW_THREADS
                for (unsigned round = 0; round < rounds; round++) refine_once(&given, new_rows, new_columns, sums);
            Py_END_ALLOW_THREADS
            free(sums);
            return made;
        }
        PyErr_NoMemory();
    }
    return filled(made, 0);
}
