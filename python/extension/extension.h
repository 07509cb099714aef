/*
 * The functions of mpslp.h on bytes objects, for the package mpslp, whose modules convert paths and other buffers to
 * bytes and formats to numbers.
 *
 * Bytes objects cannot change, and the arguments of a call hold references to them, so the interpreter's lock is
 * released while the library reads them. A model keeps the arrays of the library, and frees them with its last
 * reference.
 */
#ifndef MPSLP_EXTENSION_H
#define MPSLP_EXTENSION_H

#define PY_SSIZE_T_CLEAN
#include <Python.h>

#include <string.h>

#include <mpslp.h>

/* The state of a module. */
typedef struct {
    PyObject *error;   /* the class ModelFileError */
    PyObject *arrays;  /* the class Arrays */
    PyObject *decimal; /* the class Decimal */
    PyObject *context; /* the Context in which Decimals are made: the current one may be of an interpreter that ended */
    PyObject *infinity;       /* Decimal('Infinity') */
    PyObject *minus_infinity; /* Decimal('-Infinity') */
} state;

static inline state *state_of(PyObject *module) { return PyModule_GetState(module); }

/* The bytes of a bytes object. */
typedef struct {
    const uint8_t *bytes;
    size_t len;
} content;

__extension__ typedef unsigned __int128 magnitude;

typedef struct {
    PyObject_HEAD mpslp_model model;
    /* The index of each row's first nonzero in `row_elements`, and the total; null until a row is accessed. */
    size_t *row_starts;
    size_t *row_elements; /* the nonzeros by number, row after row, those of a row in the order of columns */
} arrays;

/* An array that grows. */
typedef struct {
    void *items;
    size_t len, room;
} growing;

/* The arrays of a model that is made. */
typedef struct {
    growing names, rows, columns, elements;
} parts;

#define NO_PARTS                                                                                                       \
    {                                                                                                                  \
        { NULL, 0, 0 }, { NULL, 0, 0 }, { NULL, 0, 0 }, { NULL, 0, 0 }                                                 \
    }

/* The mantissa of a number. */
static inline magnitude mantissa_of(const mpslp_number *number) {
    return ((magnitude)(uint64_t)number->high << 64) | number->low;
}

/* The same without its sign. */
static inline magnitude size_of(const mpslp_number *number) {
    return number->high < 0 ? -mantissa_of(number) : mantissa_of(number);
}

/* Stores a new object in a tuple, which takes the reference. Returns whether there was an object. */
static inline int put(PyObject *tuple, Py_ssize_t at, PyObject *item) {
    return item != NULL && PyTuple_SetItem(tuple, at, item) == 0;
}

/* The same for a list. */
static inline int put_listed(PyObject *list, size_t at, PyObject *item) {
    return item != NULL && PyList_SetItem(list, (Py_ssize_t)at, item) == 0;
}

static inline const mpslp_model *model_of(PyObject *self) { return &((arrays *)self)->model; }

/* The type has no subclasses, so its module is this one. */
static inline const state *state_at(PyObject *self) { return PyType_GetModuleState(Py_TYPE(self)); }

/* errors.c */
int find_content(PyObject *source, content *found);
PyObject *refuse(PyObject *module, mpslp_status status, const mpslp_fault *fault, const char *which);
PyObject *text_of(PyObject *module, mpslp_status status, mpslp_text *text, const mpslp_fault *fault);
PyObject *truth(PyObject *module, mpslp_status status, const mpslp_fault *fault, const char *which);

/* values.c */
char *put_digits(char *end, magnitude size);
PyObject *decimal_of(const state *held, const mpslp_number *number);
PyObject *name_of(const mpslp_model *model, mpslp_name name);
PyObject *filled(PyObject *made, int is_filled);

/* texts.c */
PyObject *canonical(PyObject *module, PyObject *arguments);
PyObject *same(PyObject *module, PyObject *arguments);
PyObject *is_canonical(PyObject *module, PyObject *arguments);
PyObject *count_line_feeds(PyObject *Py_UNUSED(module), PyObject *arguments);
PyObject *find_first_column(PyObject *Py_UNUSED(module), PyObject *arguments);
PyObject *find_marker(PyObject *Py_UNUSED(module), PyObject *arguments);
PyObject *first_fields(PyObject *Py_UNUSED(module), PyObject *arguments);
PyObject *bounded_columns(PyObject *Py_UNUSED(module), PyObject *arguments);

/* model.c */
extern PyType_Spec arrays_spec;
PyObject *arrays_of(PyObject *module, mpslp_model *model);
int find_number(PyObject *object, size_t count, size_t *number);
size_t column_end(const mpslp_model *model, size_t j);
PyObject *load(PyObject *module, PyObject *arguments);
PyObject *store(PyObject *module, PyObject *arguments);

/* arrays.c */
PyObject *arrays_doubles(PyObject *self, PyObject *Py_UNUSED(none));
PyObject *arrays_names(PyObject *self, PyObject *Py_UNUSED(none));
PyObject *arrays_magnitudes(PyObject *self, PyObject *Py_UNUSED(none));
PyObject *arrays_kinds(PyObject *self, PyObject *Py_UNUSED(none));

/* show.c */
PyObject *arrays_lines(PyObject *self, PyObject *number);

/* colours.c */
PyObject *arrays_shape(PyObject *self, PyObject *Py_UNUSED(none));
PyObject *refined(PyObject *Py_UNUSED(module), PyObject *arguments);

/* builder.c */
void *more(growing *array, size_t count, size_t size);
int make_number(PyObject *decimal, mpslp_number *number);
int make_name(parts *all, const char *bytes, Py_ssize_t len, mpslp_name *name);
int make_row(parts *all, PyObject *row);
int make_each(parts *all, PyObject *list, int (*make_one)(parts *, PyObject *));
int make_column(parts *all, PyObject *column);
void take_parts(mpslp_model *model, const parts *all);
void free_parts(const parts *all);
PyObject *make(PyObject *module, PyObject *arguments);
PyObject *make_extended(PyObject *module, PyObject *arguments);
PyObject *make_replaced(PyObject *module, PyObject *arguments);
PyObject *make_renamed(PyObject *module, PyObject *arguments);

/* doubles.c */
int make_listed_name(parts *all, PyObject *names, size_t number, mpslp_name *name);
PyObject *make_of_doubles(PyObject *module, PyObject *arguments);

#endif
