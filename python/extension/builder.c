/* Models that are made of Python's objects and of other models: the library checks all of what these say. */
#include "extension.h"

/* Room for more items at the end of an array, or null. */
void *more(growing *array, size_t count, size_t size) {
    if (array->items == NULL || count > array->room - array->len) {
        const size_t room = 2 * array->room + count + 1;
        void *items = realloc(array->items, room * size);
        if (items == NULL) return PyErr_NoMemory();
        array->items = items;
        array->room = room;
    }
    array->len += count;
    return (char *)array->items + (array->len - count) * size;
}

/* Reads the text of a Decimal: digits with a sign, a point and an exponent, or an infinity. */
static int read_number(const char *at, mpslp_number *number) {
    const mpslp_number none = { 0, 0, 0, 0 };
    const int is_negative = *at == '-';
    magnitude mantissa = 0;
    long exponent = 0, zeros = 0;
    int is_fraction = 0;
    *number = none;
    at += is_negative;
    if (strcmp(at, "Infinity") == 0) {
        number->infinity = is_negative ? -1 : 1;
        return 1;
    }
    /* Zeros at the end stay out of the mantissa, which has room for the digits of a number and not for all that are
     * written. */
    for (; *at == '.' || (*at >= '0' && *at <= '9'); at++) {
        if (*at == '.') {
            is_fraction = 1;
            continue;
        }
        exponent -= is_fraction;
        zeros++;
        if (*at == '0') continue;
        for (; zeros != 0; zeros--) mantissa *= 10;
        mantissa += (unsigned)(*at - '0');
    }
    exponent += zeros;
    /* The letter depends on the context of the thread. */
    if (*at == 'E' || *at == 'e') exponent += strtol(at + 1, (char **)&at, 10);
    if (is_negative) mantissa = -mantissa;
    number->low = (uint64_t)mantissa;
    number->high = (int64_t)(mantissa >> 64);
    number->exponent = (int32_t)exponent;
    return *at == 0;
}

int make_number(PyObject *decimal, mpslp_number *number) {
    PyObject *text = PyObject_Str(decimal);
    const char *bytes = text == NULL ? NULL : PyUnicode_AsUTF8AndSize(text, NULL);
    const int is_read = bytes != NULL && read_number(bytes, number);
    if (bytes != NULL && !is_read) PyErr_Format(PyExc_ValueError, "%R is no number of a model", decimal);
    Py_XDECREF(text);
    return is_read;
}

int make_name(parts *all, const char *bytes, Py_ssize_t len, mpslp_name *name) {
    void *room = more(&all->names, (size_t)len, 1);
    if (room == NULL) return 0;
    memcpy(room, bytes, (size_t)len);
    name->at = all->names.len - (size_t)len;
    name->len = (size_t)len;
    return 1;
}

/* A row is a tuple of its name, lower and upper limit. */
int make_row(parts *all, PyObject *row) {
    const char *name;
    Py_ssize_t len;
    PyObject *lower, *upper;
    mpslp_row *made;
    if (!PyArg_ParseTuple(row, "s#OO:row", &name, &len, &lower, &upper)) return 0;
    made = more(&all->rows, 1, sizeof *made);
    return made != NULL && make_name(all, name, len, &made->name) && make_number(lower, &made->lower) &&
           make_number(upper, &made->upper);
}

/* An entry is a tuple of the number of its row and its value. */
static int make_element(parts *all, PyObject *entry) {
    Py_ssize_t row;
    PyObject *value;
    mpslp_element *made;
    if (!PyArg_ParseTuple(entry, "nO:entry", &row, &value)) return 0;
    made = more(&all->elements, 1, sizeof *made);
    if (made == NULL) return 0;
    made->row = (size_t)row;
    return make_number(value, &made->value);
}

/* Makes each item of a list. */
int make_each(parts *all, PyObject *list, int (*make_one)(parts *, PyObject *)) {
    for (Py_ssize_t k = 0; k < PyList_Size(list); k++)
        if (!make_one(all, PyList_GetItem(list, k))) return 0;
    return 1;
}

/* A column is a tuple of its name, kind, lower and upper bound and cost, and a list of its entries. */
int make_column(parts *all, PyObject *column) {
    const char *name;
    Py_ssize_t len;
    unsigned kind;
    PyObject *lower, *upper, *cost, *entries;
    mpslp_column *made;
    if (!PyArg_ParseTuple(column, "s#IOOOO!:column", &name, &len, &kind, &lower, &upper, &cost, &PyList_Type, &entries))
        return 0;
    made = more(&all->columns, 1, sizeof *made);
    if (made == NULL) return 0;
    made->kind = kind;
    made->first = all->elements.len;
    return make_name(all, name, len, &made->name) && make_number(lower, &made->lower) &&
           make_number(upper, &made->upper) && make_number(cost, &made->cost) && make_each(all, entries, make_element);
}

/* Gives a model the arrays that were made for it. No pointer may be null, and an empty array has no items. */
void take_parts(mpslp_model *model, const parts *all) {
    if (all->names.len != 0) model->names.bytes = all->names.items;
    if (all->rows.len != 0) model->rows = all->rows.items;
    if (all->columns.len != 0) model->columns = all->columns.items;
    if (all->elements.len != 0) model->elements = all->elements.items;
    model->names.len = all->names.len;
    model->num_rows = all->rows.len;
    model->num_columns = all->columns.len;
    model->num_elements = all->elements.len;
}

void free_parts(const parts *all) {
    free(all->names.items);
    free(all->rows.items);
    free(all->columns.items);
    free(all->elements.items);
}

PyObject *make(PyObject *module, PyObject *arguments) {
    const char *objective;
    Py_ssize_t len;
    unsigned sense;
    PyObject *constant, *rows, *columns, *arrays = NULL;
    parts all = NO_PARTS;
    mpslp_model made = MPSLP_NO_MODEL, model = MPSLP_NO_MODEL;
    if (!PyArg_ParseTuple(arguments, "Is#OO!O!:make", &sense, &objective, &len, &constant, &PyList_Type, &rows,
            &PyList_Type, &columns))
        return NULL;
    made.sense = sense;
    if (make_name(&all, objective, len, &made.objective) && make_number(constant, &made.constant) &&
        make_each(&all, rows, make_row) && make_each(&all, columns, make_column)) {
        mpslp_fault fault = MPSLP_NO_FAULT;
        mpslp_status status;
        take_parts(&made, &all);
        Py_BEGIN_ALLOW_THREADS
            status = mpslp_normalize(&made, &model, &fault);
        Py_END_ALLOW_THREADS
        arrays = status == MPSLP_OK ? arrays_of(module, &model) : refuse(module, status, &fault, NULL);
    }
    free_parts(&all);
    return arrays;
}

/* A copy of an array at the end of another, or null. */
static void *copied(growing *array, const void *items, size_t count, size_t size) {
    void *room = more(array, count, size);
    return room == NULL ? NULL : memcpy(room, items, count * size);
}

/* Copies a model, and adds rows and columns. The elements are most of its memory: without new columns they are not
 * copied. */
static int make_extended_parts(parts *all, const mpslp_model *model, PyObject *rows, PyObject *columns) {
    return copied(&all->names, model->names.bytes, model->names.len, 1) != NULL &&
           copied(&all->rows, model->rows, model->num_rows, sizeof *model->rows) != NULL &&
           copied(&all->columns, model->columns, model->num_columns, sizeof *model->columns) != NULL &&
           make_each(all, rows, make_row) &&
           (PyList_Size(columns) == 0 ||
               copied(&all->elements, model->elements, model->num_elements, sizeof *model->elements) != NULL) &&
           make_each(all, columns, make_column);
}

PyObject *make_extended(PyObject *module, PyObject *arguments) {
    const char *objective;
    Py_ssize_t len;
    unsigned sense;
    PyObject *source, *constant, *rows, *columns, *arrays = NULL;
    parts all = NO_PARTS;
    mpslp_model made = MPSLP_NO_MODEL, model = MPSLP_NO_MODEL;
    if (!PyArg_ParseTuple(arguments, "O!Is#OO!O!:make_extended", state_of(module)->arrays, &source, &sense, &objective,
            &len, &constant, &PyList_Type, &rows, &PyList_Type, &columns))
        return NULL;
    made.sense = sense;
    if (make_extended_parts(&all, model_of(source), rows, columns) &&
        make_name(&all, objective, len, &made.objective) && make_number(constant, &made.constant)) {
        mpslp_fault fault = MPSLP_NO_FAULT;
        mpslp_status status;
        take_parts(&made, &all);
        if (PyList_Size(columns) == 0) {
            made.elements = model_of(source)->elements;
            made.num_elements = model_of(source)->num_elements;
        }
        Py_BEGIN_ALLOW_THREADS
            status = mpslp_normalize(&made, &model, &fault);
        Py_END_ALLOW_THREADS
        arrays = status == MPSLP_OK ? arrays_of(module, &model) : refuse(module, status, &fault, NULL);
    }
    free_parts(&all);
    return arrays;
}

/* Finds a row, or a column, of a model by the name that one of another model has; otherwise it raises. */
static int find_same(const mpslp_model *model, mpslp_text name,
    bool (*find)(const mpslp_model *, const char *, size_t, size_t *), size_t *number) {
    if (find(model, (const char *)name.bytes, name.len, number)) return 1;
    PyErr_SetString(PyExc_ValueError, "the model has no such row or column");
    return 0;
}

static int replace_rows(parts *all, const mpslp_model *model, const mpslp_model *part) {
    for (size_t i = 0; i < part->num_rows; i++) {
        mpslp_row *made = all->rows.items;
        size_t number;
        if (!find_same(model, mpslp_row_name(part, i), mpslp_find_row, &number)) return 0;
        made[number].lower = part->rows[i].lower;
        made[number].upper = part->rows[i].upper;
    }
    return 1;
}

/* Copies the elements of the columns from `first` to the one before `end`. */
static int copy_elements(parts *all, const mpslp_model *model, size_t first, size_t end) {
    const size_t from = first < model->num_columns ? model->columns[first].first : model->num_elements;
    const size_t len = (end < model->num_columns ? model->columns[end].first : model->num_elements) - from;
    for (size_t j = first; j < end; j++)
        ((mpslp_column *)all->columns.items)[j].first = all->elements.len + (model->columns[j].first - from);
    return copied(&all->elements, model->elements + from, len, sizeof *model->elements) != NULL;
}

/* Adds the elements of a column of another model; in both, rows are in the order of their names. */
static int take_elements(parts *all, const mpslp_model *model, const mpslp_model *part, size_t j) {
    for (size_t k = part->columns[j].first; k < column_end(part, j); k++) {
        mpslp_element *made = more(&all->elements, 1, sizeof *made);
        if (made == NULL || !find_same(model, mpslp_row_name(part, part->elements[k].row), mpslp_find_row, &made->row))
            return 0;
        made->value = part->elements[k].value;
    }
    return 1;
}

static int replace_columns(parts *all, const mpslp_model *model, const mpslp_model *part) {
    size_t next = 0;
    if (more(&all->elements, model->num_elements + part->num_elements, sizeof *model->elements) == NULL) return 0;
    all->elements.len = 0; /* there is room for all */
    for (size_t j = 0; j < part->num_columns; j++) {
        const mpslp_column *column = &part->columns[j];
        mpslp_column *made = all->columns.items;
        size_t number;
        if (!find_same(model, mpslp_column_name(part, j), mpslp_find_column, &number) ||
            !copy_elements(all, model, next, number))
            return 0;
        made += number;
        made->kind = column->kind;
        made->lower = column->lower;
        made->upper = column->upper;
        made->cost = column->cost;
        made->first = all->elements.len;
        if (!take_elements(all, model, part, j)) return 0;
        next = number + 1;
    }
    return copy_elements(all, model, next, model->num_columns);
}

/* Copies a model without the rows and columns that another one has, and takes the place of these from there. */
static int make_replaced_parts(parts *all, const mpslp_model *model, const mpslp_model *part) {
    return copied(&all->names, model->names.bytes, model->names.len, 1) != NULL &&
           copied(&all->rows, model->rows, model->num_rows, sizeof *model->rows) != NULL &&
           copied(&all->columns, model->columns, model->num_columns, sizeof *model->columns) != NULL &&
           replace_rows(all, model, part) && replace_columns(all, model, part);
}

static void free_if_empty(growing *array) {
    if (array->len != 0) return;
    free(array->items);
    array->items = NULL;
}

/*
 * Both models are in normal form, and the second one has some of the rows and columns of the first. What makes a model
 * wrong is wrong in a row or a column, or is a name that is there twice: so the model that is made is in normal form,
 * too.
 */
PyObject *make_replaced(PyObject *module, PyObject *arguments) {
    PyObject *class = state_of(module)->arrays, *source, *changed;
    parts all = NO_PARTS;
    mpslp_model made = MPSLP_NO_MODEL;
    if (!PyArg_ParseTuple(arguments, "O!O!:make_replaced", class, &source, class, &changed)) return NULL;
    if (!make_replaced_parts(&all, model_of(source), model_of(changed))) {
        free_parts(&all);
        return NULL;
    }
    free_if_empty(&all.rows);
    free_if_empty(&all.elements);
    take_parts(&made, &all);
    made.objective = model_of(source)->objective;
    made.constant = model_of(changed)->constant;
    made.sense = model_of(changed)->sense;
    return arrays_of(module, &made);
}

static int make_renamed_parts(parts *all, const mpslp_model *model, PyObject *row_names, PyObject *column_names) {
    mpslp_row *rows = copied(&all->rows, model->rows, model->num_rows, sizeof *rows);
    mpslp_column *columns =
        rows == NULL ? NULL : copied(&all->columns, model->columns, model->num_columns, sizeof *columns);
    int is_made = columns != NULL;
    for (size_t i = 0; is_made && i < model->num_rows; i++)
        is_made = make_listed_name(all, row_names, i, &rows[i].name);
    for (size_t j = 0; is_made && j < model->num_columns; j++)
        is_made = make_listed_name(all, column_names, j, &columns[j].name);
    return is_made;
}

PyObject *make_renamed(PyObject *module, PyObject *arguments) {
    PyObject *source, *row_names, *column_names, *renamed = NULL;
    const mpslp_model *model;
    const char *objective;
    Py_ssize_t len;
    parts all = NO_PARTS;
    mpslp_model made = MPSLP_NO_MODEL, found = MPSLP_NO_MODEL;
    if (!PyArg_ParseTuple(arguments, "O!s#O!O!:make_renamed", state_of(module)->arrays, &source, &objective, &len,
            &PyList_Type, &row_names, &PyList_Type, &column_names))
        return NULL;
    model = model_of(source);
    if ((size_t)PyList_Size(row_names) != model->num_rows || (size_t)PyList_Size(column_names) != model->num_columns) {
        PyErr_SetString(PyExc_ValueError, "there is not one name for each row and each column");
        return NULL;
    }
    if (make_name(&all, objective, len, &made.objective) && make_renamed_parts(&all, model, row_names, column_names)) {
        mpslp_fault fault = MPSLP_NO_FAULT;
        mpslp_status status;
        take_parts(&made, &all);
        made.elements = model->elements;
        made.num_elements = model->num_elements;
        made.constant = model->constant;
        made.sense = model->sense;
        Py_BEGIN_ALLOW_THREADS
            status = mpslp_normalize(&made, &found, &fault);
        Py_END_ALLOW_THREADS
        renamed = status == MPSLP_OK ? arrays_of(module, &found) : refuse(module, status, &fault, NULL);
    } else if (!PyErr_Occurred()) PyErr_SetString(PyExc_TypeError, "a name is a str");
    free_parts(&all);
    return renamed;
}
