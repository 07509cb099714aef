/* The module: its calls, its constants and its state. */
#include "extension.h"

static PyMethodDef calls[] = {
    { "canonical", canonical, METH_VARARGS,
        "canonical($module, source, from_format, to_format, /)\n--\n\nThe canonical text of the model that bytes "
        "declare." },
    { "same", same, METH_VARARGS,
        "same($module, first, first_format, second, second_format, /)\n--\n\nWhether bytes declare the same model." },
    { "is_canonical", is_canonical, METH_VARARGS,
        "is_canonical($module, source, format, /)\n--\n\nWhether bytes are the canonical text of their model." },
    { "count_line_feeds", count_line_feeds, METH_VARARGS,
        "count_line_feeds($module, source, start, end, /)\n--\n\nHow many line feeds a part of bytes has." },
    { "find_first_column", find_first_column, METH_VARARGS,
        "find_first_column($module, source, start, end, /)\n--\n\n"
        "After how many bytes of a part of bytes a line begins with a capital letter or *; -1 if none does. The first "
        "line is left out." },
    { "find_marker", find_marker, METH_VARARGS,
        "find_marker($module, source, start, end, /)\n--\n\nAfter how many bytes of a part of bytes 'MARKER' comes; -1 "
        "if it does not." },
    { "first_fields", first_fields, METH_VARARGS,
        "first_fields($module, source, start, end, /)\n--\n\n"
        "The first fields of indented lines; of lines that follow one another with the same one, it is there once. The "
        "first line is left out." },
    { "bounded_columns", bounded_columns, METH_VARARGS,
        "bounded_columns($module, source, start, end, types_without_number, /)\n--\n\n"
        "The columns of the lines of BOUNDS, one for each line. The first line is left out." },
    { "load", load, METH_VARARGS, "load($module, source, format, /)\n--\n\nThe model that bytes declare." },
    { "store", store, METH_VARARGS, "store($module, arrays, format, /)\n--\n\nThe canonical text of a model." },
    { "make", make, METH_VARARGS,
        "make($module, sense, objective, constant, rows, columns, /)\n--\n\nThe model of such parts, in any order." },
    { "make_extended", make_extended, METH_VARARGS,
        "make_extended($module, arrays, sense, objective, constant, rows, columns, /)\n--\n\nA model with another "
        "objective, and with further rows and columns." },
    { "make_replaced", make_replaced, METH_VARARGS,
        "make_replaced($module, arrays, changed, /)\n--\n\n"
        "A model with the sense, the constant, the rows and the columns of another one, which has no other rows and "
        "columns." },
    { "make_renamed", make_renamed, METH_VARARGS,
        "make_renamed($module, arrays, objective, row_names, column_names, /)\n--\n\nA model under other names, one "
        "for each row and each column." },
    { "refined", refined, METH_VARARGS,
        "refined($module, starts, rows, values, row_colours, column_colours, rounds, /)\n--\n\nThe colours of rows and "
        "of columns after so many rounds." },
    { "make_of_doubles", make_of_doubles, METH_VARARGS,
        "make_of_doubles($module, sense, objective, constant, row_names, column_names, row_lower, row_upper, lower, "
        "upper, costs, kinds, starts, rows,\n"
        "                values, /)\n--\n\nThe model of arrays of doubles and of 64-bit integers, or None if they "
        "define none." },
    { NULL, NULL, 0, NULL },
};

/* The object with this name in a module. */
static PyObject *imported(const char *module_name, const char *name) {
    PyObject *module = PyImport_ImportModule(module_name), *found;
    if (module == NULL) return NULL;
    found = PyObject_GetAttrString(module, name);
    Py_DECREF(module);
    return found;
}

/* A context of its own for the Decimals that are made here. */
static PyObject *context_of_decimals(void) {
    PyObject *class = imported("decimal", "Context"), *made = class != NULL ? PyObject_CallNoArgs(class) : NULL;
    Py_XDECREF(class);
    return made;
}

/* The constants of the library that the modules of the package use. */
static const struct {
    const char *name;
    long number;
} words[] = {
    { "MPS", MPSLP_MPS },
    { "LP", MPSLP_LP },
    { "MINIMIZE", MPSLP_MINIMIZE },
    { "MAXIMIZE", MPSLP_MAXIMIZE },
    { "CONTINUOUS", MPSLP_CONTINUOUS },
    { "INTEGER", MPSLP_INTEGER },
    { "SEMI_CONTINUOUS", MPSLP_SEMI_CONTINUOUS },
};

static int begin(PyObject *module) {
    state *held = state_of(module);
    if ((held->error = imported("mpslp._errors._faults", "ModelFileError")) == NULL) return -1;
    if ((held->arrays = PyType_FromModuleAndSpec(module, &arrays_spec, NULL)) == NULL) return -1;
    if (PyModule_AddType(module, (PyTypeObject *)held->arrays) < 0) return -1;
    if ((held->decimal = imported("decimal", "Decimal")) == NULL) return -1;
    if ((held->context = context_of_decimals()) == NULL) return -1;
    if ((held->infinity = PyObject_CallFunction(held->decimal, "sO", "Infinity", held->context)) == NULL) return -1;
    if ((held->minus_infinity = PyObject_CallFunction(held->decimal, "sO", "-Infinity", held->context)) == NULL)
        return -1;
    if (PyModule_AddStringConstant(module, "VERSION", PACKAGE_VERSION) < 0) return -1;
    for (size_t i = 0; i < sizeof words / sizeof words[0]; i++)
        if (PyModule_AddIntConstant(module, words[i].name, words[i].number) < 0) return -1;
    return 0;
}

static int traverse(PyObject *module, visitproc visit, void *arg) {
    const state *held = state_of(module);
    Py_VISIT(held->error);
    Py_VISIT(held->arrays);
    Py_VISIT(held->decimal);
    Py_VISIT(held->context);
    Py_VISIT(held->infinity);
    Py_VISIT(held->minus_infinity);
    return 0;
}

static int clear(PyObject *module) {
    state *held = state_of(module);
    Py_CLEAR(held->error);
    Py_CLEAR(held->arrays);
    Py_CLEAR(held->decimal);
    Py_CLEAR(held->context);
    Py_CLEAR(held->infinity);
    Py_CLEAR(held->minus_infinity);
    return 0;
}

/*
 * The first slot, Py_mod_multiple_interpreters with Py_MOD_PER_INTERPRETER_GIL_SUPPORTED, exists from CPython 3.12: the
 * whole state of the module is per interpreter.
 */
static PyModuleDef_Slot slots[] = {
    { 3, (void *)2 },
    { Py_mod_exec, begin },
    { 0, NULL },
};

/* Whether the running Python is 3.12 or later: the stable interface is that of 3.10. */
static int knows_interpreters(void) {
    const char *version = Py_GetVersion();
    char *end;
    long major = strtol(version, &end, 10);
    long minor = *end == '.' ? strtol(end + 1, NULL, 10) : 0;
    return major > 3 || (major == 3 && minor >= 12);
}

static struct PyModuleDef definition = {
    .m_base = PyModuleDef_HEAD_INIT,
    .m_name = "mpslp._mpslp",
    .m_doc = "The calls of the C library, on bytes.",
    .m_size = sizeof(state),
    .m_methods = calls,
    .m_traverse = traverse,
    .m_clear = clear,
};

PyMODINIT_FUNC PyInit__mpslp(void) {
    definition.m_slots = knows_interpreters() ? slots : slots + 1;
    return PyModuleDef_Init(&definition);
}
