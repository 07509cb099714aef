/* The exceptions and results of calls. */
#include "extension.h"

/* Returns whether an object is a bytes object, whose bytes are then found; otherwise it raises. */
int find_content(PyObject *source, content *found) {
    char *bytes;
    Py_ssize_t len;
    if (PyBytes_AsStringAndSize(source, &bytes, &len) < 0) return 0;
    found->bytes = (const uint8_t *)bytes;
    found->len = (size_t)len;
    return 1;
}

static PyObject *number_or_none(int has_number, unsigned long long number) {
    return has_number ? PyLong_FromUnsignedLongLong(number) : Py_NewRef(Py_None);
}

static const char *place_word(mpslp_place place) {
    switch (place) {
    case MPSLP_AT_OBJECTIVE: return "objective";
    case MPSLP_AT_ROW: return "row";
    case MPSLP_AT_COLUMN: return "column";
    case MPSLP_AT_ELEMENT: return "element";
    default: return NULL;
    }
}

/* Raises a ModelFileError. `which` says which of two texts has the error, and is null if there is only one text. */
static void raise_fault(PyObject *module, const mpslp_fault *fault, const char *which) {
    PyObject *class = state_of(module)->error;
    int is_numbered = fault->place != MPSLP_NOWHERE && fault->place != MPSLP_AT_OBJECTIVE;
    /* A null pointer becomes None. The call takes the references of objects for N, even if it fails. */
    PyObject *error =
        PyObject_CallFunction(class, "s#Nz#zNz", (const char *)fault->kind.bytes, (Py_ssize_t)fault->kind.len,
            number_or_none(fault->line != 0, fault->line), fault->name_len ? fault->name : NULL,
            (Py_ssize_t)fault->name_len, place_word(fault->place), number_or_none(is_numbered, fault->number), which);
    if (error == NULL) return;
    PyErr_SetObject(class, error);
    Py_DECREF(error);
}

/* Raises the exception for a status that is an error, and returns null, as functions of Python do after raising. */
PyObject *refuse(PyObject *module, mpslp_status status, const mpslp_fault *fault, const char *which) {
    switch (status) {
    case MPSLP_REFUSED:
    case MPSLP_SECOND_REFUSED:
    case MPSLP_NOT_LP: raise_fault(module, fault, which); break;
    case MPSLP_OUT_OF_MEMORY: PyErr_NoMemory(); break;
    case MPSLP_UNKNOWN_FORMAT: PyErr_SetString(PyExc_ValueError, "unknown format"); break;
    default: PyErr_Format(PyExc_SystemError, "the library answered %u", (unsigned)status);
    }
    return NULL;
}

/* The text of a call, or its exception. */
PyObject *text_of(PyObject *module, mpslp_status status, mpslp_text *text, const mpslp_fault *fault) {
    PyObject *made;
    if (status != MPSLP_OK) return refuse(module, status, fault, NULL);
    made = PyBytes_FromStringAndSize((const char *)text->bytes, (Py_ssize_t)text->len);
    mpslp_free(text);
    return made;
}

/* The result of a call that returns yes or no. */
PyObject *truth(PyObject *module, mpslp_status status, const mpslp_fault *fault, const char *which) {
    switch (status) {
    case MPSLP_OK: return Py_NewRef(Py_True);
    case MPSLP_DIFFERS: return Py_NewRef(Py_False);
    default: return refuse(module, status, fault, which);
    }
}
