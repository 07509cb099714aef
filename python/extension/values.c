/* Numbers, names and filled lists as Python's objects. */
#include "extension.h"

/* Writes digits before `end`, and returns where they begin. Most numbers have 64 bits, whose division is faster. */
char *put_digits(char *end, magnitude size) {
    uint64_t rest;
    for (; size >> 64 != 0; size /= 10) *--end = (char)('0' + (int)(size % 10));
    rest = (uint64_t)size;
    do *--end = (char)('0' + (int)(rest % 10));
    while ((rest /= 10) != 0);
    return end;
}

/* The maximum number of zeros that are written out after digits: 40 is Decimal('40'), and not Decimal('4E+1'). */
#define MOST_ZEROS 20

/* The Decimal with exactly the value of a number. */
PyObject *decimal_of(const state *held, const mpslp_number *number) {
    char digits[40], text[sizeof digits + MOST_ZEROS + sizeof "-E-2147483648"];
    int is_whole = number->exponent >= 0 && number->exponent <= MOST_ZEROS;
    if (number->infinity != 0) return Py_NewRef(number->infinity < 0 ? held->minus_infinity : held->infinity);
    digits[sizeof digits - 1] = 0;
    PyOS_snprintf(text, sizeof text, "%s%s%.*sE%d", number->high < 0 ? "-" : "",
        put_digits(digits + sizeof digits - 1, size_of(number)), is_whole ? (int)number->exponent : 0,
        "00000000000000000000", is_whole ? 0 : (int)number->exponent);
    return PyObject_CallFunction(held->decimal, "sO", text, held->context);
}

/* The text of a name. Names are ASCII. */
PyObject *name_of(const mpslp_model *model, mpslp_name name) {
    return PyUnicode_FromStringAndSize((const char *)model->names.bytes + name.at, (Py_ssize_t)name.len);
}

/* A list or a tuple if all its items were made; otherwise null. After a failure no further item is made. */
PyObject *filled(PyObject *made, int is_filled) {
    if (is_filled) return made;
    Py_XDECREF(made);
    return NULL;
}
