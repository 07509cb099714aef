/* The calls on whole texts, and on the lines of a text. */
#include "extension.h"

PyObject *canonical(PyObject *module, PyObject *arguments) {
    PyObject *source;
    unsigned from, to;
    content text;
    mpslp_text out = MPSLP_NO_TEXT;
    mpslp_fault fault = MPSLP_NO_FAULT;
    mpslp_status status;
    if (!PyArg_ParseTuple(arguments, "SII:canonical", &source, &from, &to) || !find_content(source, &text)) return NULL;
    Py_BEGIN_ALLOW_THREADS
        status = mpslp_canonical(from, to, text.bytes, text.len, &out, &fault);
    Py_END_ALLOW_THREADS
    return text_of(module, status, &out, &fault);
}

PyObject *same(PyObject *module, PyObject *arguments) {
    PyObject *first_source, *second_source;
    unsigned first_format, second_format;
    content first, second;
    mpslp_fault fault = MPSLP_NO_FAULT;
    mpslp_status status;
    if (!PyArg_ParseTuple(arguments, "SISI:same", &first_source, &first_format, &second_source, &second_format))
        return NULL;
    if (!find_content(first_source, &first) || !find_content(second_source, &second)) return NULL;
    Py_BEGIN_ALLOW_THREADS
        status = mpslp_same(first_format, first.bytes, first.len, second_format, second.bytes, second.len, &fault);
    Py_END_ALLOW_THREADS
    return truth(module, status, &fault, status == MPSLP_SECOND_REFUSED ? "second" : "first");
}

PyObject *is_canonical(PyObject *module, PyObject *arguments) {
    PyObject *source;
    unsigned format;
    content text;
    mpslp_fault fault = MPSLP_NO_FAULT;
    mpslp_status status;
    if (!PyArg_ParseTuple(arguments, "SI:is_canonical", &source, &format) || !find_content(source, &text)) return NULL;
    Py_BEGIN_ALLOW_THREADS
        status = mpslp_is_canonical(format, text.bytes, text.len, &fault);
    Py_END_ALLOW_THREADS
    return truth(module, status, &fault, NULL);
}

/* Finds a part of a text. Returns whether there is one; otherwise it raises. */
static int take_part(PyObject *source, Py_ssize_t start, Py_ssize_t end, content *part) {
    if (!find_content(source, part)) return 0;
    if (start < 0 || start > end || (size_t)end > part->len) {
        PyErr_SetString(PyExc_IndexError, "the text has no such part");
        return 0;
    }
    part->bytes += start;
    part->len = (size_t)(end - start);
    return 1;
}

/* The same of the arguments of a call about a part of a text. */
static int find_part(PyObject *arguments, content *part) {
    PyObject *source;
    Py_ssize_t start, end;
    return PyArg_ParseTuple(arguments, "Snn:part", &source, &start, &end) && take_part(source, start, end, part);
}

/* Where the line feed after a place is, or null. */
static const uint8_t *line_end(const uint8_t *at, const uint8_t *end) { return memchr(at, '\n', (size_t)(end - at)); }

PyObject *count_line_feeds(PyObject *Py_UNUSED(module), PyObject *arguments) {
    content part;
    size_t count = 0;
    if (!find_part(arguments, &part)) return NULL;
    const uint8_t *end = part.bytes + part.len;
    Py_BEGIN_ALLOW_THREADS
        for (const uint8_t *at = line_end(part.bytes, end); at != NULL; at = line_end(at + 1, end)) count++;
    Py_END_ALLOW_THREADS
    return PyLong_FromSize_t(count);
}

/* The place, after the start of the part, of the first byte of a line that is a capital letter or `*`; or -1. The first
 * line is left out. */
PyObject *find_first_column(PyObject *Py_UNUSED(module), PyObject *arguments) {
    content part;
    const uint8_t *at;
    if (!find_part(arguments, &part)) return NULL;
    const uint8_t *end = part.bytes + part.len;
    Py_BEGIN_ALLOW_THREADS
        at = line_end(part.bytes, end);
        while (at != NULL && !(at + 1 < end && ((at[1] >= 'A' && at[1] <= 'Z') || at[1] == '*')))
            at = line_end(at + 1, end);
    Py_END_ALLOW_THREADS
    return PyLong_FromSsize_t(at == NULL ? -1 : at + 1 - part.bytes);
}

/* The place, after the start of the part, of the word 'MARKER'; or -1. Few names have a quote, which is found fast. */
PyObject *find_marker(PyObject *Py_UNUSED(module), PyObject *arguments) {
    static const char word[] = "'MARKER'";
    const size_t len = sizeof word - 1;
    content part;
    const uint8_t *at;
    if (!find_part(arguments, &part)) return NULL;
    const uint8_t *end = part.bytes + part.len;
    Py_BEGIN_ALLOW_THREADS
        at = memchr(part.bytes, word[0], part.len);
        while (at != NULL && ((size_t)(end - at) < len || memcmp(at, word, len) != 0))
            at = memchr(at + 1, word[0], (size_t)(end - at - 1));
    Py_END_ALLOW_THREADS
    return PyLong_FromSsize_t(at == NULL ? -1 : at - part.bytes);
}

static int is_blank(uint8_t byte) { return byte == ' ' || byte == '\t' || byte == '\r'; }

/* The next field of a line from a place on; it is empty if the line ends before one. */
static content next_field(const uint8_t *at, const uint8_t *end) {
    content found;
    while (at < end && is_blank(*at)) at++;
    found.bytes = at;
    while (at < end && !is_blank(*at) && *at != '\n') at++;
    found.len = (size_t)(at - found.bytes);
    return found;
}

/* Whether the line after a line feed has fields: a header and a comment start in the first column. */
static int is_data_line(const uint8_t *line_feed, const uint8_t *end) {
    return line_feed + 1 < end && (line_feed[1] == ' ' || line_feed[1] == '\t');
}

static int is_same_field(content one, content other) {
    return one.len == other.len && memcmp(one.bytes, other.bytes, one.len) == 0;
}

static int append_field(PyObject *list, content field) {
    PyObject *item = PyBytes_FromStringAndSize((const char *)field.bytes, (Py_ssize_t)field.len);
    const int is_appended = item != NULL && PyList_Append(list, item) == 0;
    Py_XDECREF(item);
    return is_appended;
}

/* The first fields of the data lines of a part; of lines that follow one another with the same one, it is there once.
 */
PyObject *first_fields(PyObject *Py_UNUSED(module), PyObject *arguments) {
    content part, last = { (const uint8_t *)"", 0 };
    if (!find_part(arguments, &part)) return NULL;
    const uint8_t *end = part.bytes + part.len;
    PyObject *made = PyList_New(0);
    int is_filled = made != NULL;
    for (const uint8_t *at = line_end(part.bytes, end); is_filled && at != NULL; at = line_end(at + 1, end)) {
        if (!is_data_line(at, end)) continue;
        const content field = next_field(at + 1, end);
        if (field.len == 0 || is_same_field(field, last)) continue;
        last = field;
        is_filled = append_field(made, field);
    }
    return filled(made, is_filled);
}

/* Whether a field is one of words between spaces. */
static int is_one_of(content field, content words) {
    for (content word = next_field(words.bytes, words.bytes + words.len); word.len != 0;
         word = next_field(word.bytes + word.len, words.bytes + words.len))
        if (is_same_field(field, word)) return 1;
    return 0;
}

/* The column of a line of BOUNDS: it comes after the type, or after the type and the set. A line without a column has
 * none. */
static content column_of_bound(const uint8_t *at, const uint8_t *end, content types_without_number) {
    enum { TYPE, FIRST, SECOND, THIRD, MOST };
    content fields[MOST];
    for (int k = 0; k < MOST; k++) {
        fields[k] = next_field(at, end);
        at = fields[k].bytes + fields[k].len;
    }
    if (fields[SECOND].len == 0) return fields[FIRST];
    return fields[THIRD].len != 0 || is_one_of(fields[TYPE], types_without_number) ? fields[SECOND] : fields[FIRST];
}

/* The columns of a part of BOUNDS, one for each line. */
PyObject *bounded_columns(PyObject *Py_UNUSED(module), PyObject *arguments) {
    content part, types;
    PyObject *source, *types_without_number;
    Py_ssize_t start, stop;
    if (!PyArg_ParseTuple(arguments, "SnnS:bounded_columns", &source, &start, &stop, &types_without_number))
        return NULL;
    if (!take_part(source, start, stop, &part) || !find_content(types_without_number, &types)) return NULL;
    const uint8_t *end = part.bytes + part.len;
    PyObject *made = PyList_New(0);
    int is_filled = made != NULL;
    for (const uint8_t *at = line_end(part.bytes, end); is_filled && at != NULL; at = line_end(at + 1, end)) {
        if (!is_data_line(at, end)) continue;
        const content column = column_of_bound(at + 1, end, types);
        if (column.len != 0) is_filled = append_field(made, column);
    }
    return filled(made, is_filled);
}
