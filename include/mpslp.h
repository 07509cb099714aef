/*
 * mpslp: one canonical text for each linear or mixed-integer model in an MPS or LP file.
 *
 * Each call that returns a mpslp_status passes its arguments to one that is proved to behave as documented here, for every input; all
 * others are C. docs/C.md says what that rests on, and lists the caller's obligations. In short: no pointer may be null, even if a length is 0; outputs
 * must not overlap inputs or each other; initialise each mpslp_text, mpslp_model and mpslp_fault with MPSLP_NO_TEXT,
 * MPSLP_NO_MODEL and MPSLP_NO_FAULT. The library keeps no pointer and has no state. Threads may call it at the same time, each
 * with outputs of its own. These calls take random bits from the system, on which their time depends and not their result. A
 * call needs a stack of 256 KiB. Texts may have any length for which there is memory: the limit of 1 GiB belongs to the program,
 * and the library never reports TooLong.
 */
#ifndef MPSLP_H
#define MPSLP_H

#include <errno.h>
#include <float.h>
#include <math.h>
#include <stdbool.h>
#include <stddef.h>
#include <stdint.h>
#include <stdio.h>
#include <stdlib.h>
#include <string.h>

/* The version of this header; mpslp_version() is that of the library. */
#define MPSLP_VERSION_MAJOR 0
#define MPSLP_VERSION_MINOR 1
#define MPSLP_VERSION_PATCH 0

/*
 * An enumeration has 4 bytes. In C++ its underlying type is fixed, so that a value that is none of its constants is no
 * undefined behaviour.
 */
#if defined __cplusplus && __cplusplus >= 201103L
#define MPSLP_ENUM(name) enum name : uint32_t
#else
#define MPSLP_ENUM(name) enum name
#endif

/* A result that may not be ignored. */
#ifdef __GNUC__
#define MPSLP_MUST_USE __attribute__((warn_unused_result))
#else
#define MPSLP_MUST_USE
#endif

/* An inline call. The library exports it too, for languages that read no header. */
#if defined __GNUC_GNU_INLINE__ && !defined __cplusplus
#define MPSLP_INLINE extern inline __attribute__((gnu_inline))
#else
#define MPSLP_INLINE inline
#endif

/* Casts of C and C++. */
#ifdef __cplusplus
#define MPSLP_CAST(type, value) static_cast<type>(value)
#define MPSLP_POINTER(type, value) reinterpret_cast<type>(value)
#else
#define MPSLP_CAST(type, value) ((type)(value))
#define MPSLP_POINTER(type, value) ((type)(value))
#endif

#ifdef __cplusplus
extern "C" {
#endif

/* The formats of texts. */
typedef MPSLP_ENUM(mpslp_format) { MPSLP_MPS = 0, MPSLP_LP = 1 } mpslp_format;

/* What the calls return. */
typedef MPSLP_ENUM(mpslp_status) {
    MPSLP_OK = 0,             /* done; yes */
    MPSLP_DIFFERS = 1,        /* no */
    MPSLP_REFUSED = 2,        /* the text, the first of two, or the arrays define no model; see `fault` */
    MPSLP_SECOND_REFUSED = 3, /* the first text defines a model and the second does not; see `fault` */
    MPSLP_NOT_LP = 4,         /* a name is not legal in LP; see place and number */
    MPSLP_OUT_OF_MEMORY = 5,  /* malloc or realloc failed */
    MPSLP_UNKNOWN_FORMAT = 6  /* a format is neither MPSLP_MPS nor MPSLP_LP */
} mpslp_status;

/* Places in a model. Only mpslp_store and mpslp_normalize report an element. */
typedef MPSLP_ENUM(mpslp_place) {
    MPSLP_NOWHERE = 0,
    MPSLP_AT_OBJECTIVE = 1,
    MPSLP_AT_ROW = 2,
    MPSLP_AT_COLUMN = 3,
    MPSLP_AT_ELEMENT = 4
} mpslp_place;

/* A byte string, not NUL-terminated. Release a returned text with mpslp_free. */
typedef struct mpslp_text {
    const uint8_t *bytes; /* never null */
    size_t len;
} mpslp_text;

#define MPSLP_NO_TEXT { MPSLP_POINTER(const uint8_t *, ""), 0 }

/*
 * Why a text or arrays are rejected, or have no LP text. There is nothing to free: the name of the kind lives as long as the
 * library.
 */
typedef struct mpslp_fault {
    mpslp_text kind;   /* the name of the kind of error, as DuplicateEntry; docs/ERRORS.md lists them. NotLp for MPSLP_NOT_LP */
    uint64_t line;     /* counted from 1; 0 for an error of the whole text or of arrays, and for MPSLP_NOT_LP */
    mpslp_place place; /* for MPSLP_NOT_LP what has the name; for an error of arrays what has it; else MPSLP_NOWHERE */
    size_t number;     /* the index of that row, column or element: for MPSLP_NOT_LP in byte order of names, else in the arrays */
    size_t name_len;   /* the length of the name of the row or column that has an error of the whole model; or 0 */
    char name[256];    /* that name, padded with zeros */
} mpslp_fault;

#define MPSLP_NO_FAULT { MPSLP_NO_TEXT, 0, MPSLP_NOWHERE, 0, 0, { 0 } }

/*
 * Writes the canonical text, in the format `to`, of the model that `len` bytes define in the format `from`.
 *
 * MPSLP_OK: `*out` is the text. MPSLP_REFUSED: the bytes define no model, and `*fault` is their first error.
 * MPSLP_NOT_LP: `to` is LP, and `*fault` has the place of the first name that is not legal in LP. Or MPSLP_OUT_OF_MEMORY,
 * or MPSLP_UNKNOWN_FORMAT. Other outputs are left unchanged; a previous text in `*out` is not freed.
 */
MPSLP_MUST_USE mpslp_status mpslp_canonical(mpslp_format from, mpslp_format to, const uint8_t *bytes, size_t len, mpslp_text *out, mpslp_fault *fault);

/*
 * Compares two texts, each in its format: MPSLP_OK if they define the same model, MPSLP_DIFFERS if not.
 *
 * MPSLP_REFUSED: the first defines no model, and `*fault` is its first error. MPSLP_SECOND_REFUSED: the first defines
 * one and the second none, and `*fault` is the first error of the second. Or MPSLP_OUT_OF_MEMORY, or
 * MPSLP_UNKNOWN_FORMAT. With any other status `*fault` is unchanged. The two texts may overlap.
 */
MPSLP_MUST_USE mpslp_status mpslp_same(mpslp_format first_format, const uint8_t *first, size_t first_len, mpslp_format second_format,
                                       const uint8_t *second, size_t second_len, mpslp_fault *fault);

/*
 * Checks whether bytes are the canonical text of the model that they define: MPSLP_OK if they are, MPSLP_DIFFERS if not.
 * It makes no copy of the text.
 *
 * MPSLP_REFUSED: they define no model, and `*fault` is their first error. Or MPSLP_OUT_OF_MEMORY, or
 * MPSLP_UNKNOWN_FORMAT. With any other status `*fault` is unchanged.
 */
MPSLP_MUST_USE mpslp_status mpslp_is_canonical(mpslp_format format, const uint8_t *bytes, size_t len, mpslp_fault *fault);

/* The version of the library, as "0.1.0". */
const char *mpslp_version(void);

/* A status in a few words. */
MPSLP_INLINE const char *mpslp_status_text(mpslp_status status) {
    switch (status) {
    case MPSLP_OK: return "done";
    case MPSLP_DIFFERS: return "no";
    case MPSLP_REFUSED: return "the text, the first of two, or the arrays define no model";
    case MPSLP_SECOND_REFUSED: return "the second text defines no model";
    case MPSLP_NOT_LP: return "a name is not legal in LP";
    case MPSLP_OUT_OF_MEMORY: return "out of memory";
    case MPSLP_UNKNOWN_FORMAT: return "unknown format";
    default: return "unknown status";
    }
}

/* Room for the line of any error, with its final 0. */
enum { MPSLP_LINE_ROOM = 320 };

/*
 * Writes the line that the program mpslp prints for an error, as "line 7: DuplicateEntry", without an end of line, and a 0 after
 * it. A line that needs more than `size` bytes is cut off. Returns the length of the whole line.
 */
MPSLP_INLINE size_t mpslp_fault_line(const mpslp_fault *fault, char *line, size_t size) {
    const unsigned long number = fault->line != 0 ? fault->line : fault->number;
    char where[40];
    int len;
    if (fault->line != 0) snprintf(where, sizeof where, "line %lu", number);
    else if (fault->place == MPSLP_AT_ROW) snprintf(where, sizeof where, "row %lu", number);
    else if (fault->place == MPSLP_AT_COLUMN) snprintf(where, sizeof where, "column %lu", number);
    else if (fault->place == MPSLP_AT_ELEMENT) snprintf(where, sizeof where, "element %lu", number);
    else snprintf(where, sizeof where, "%s", fault->place == MPSLP_AT_OBJECTIVE ? "objective" : "file");
    len = snprintf(line, size, "%s: %.*s%s%.*s", where, MPSLP_CAST(int, fault->kind.len), MPSLP_POINTER(const char *, fault->kind.bytes),
                   fault->name_len != 0 ? " " : "", MPSLP_CAST(int, fault->name_len), fault->name);
    return len < 0 ? 0 : MPSLP_CAST(size_t, len);
}

/* ---- a whole model */

/* The type of a column. */
typedef MPSLP_ENUM(mpslp_kind) {
    MPSLP_CONTINUOUS = 0,     /* its values are those within its bounds */
    MPSLP_INTEGER = 1,        /* the integers within its bounds */
    MPSLP_SEMI_CONTINUOUS = 2 /* 0, and those within its bounds */
} mpslp_kind;

/* Objective sense. */
typedef MPSLP_ENUM(mpslp_sense) { MPSLP_MINIMIZE = 0, MPSLP_MAXIMIZE = 1 } mpslp_sense;

/* The library was built with enumerations of 4 bytes; -fshort-enums makes others. */
typedef char mpslp_enumerations_have_4_bytes[sizeof(mpslp_format) == 4 && sizeof(mpslp_status) == 4 && sizeof(mpslp_place) == 4 &&
                                                     sizeof(mpslp_kind) == 4 && sizeof(mpslp_sense) == 4
                                                 ? 1
                                                 : -1];

/*
 * An exact decimal: `high` times 2^64 plus `low` is the mantissa, which is multiplied by ten to the `exponent`. In a model that
 * mpslp_load or mpslp_normalize returned the mantissa has at most 36 digits and does not end in a zero, the exponent is from -500
 * to 500, and 0 has the exponent 0, so numbers are equal if and only if their parts are. If `infinity` is -1 or 1 the number is
 * the infinity of that sign, and the rest is 0.
 */
typedef struct mpslp_number {
    uint64_t low;
    int64_t high;
    int32_t exponent;
    int32_t infinity;
} mpslp_number;

/* A name: `len` bytes from the offset `at` of the names of a model. */
typedef struct mpslp_name {
    size_t at;
    size_t len;
} mpslp_name;

typedef struct mpslp_row {
    mpslp_name name;
    mpslp_number lower, upper;
} mpslp_row;

typedef struct mpslp_column {
    mpslp_name name;
    mpslp_number lower, upper;
    mpslp_number cost; /* its objective coefficient */
    size_t first;      /* the index of its first element: how many elements the columns before it have */
    mpslp_kind kind;
} mpslp_column;

/* A nonzero: the index of its row, and its value. */
typedef struct mpslp_element {
    size_t row;
    mpslp_number value;
} mpslp_element;

/*
 * A model. In a model that mpslp_load or mpslp_normalize returned, rows and columns are in byte order of their names; the objective
 * is no row; and the elements are those of the first column, then those of the second, and so on, each column's in the order of
 * rows. Release such a model with mpslp_free_model. No pointer is null.
 */
typedef struct mpslp_model {
    mpslp_text names; /* the bytes of all names */
    const mpslp_row *rows;
    size_t num_rows;
    const mpslp_column *columns;
    size_t num_columns;
    const mpslp_element *elements;
    size_t num_elements;
    mpslp_number constant; /* of the objective */
    mpslp_name objective;
    mpslp_sense sense;
} mpslp_model;

#define MPSLP_NO_MODEL \
    { MPSLP_NO_TEXT, MPSLP_POINTER(const mpslp_row *, MPSLP_CAST(uintptr_t, 8)), 0, \
      MPSLP_POINTER(const mpslp_column *, MPSLP_CAST(uintptr_t, 8)), 0, MPSLP_POINTER(const mpslp_element *, MPSLP_CAST(uintptr_t, 8)), 0, \
      { 0, 0, 0, 0 }, { 0, 0 }, MPSLP_MINIMIZE }

/*
 * Reads the model that `len` bytes define in the format `format`.
 *
 * MPSLP_OK: `*out` is the model, exactly. MPSLP_REFUSED: the bytes define no model, and `*fault` is their first error. Or
 * MPSLP_OUT_OF_MEMORY, or MPSLP_UNKNOWN_FORMAT. Other outputs are left unchanged; a previous model in `*out` is not freed.
 */
MPSLP_MUST_USE mpslp_status mpslp_load(mpslp_format format, const uint8_t *bytes, size_t len, mpslp_model *out, mpslp_fault *fault);

/*
 * Writes the canonical text, in the format `to`, of the model that arrays define.
 *
 * The arrays have the form that mpslp_load returns, with fewer conditions. Rows, columns, and the elements of one column may come
 * in any order, and numbers need not be in normal form. In detail:
 *
 * - The elements of a column are those from its `first` up to the `first` of the next column, or to the last element. The
 *   `first` of the first column is 0.
 * - Only the sign of `infinity` counts, and the rest of an infinite number is ignored. A limit or bound with an absolute value of
 *   1e20 or more is the infinity of its sign.
 * - An element or a cost of 0 is allowed, and is no coefficient of the model.
 *
 * MPSLP_OK: `*out` is the text. MPSLP_NOT_LP: `to` is LP, and `*fault` has the place of the first name that is not legal in LP,
 * with its index in byte order of names. MPSLP_REFUSED: the arrays define no model, and `*fault` is their first error. Or
 * MPSLP_OUT_OF_MEMORY, or MPSLP_UNKNOWN_FORMAT. Other outputs are left unchanged; a previous text in `*out` is not freed.
 *
 * The first error is the first in this order: the objective (its name, constant and sense), the rows (name, lower and upper
 * limit), and then each column (name, lower and upper bound, cost, type) followed by its elements. `place` and `number` are its
 * place in the arrays. Its kind is one of those of files:
 *
 * - NameLength: a name has no byte or more than 255, or is not within `names`. NameByte, NameMarker: it is no legal name.
 * - BadNumber: a constant, a cost or an element is infinite. TooManyDigits, ExponentRange: a number has more than 36 digits, or
 *   in normal form an exponent outside -500 to 500.
 * - BadType: an unknown sense or type.
 * - DuplicateRow: a second row of that name, or a row with the name of the objective. DuplicateBound: a second column of that
 *   name. DuplicateEntry: a second element of that row in the column.
 * - InfiniteValue: a lower limit or bound of plus infinity, or an upper one of minus infinity.
 * - UnknownRow: the row of an element is no index of a row.
 * - ColumnSplit: the elements of a column end before its `first`, or beyond the last element. It is the last error of the column,
 *   so the `first` of a column that is too small or too large is found at the column before it. A `first` of the first column that
 *   is not 0 is an error of that column, before all its others.
 *
 * If there is none of these, the model as a whole may have an error: NoColumns, RangeInexact, LimitTooLarge, LimitsCrossed,
 * BoundsCrossed or SemiBounds. Then `place` is MPSLP_NOWHERE, and `name` is the name of the row or column.
 *
 * Any number in the arrays is allowed: nothing outside of them is read. They are not changed.
 */
MPSLP_MUST_USE mpslp_status mpslp_store(mpslp_format to, const mpslp_model *model, mpslp_text *out, mpslp_fault *fault);

/*
 * Makes the arrays of the model that arrays define, in the form that mpslp_load returns: sorted by name, numbers in normal form,
 * and no element of 0. The arrays that are given are those of mpslp_store, and are rejected with the same errors.
 *
 * MPSLP_OK: `*out` is the model. MPSLP_REFUSED: the arrays define no model, and `*fault` is their first error. Or
 * MPSLP_OUT_OF_MEMORY. Other outputs are left unchanged; a previous model in `*out` is not freed. The arrays that are given are
 * not changed; `model` and `out` must be two models.
 */
MPSLP_MUST_USE mpslp_status mpslp_normalize(const mpslp_model *model, mpslp_model *out, mpslp_fault *fault);

/*
 * Accessors. Row and column indices must be in range, and so must the index of an entry in its column: nothing checks them.
 * A returned text is valid as long as the model, and is not freed.
 */

/* Compares a name of a model with `len` bytes, in byte order: below 0, 0 or above 0, as memcmp. */
MPSLP_INLINE int mpslp_compare_name(const mpslp_model *model, mpslp_name name, const char *bytes, size_t len) {
    const int order = memcmp(model->names.bytes + name.at, bytes, name.len < len ? name.len : len);
    return order != 0 ? order : (name.len > len) - (name.len < len);
}

/*
 * Finds the row whose name is `len` bytes, by bisection: the rows have to be in byte order of their names. Returns whether there is
 * one, and its index in `*number`.
 */
MPSLP_INLINE MPSLP_MUST_USE bool mpslp_find_row(const mpslp_model *model, const char *name, size_t len, size_t *number) {
    size_t first = 0, end = model->num_rows;
    while (first < end) {
        const size_t middle = first + (end - first) / 2;
        const int order = mpslp_compare_name(model, model->rows[middle].name, name, len);
        if (order == 0) {
            *number = middle;
            return true;
        }
        if (order < 0) first = middle + 1;
        else end = middle;
    }
    return false;
}

/*
 * Finds the column whose name is `len` bytes, by bisection: the columns have to be in byte order of their names. Returns whether
 * there is one, and its index in `*number`.
 */
MPSLP_INLINE MPSLP_MUST_USE bool mpslp_find_column(const mpslp_model *model, const char *name, size_t len, size_t *number) {
    size_t first = 0, end = model->num_columns;
    while (first < end) {
        const size_t middle = first + (end - first) / 2;
        const int order = mpslp_compare_name(model, model->columns[middle].name, name, len);
        if (order == 0) {
            *number = middle;
            return true;
        }
        if (order < 0) first = middle + 1;
        else end = middle;
    }
    return false;
}

/* The number of rows. */
MPSLP_INLINE size_t mpslp_num_rows(const mpslp_model *model) { return model->num_rows; }

/* The number of columns: at least one. */
MPSLP_INLINE size_t mpslp_num_columns(const mpslp_model *model) { return model->num_columns; }

/* The number of nonzeros in rows. Those of the objective are not counted. */
MPSLP_INLINE size_t mpslp_num_elements(const mpslp_model *model) { return model->num_elements; }

/* The bytes of a name of the model. */
MPSLP_INLINE mpslp_text mpslp_name_text(const mpslp_model *model, mpslp_name name) {
    mpslp_text text;
    text.bytes = model->names.bytes + name.at;
    text.len = name.len;
    return text;
}

/* The name of row `i`. */
MPSLP_INLINE mpslp_text mpslp_row_name(const mpslp_model *model, size_t i) { return mpslp_name_text(model, model->rows[i].name); }

/* The lower limit of row `i`; minus infinity if there is none. */
MPSLP_INLINE mpslp_number mpslp_row_lower(const mpslp_model *model, size_t i) { return model->rows[i].lower; }

/* The upper limit of row `i`; plus infinity if there is none. */
MPSLP_INLINE mpslp_number mpslp_row_upper(const mpslp_model *model, size_t i) { return model->rows[i].upper; }

/* The name of column `j`. */
MPSLP_INLINE mpslp_text mpslp_column_name(const mpslp_model *model, size_t j) { return mpslp_name_text(model, model->columns[j].name); }

/* The lower bound of column `j`; minus infinity if there is none. */
MPSLP_INLINE mpslp_number mpslp_column_lower(const mpslp_model *model, size_t j) { return model->columns[j].lower; }

/* The upper bound of column `j`; plus infinity if there is none. */
MPSLP_INLINE mpslp_number mpslp_column_upper(const mpslp_model *model, size_t j) { return model->columns[j].upper; }

/* The type of column `j`. */
MPSLP_INLINE mpslp_kind mpslp_column_kind(const mpslp_model *model, size_t j) { return model->columns[j].kind; }

/* Whether column `j` is an integer one. */
MPSLP_INLINE bool mpslp_is_integer(const mpslp_model *model, size_t j) { return model->columns[j].kind == MPSLP_INTEGER; }

/* The objective coefficient of column `j`, which may be 0. */
MPSLP_INLINE mpslp_number mpslp_objective_coefficient(const mpslp_model *model, size_t j) { return model->columns[j].cost; }

/* The number of nonzeros in the rows of column `j`. */
MPSLP_INLINE size_t mpslp_column_len(const mpslp_model *model, size_t j) {
    return (j + 1 < model->num_columns ? model->columns[j + 1].first : model->num_elements) - model->columns[j].first;
}

/* The nonzero of index `k` in column `j`, in the order of rows: the index of its row, and its value. */
MPSLP_INLINE mpslp_element mpslp_entry(const mpslp_model *model, size_t j, size_t k) { return model->elements[model->columns[j].first + k]; }

/* The name of the objective. */
MPSLP_INLINE mpslp_text mpslp_objective_name(const mpslp_model *model) { return mpslp_name_text(model, model->objective); }

/* The sense of the objective. */
MPSLP_INLINE mpslp_sense mpslp_objective_sense(const mpslp_model *model) { return model->sense; }

/* The constant of the objective, which is added to its value. */
MPSLP_INLINE mpslp_number mpslp_objective_constant(const mpslp_model *model) { return model->constant; }

/* ---- numbers as floating point */

/* Divides a number of 128 bits, its highest 32 bits first, and returns the remainder. */
MPSLP_INLINE uint32_t mpslp_divide_limbs(uint32_t limbs[4], uint32_t divisor) {
    uint64_t left = 0;
    int i;
    for (i = 0; i < 4; i++) {
        left = left << 32 | limbs[i];
        limbs[i] = MPSLP_CAST(uint32_t, left / divisor);
        left %= divisor;
    }
    return MPSLP_CAST(uint32_t, left);
}

/* The mantissa of a number without its sign, its highest 32 bits first. */
MPSLP_INLINE void mpslp_mantissa_limbs(mpslp_number number, uint32_t limbs[4]) {
    uint64_t low = number.low, high = MPSLP_CAST(uint64_t, number.high);
    if (number.high < 0) {
        low = ~low + 1;
        high = ~high + (low == 0);
    }
    limbs[0] = MPSLP_CAST(uint32_t, high >> 32);
    limbs[1] = MPSLP_CAST(uint32_t, high);
    limbs[2] = MPSLP_CAST(uint32_t, low >> 32);
    limbs[3] = MPSLP_CAST(uint32_t, low);
}

/* Room for the text of a number: a sign, 39 digits, `e`, 11 characters of an exponent, and 0. */
enum { MPSLP_NUMBER_ROOM = 53 };

/*
 * Writes a finite number: a minus if it is below 0, its digits, `e`, the exponent, and a final 0. There is no decimal point, so
 * the text is read alike in every locale. Returns its length without the 0.
 */
MPSLP_INLINE size_t mpslp_number_text(mpslp_number number, char text[MPSLP_NUMBER_ROOM]) {
    char turned[40];
    uint32_t limbs[4];
    uint32_t left = number.exponent < 0 ? ~MPSLP_CAST(uint32_t, number.exponent) + 1 : MPSLP_CAST(uint32_t, number.exponent);
    size_t len = 0, count = 0;
    if (number.high < 0) text[len++] = '-';
    mpslp_mantissa_limbs(number, limbs);
    do turned[count++] = MPSLP_CAST(char, '0' + mpslp_divide_limbs(limbs, 10));
    while (limbs[0] | limbs[1] | limbs[2] | limbs[3]);
    while (count != 0) text[len++] = turned[--count];
    text[len++] = 'e';
    if (number.exponent < 0) text[len++] = '-';
    do turned[count++] = MPSLP_CAST(char, '0' + left % 10);
    while (left /= 10);
    while (count != 0) text[len++] = turned[--count];
    text[len] = 0;
    return len;
}

/*
 * Whether a finite number is a double: whether it is an odd integer below 2^53 times a power of two that is in the range of a
 * double.
 */
MPSLP_INLINE bool mpslp_is_double(mpslp_number number) {
    const int32_t most_tens = 308;
    uint32_t limbs[4];
    int32_t fives = number.exponent, twos = number.exponent, bits = 0;
    uint64_t odd;
    mpslp_mantissa_limbs(number, limbs);
    if (!(limbs[0] | limbs[1] | limbs[2] | limbs[3])) return true;
    if (number.exponent > most_tens) return false;
    for (; fives < 0; fives++)
        if (mpslp_divide_limbs(limbs, 5) != 0) return false;
    while (!(limbs[3] & 1)) {
        mpslp_divide_limbs(limbs, 2);
        twos++;
    }
    odd = MPSLP_CAST(uint64_t, limbs[2]) << 32 | limbs[3];
    if (limbs[0] | limbs[1] || odd >> 53 != 0) return false;
    for (; fives > 0; fives--) {
        odd *= 5;
        if (odd >> 53 != 0) return false;
    }
    while (odd >> bits != 0) bits++;
    return twos >= -1074 && bits + twos <= 1024;
}

/*
 * Whether a finite number is the product or quotient of two doubles that are exact: a mantissa of 53 bits and a power of ten up
 * to 10^22. The product or quotient is rounded only once, so it is the nearest double.
 */
MPSLP_INLINE bool mpslp_is_short(mpslp_number number) {
    const int64_t limit = MPSLP_CAST(int64_t, 1) << 53;
    const int64_t mantissa = MPSLP_CAST(int64_t, number.low);
#if defined FLT_EVAL_METHOD && FLT_EVAL_METHOD == 0
    return number.high == (mantissa < 0 ? -1 : 0) && -limit <= mantissa && mantissa <= limit && -22 <= number.exponent && number.exponent <= 22;
#else
    (void)limit;
    (void)mantissa;
    return false;
#endif
}

/* The double of a number that is short. */
MPSLP_INLINE double mpslp_short_to_double(mpslp_number number) {
    static const double powers[] = { 1e0,  1e1,  1e2,  1e3,  1e4,  1e5,  1e6,  1e7,  1e8,  1e9,  1e10, 1e11,
                                     1e12, 1e13, 1e14, 1e15, 1e16, 1e17, 1e18, 1e19, 1e20, 1e21, 1e22 };
    const double mantissa = MPSLP_CAST(double, MPSLP_CAST(int64_t, number.low));
    return number.exponent < 0 ? mantissa / powers[-number.exponent] : mantissa * powers[number.exponent];
}

/* The double that strtod reads of a finite number, in the rounding mode that is set; `errno` is unchanged. */
MPSLP_INLINE double mpslp_text_to_double(mpslp_number number) {
    char text[MPSLP_NUMBER_ROOM];
    const int error = errno;
    double nearest;
    mpslp_number_text(number, text);
    nearest = strtod(text, NULL);
    errno = error;
    return nearest;
}

/*
 * The double nearest to a number, and of two the one with an even last bit; an infinity if the number is one or is too large. It
 * does not depend on the rounding mode.
 */
double mpslp_nearest_double(mpslp_number number);

/*
 * The double nearest to a number, as mpslp_nearest_double returns it. `*is_exact` says whether the double is the number; `is_exact`
 * may be null.
 */
MPSLP_INLINE double mpslp_to_double(mpslp_number number, bool *is_exact) {
    if (is_exact) *is_exact = number.infinity != 0 || mpslp_is_double(number);
    return mpslp_nearest_double(number);
}

/* Which decimal of a double is wanted: the shortest one that is read as that double, such as 0.1, or its exact value. */
typedef MPSLP_ENUM(mpslp_decimal) { MPSLP_SHORTEST = 0, MPSLP_EXACT = 1 } mpslp_decimal;

/* The largest number of significant digits of a double, and room for its text: a sign, these, a point, `e-1074` and 0. */
enum { MPSLP_DOUBLE_DIGITS = 767, MPSLP_DOUBLE_ROOM = 780, MPSLP_MOST_DIGITS = 36 };

/* Makes a number of the text of printf's %e, whatever its decimal point is. Returns whether it has at most 36 digits. */
MPSLP_INLINE bool mpslp_read_double(const char *text, mpslp_number *number) {
    uint32_t limbs[4] = { 0, 0, 0, 0 };
    char digits[MPSLP_DOUBLE_ROOM];
    const char *at = text;
    uint64_t low, high;
    int len = 0, i, limb;
    for (; *at != 'e'; at++)
        if ('0' <= *at && *at <= '9') digits[len++] = *at;
    number->exponent = MPSLP_CAST(int32_t, strtol(at + 1, NULL, 10)) - (len - 1);
    while (len > 1 && digits[len - 1] == '0') {
        len--;
        number->exponent++;
    }
    if (len > MPSLP_MOST_DIGITS) return false;
    for (i = 0; i < len; i++) {
        uint64_t carry = MPSLP_CAST(uint64_t, digits[i] - '0');
        for (limb = 3; limb >= 0; limb--) {
            carry += MPSLP_CAST(uint64_t, limbs[limb]) * 10;
            limbs[limb] = MPSLP_CAST(uint32_t, carry);
            carry >>= 32;
        }
    }
    low = MPSLP_CAST(uint64_t, limbs[2]) << 32 | limbs[3];
    high = MPSLP_CAST(uint64_t, limbs[0]) << 32 | limbs[1];
    if (low == 0 && high == 0) number->exponent = 0;
    if (text[0] == '-') {
        low = ~low + 1;
        high = ~high + (low == 0);
    }
    number->low = low;
    number->high = MPSLP_CAST(int64_t, high);
    number->infinity = 0;
    return true;
}

/*
 * Makes a number of a double. Returns false, and leaves `*number` unchanged, for NaN, and if the exact decimal is wanted and has
 * more than 36 digits. An infinity becomes that of its sign, and -0 becomes 0. Of several shortest decimals it takes the one
 * nearest to the double. It does not depend on the rounding mode.
 */
MPSLP_MUST_USE bool mpslp_from_double(double value, mpslp_decimal wanted, mpslp_number *number);

/* ---- doubles in bulk, into arrays of the caller, in the form in which solvers take a model */

/* The objective coefficient of each column. */
MPSLP_INLINE void mpslp_costs(const mpslp_model *model, double *costs) {
    for (size_t j = 0; j < model->num_columns; j++) costs[j] = mpslp_to_double(model->columns[j].cost, NULL);
}

/* The limits of each row; an infinity if there is none. */
MPSLP_INLINE void mpslp_row_limits(const mpslp_model *model, double *lower, double *upper) {
    for (size_t i = 0; i < model->num_rows; i++) {
        lower[i] = mpslp_to_double(model->rows[i].lower, NULL);
        upper[i] = mpslp_to_double(model->rows[i].upper, NULL);
    }
}

/* The bounds of each column; an infinity if there is none. */
MPSLP_INLINE void mpslp_column_bounds(const mpslp_model *model, double *lower, double *upper) {
    for (size_t j = 0; j < model->num_columns; j++) {
        lower[j] = mpslp_to_double(model->columns[j].lower, NULL);
        upper[j] = mpslp_to_double(model->columns[j].upper, NULL);
    }
}

/* Whether all indices of rows, columns and elements fit an int32_t, as mpslp_matrix requires. */
MPSLP_INLINE bool mpslp_fits_int32(const mpslp_model *model) {
    const size_t most = INT32_MAX;
    return model->num_rows <= most && model->num_columns <= most && model->num_elements <= most;
}

/*
 * The nonzeros of the rows in compressed columns. `starts` has one item more than there are columns: the index of the first
 * element of each column, and then the number of elements. `rows` and `values` have the row and the value of each element. The
 * model must be one for which mpslp_fits_int32 is true.
 */
MPSLP_INLINE void mpslp_matrix(const mpslp_model *model, int32_t *starts, int32_t *rows, double *values) {
    for (size_t j = 0; j < model->num_columns; j++) starts[j] = MPSLP_CAST(int32_t, model->columns[j].first);
    starts[model->num_columns] = MPSLP_CAST(int32_t, model->num_elements);
    for (size_t k = 0; k < model->num_elements; k++) {
        rows[k] = MPSLP_CAST(int32_t, model->elements[k].row);
        values[k] = mpslp_to_double(model->elements[k].value, NULL);
    }
}

/* ---- releasing memory */

/* Frees a text that mpslp_canonical or mpslp_store returned, and makes it MPSLP_NO_TEXT. An empty text has nothing to free. */
MPSLP_INLINE void mpslp_free(mpslp_text *text) {
    const mpslp_text none = MPSLP_NO_TEXT;
    if (text->len != 0) free(MPSLP_POINTER(void *, MPSLP_POINTER(uintptr_t, text->bytes)));
    *text = none;
}

/* Frees a model that mpslp_load or mpslp_normalize returned, and makes it MPSLP_NO_MODEL. An empty array has nothing to free. */
MPSLP_INLINE void mpslp_free_model(mpslp_model *model) {
    const mpslp_model none = MPSLP_NO_MODEL;
    mpslp_free(&model->names);
    if (model->num_rows != 0) free(MPSLP_POINTER(void *, MPSLP_POINTER(uintptr_t, model->rows)));
    if (model->num_columns != 0) free(MPSLP_POINTER(void *, MPSLP_POINTER(uintptr_t, model->columns)));
    if (model->num_elements != 0) free(MPSLP_POINTER(void *, MPSLP_POINTER(uintptr_t, model->elements)));
    *model = none;
}

#ifdef __cplusplus
}
#endif
#endif
