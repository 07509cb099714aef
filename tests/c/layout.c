/*
 * The types of mpslp.h as the crate has them, which proves its sizes in src/faults.rt, src/calls.rt, src/numbers.rt and
 * src/arrays.rt; and each call, by its type. It is compiled as C and as C++, on machines with 64-bit pointers.
 */
#include "mpslp.h"

#ifdef __cplusplus
#define HOLDS(test, name) static_assert(test, #name)
#else
#define HOLDS(test, name) typedef char name[(test) ? 1 : -1]
#endif

HOLDS(sizeof(mpslp_format) == 4, size_of_format);
HOLDS(sizeof(mpslp_status) == 4, size_of_status);
HOLDS(sizeof(mpslp_place) == 4, size_of_place);
HOLDS(sizeof(mpslp_kind) == 4, size_of_kind);
HOLDS(sizeof(mpslp_sense) == 4, size_of_sense);

HOLDS(sizeof(mpslp_text) == 16, size_of_text);
HOLDS(offsetof(mpslp_text, bytes) == 0, bytes_of_text);
HOLDS(offsetof(mpslp_text, len) == 8, len_of_text);

HOLDS(sizeof(mpslp_fault) == 304, size_of_fault);
HOLDS(offsetof(mpslp_fault, kind) == 0, kind_of_fault);
HOLDS(offsetof(mpslp_fault, line) == 16, line_of_fault);
HOLDS(offsetof(mpslp_fault, place) == 24, place_of_fault);
HOLDS(offsetof(mpslp_fault, number) == 32, number_of_fault);
HOLDS(offsetof(mpslp_fault, name_len) == 40, name_len_of_fault);
HOLDS(offsetof(mpslp_fault, name) == 48, name_of_fault);

HOLDS(sizeof(mpslp_number) == 24, size_of_number);
HOLDS(offsetof(mpslp_number, low) == 0, low_of_number);
HOLDS(offsetof(mpslp_number, high) == 8, high_of_number);
HOLDS(offsetof(mpslp_number, exponent) == 16, exponent_of_number);
HOLDS(offsetof(mpslp_number, infinity) == 20, infinity_of_number);

HOLDS(sizeof(mpslp_name) == 16, size_of_name);
HOLDS(offsetof(mpslp_name, at) == 0, at_of_name);
HOLDS(offsetof(mpslp_name, len) == 8, len_of_name);

HOLDS(sizeof(mpslp_row) == 64, size_of_row);
HOLDS(offsetof(mpslp_row, name) == 0, name_of_row);
HOLDS(offsetof(mpslp_row, lower) == 16, lower_of_row);
HOLDS(offsetof(mpslp_row, upper) == 40, upper_of_row);

HOLDS(sizeof(mpslp_column) == 104, size_of_column);
HOLDS(offsetof(mpslp_column, name) == 0, name_of_column);
HOLDS(offsetof(mpslp_column, lower) == 16, lower_of_column);
HOLDS(offsetof(mpslp_column, upper) == 40, upper_of_column);
HOLDS(offsetof(mpslp_column, cost) == 64, cost_of_column);
HOLDS(offsetof(mpslp_column, first) == 88, first_of_column);
HOLDS(offsetof(mpslp_column, kind) == 96, kind_of_column);

HOLDS(sizeof(mpslp_element) == 32, size_of_element);
HOLDS(offsetof(mpslp_element, row) == 0, row_of_element);
HOLDS(offsetof(mpslp_element, value) == 8, value_of_element);

HOLDS(sizeof(mpslp_model) == 112, size_of_model);
HOLDS(offsetof(mpslp_model, names) == 0, names_of_model);
HOLDS(offsetof(mpslp_model, rows) == 16, rows_of_model);
HOLDS(offsetof(mpslp_model, num_rows) == 24, num_rows_of_model);
HOLDS(offsetof(mpslp_model, columns) == 32, columns_of_model);
HOLDS(offsetof(mpslp_model, num_columns) == 40, num_columns_of_model);
HOLDS(offsetof(mpslp_model, elements) == 48, elements_of_model);
HOLDS(offsetof(mpslp_model, num_elements) == 56, num_elements_of_model);
HOLDS(offsetof(mpslp_model, constant) == 64, constant_of_model);
HOLDS(offsetof(mpslp_model, objective) == 88, objective_of_model);
HOLDS(offsetof(mpslp_model, sense) == 104, sense_of_model);

/* Bytes that declare no model, through each call. */
int main(void) {
    mpslp_status (*const canonical)(mpslp_format, mpslp_format, const uint8_t *, size_t, mpslp_text *, mpslp_fault *) = mpslp_canonical;
    mpslp_status (*const same)(mpslp_format, const uint8_t *, size_t, mpslp_format, const uint8_t *, size_t, mpslp_fault *) = mpslp_same;
    mpslp_status (*const is_canonical)(mpslp_format, const uint8_t *, size_t, mpslp_fault *) = mpslp_is_canonical;
    mpslp_status (*const load)(mpslp_format, const uint8_t *, size_t, mpslp_model *, mpslp_fault *) = mpslp_load;
    mpslp_status (*const store)(mpslp_format, const mpslp_model *, mpslp_text *, mpslp_fault *) = mpslp_store;
    mpslp_status (*const normalize)(const mpslp_model *, mpslp_model *, mpslp_fault *) = mpslp_normalize;
    const mpslp_format unknown = MPSLP_CAST(mpslp_format, 2), largest = MPSLP_CAST(mpslp_format, 4294967295u);
    const uint8_t none = 0;
    mpslp_text text = MPSLP_NO_TEXT;
    mpslp_model model = MPSLP_NO_MODEL, normal = MPSLP_NO_MODEL;
    mpslp_fault fault = MPSLP_NO_FAULT;
    if (canonical(MPSLP_MPS, MPSLP_LP, &none, 0, &text, &fault) != MPSLP_REFUSED) return 1;
    if (fault.line != 0 || fault.kind.len != 10 || fault.kind.bytes[0] != 'M' || fault.name_len != 0) return 2;
    if (same(MPSLP_LP, &none, 0, MPSLP_MPS, &none, 0, &fault) != MPSLP_REFUSED) return 3;
    if (is_canonical(MPSLP_LP, &none, 1, &fault) != MPSLP_REFUSED || fault.line != 1) return 4;
    if (canonical(unknown, MPSLP_LP, &none, 0, &text, &fault) != MPSLP_UNKNOWN_FORMAT) return 5;
    if (same(MPSLP_LP, &none, 0, unknown, &none, 0, &fault) != MPSLP_UNKNOWN_FORMAT) return 6;
    if (is_canonical(largest, &none, 0, &fault) != MPSLP_UNKNOWN_FORMAT) return 7;
    if (load(MPSLP_LP, &none, 1, &model, &fault) != MPSLP_REFUSED || fault.line != 1) return 8;
    if (load(unknown, &none, 0, &model, &fault) != MPSLP_UNKNOWN_FORMAT) return 9;
    if (store(MPSLP_LP, &model, &text, &fault) != MPSLP_REFUSED || fault.place != MPSLP_AT_OBJECTIVE) return 10;
    if (store(largest, &model, &text, &fault) != MPSLP_UNKNOWN_FORMAT) return 11;
    if (normalize(&model, &normal, &fault) != MPSLP_REFUSED || fault.place != MPSLP_AT_OBJECTIVE) return 12;
    mpslp_free_model(&model);
    mpslp_free(&text);
    return text.len != 0 || model.num_columns != 0 || normal.num_columns != 0;
}
