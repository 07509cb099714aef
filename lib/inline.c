/*
 * The inline functions of mpslp.h, for languages that read no header and for compilers that do not inline; and the version,
 * which lib/build.sh takes from the file VERSION.
 */
#include <mpslp.h>

const char *mpslp_version(void) { return MPSLP_LIBRARY_VERSION; }

extern inline const char *mpslp_status_text(mpslp_status status);
extern inline size_t mpslp_fault_line(const mpslp_fault *fault, char *line, size_t size);
extern inline int mpslp_compare_name(const mpslp_model *model, mpslp_name name, const char *bytes, size_t len);
extern inline bool mpslp_find_row(const mpslp_model *model, const char *name, size_t len, size_t *number);
extern inline bool mpslp_find_column(const mpslp_model *model, const char *name, size_t len, size_t *number);
extern inline size_t mpslp_num_rows(const mpslp_model *model);
extern inline size_t mpslp_num_columns(const mpslp_model *model);
extern inline size_t mpslp_num_elements(const mpslp_model *model);
extern inline mpslp_text mpslp_name_text(const mpslp_model *model, mpslp_name name);
extern inline mpslp_text mpslp_row_name(const mpslp_model *model, size_t i);
extern inline mpslp_number mpslp_row_lower(const mpslp_model *model, size_t i);
extern inline mpslp_number mpslp_row_upper(const mpslp_model *model, size_t i);
extern inline mpslp_text mpslp_column_name(const mpslp_model *model, size_t j);
extern inline mpslp_number mpslp_column_lower(const mpslp_model *model, size_t j);
extern inline mpslp_number mpslp_column_upper(const mpslp_model *model, size_t j);
extern inline mpslp_kind mpslp_column_kind(const mpslp_model *model, size_t j);
extern inline bool mpslp_is_integer(const mpslp_model *model, size_t j);
extern inline mpslp_number mpslp_objective_coefficient(const mpslp_model *model, size_t j);
extern inline size_t mpslp_column_len(const mpslp_model *model, size_t j);
extern inline mpslp_element mpslp_entry(const mpslp_model *model, size_t j, size_t k);
extern inline mpslp_text mpslp_objective_name(const mpslp_model *model);
extern inline mpslp_sense mpslp_objective_sense(const mpslp_model *model);
extern inline mpslp_number mpslp_objective_constant(const mpslp_model *model);
extern inline uint32_t mpslp_divide_limbs(uint32_t limbs[4], uint32_t divisor);
extern inline void mpslp_mantissa_limbs(mpslp_number number, uint32_t limbs[4]);
extern inline size_t mpslp_number_text(mpslp_number number, char text[MPSLP_NUMBER_ROOM]);
extern inline bool mpslp_is_double(mpslp_number number);
extern inline bool mpslp_is_short(mpslp_number number);
extern inline double mpslp_short_to_double(mpslp_number number);
extern inline double mpslp_text_to_double(mpslp_number number);
extern inline double mpslp_to_double(mpslp_number number, bool *is_exact);
extern inline bool mpslp_read_double(const char *text, mpslp_number *number);
extern inline void mpslp_costs(const mpslp_model *model, double *costs);
extern inline void mpslp_row_limits(const mpslp_model *model, double *lower, double *upper);
extern inline void mpslp_column_bounds(const mpslp_model *model, double *lower, double *upper);
extern inline bool mpslp_fits_int32(const mpslp_model *model);
extern inline void mpslp_matrix(const mpslp_model *model, int32_t *starts, int32_t *rows, double *values);
extern inline void mpslp_free(mpslp_text *text);
extern inline void mpslp_free_model(mpslp_model *model);
