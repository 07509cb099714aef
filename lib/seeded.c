/*
 * The calls of mpslp.h that read or make a model: each takes a seed for the hashes of names from the system, and passes it with its
 * own arguments to the proved call. If the system gives no random bits, the seed is one that everybody can know: no result depends on
 * it, only the time of files that were made for it. tests/c/arguments.py checks that each argument arrives at its place.
 */
#define _DEFAULT_SOURCE
#include <mpslp.h>
#include <unistd.h>

/* The proved calls, in crates/mpslp_c. Their names are local to the library. */
mpslp_status seeded_canonical(uint64_t state, uint64_t factor, mpslp_format from, mpslp_format to, const uint8_t *bytes, size_t len, mpslp_text *out, mpslp_fault *fault);
mpslp_status seeded_same(uint64_t state, uint64_t factor, mpslp_format first_format, const uint8_t *first, size_t first_len, mpslp_format second_format, const uint8_t *second, size_t second_len, mpslp_fault *fault);
mpslp_status seeded_is_canonical(uint64_t state, uint64_t factor, mpslp_format format, const uint8_t *bytes, size_t len, mpslp_fault *fault);
mpslp_status seeded_load(uint64_t state, uint64_t factor, mpslp_format format, const uint8_t *bytes, size_t len, mpslp_model *out, mpslp_fault *fault);
mpslp_status seeded_store(uint64_t state, uint64_t factor, mpslp_format to, const mpslp_model *model, mpslp_text *out, mpslp_fault *fault);
mpslp_status seeded_normalize(uint64_t state, uint64_t factor, const mpslp_model *model, mpslp_model *out, mpslp_fault *fault);

/* FIXED_SEED of crates/mpslp_types. */
static const uint64_t FIXED_SEED[2] = {0x243F6A8885A308D3u, 0x9E3779B97F4A7C15u};

typedef struct {
    uint64_t state;
    uint64_t factor;
} seed;

static seed random_seed(void) {
    uint64_t bits[2];
    if (getentropy(bits, sizeof bits) != 0) {
        bits[0] = FIXED_SEED[0];
        bits[1] = FIXED_SEED[1];
    }
    return (seed){bits[0], bits[1]};
}

mpslp_status mpslp_canonical(mpslp_format from, mpslp_format to, const uint8_t *bytes, size_t len, mpslp_text *out, mpslp_fault *fault) {
    seed it = random_seed();
    return seeded_canonical(it.state, it.factor, from, to, bytes, len, out, fault);
}

mpslp_status mpslp_same(mpslp_format first_format, const uint8_t *first, size_t first_len, mpslp_format second_format, const uint8_t *second, size_t second_len, mpslp_fault *fault) {
    seed it = random_seed();
    return seeded_same(it.state, it.factor, first_format, first, first_len, second_format, second, second_len, fault);
}

mpslp_status mpslp_is_canonical(mpslp_format format, const uint8_t *bytes, size_t len, mpslp_fault *fault) {
    seed it = random_seed();
    return seeded_is_canonical(it.state, it.factor, format, bytes, len, fault);
}

mpslp_status mpslp_load(mpslp_format format, const uint8_t *bytes, size_t len, mpslp_model *out, mpslp_fault *fault) {
    seed it = random_seed();
    return seeded_load(it.state, it.factor, format, bytes, len, out, fault);
}

mpslp_status mpslp_store(mpslp_format to, const mpslp_model *model, mpslp_text *out, mpslp_fault *fault) {
    seed it = random_seed();
    return seeded_store(it.state, it.factor, to, model, out, fault);
}

mpslp_status mpslp_normalize(const mpslp_model *model, mpslp_model *out, mpslp_fault *fault) {
    seed it = random_seed();
    return seeded_normalize(it.state, it.factor, model, out, fault);
}
