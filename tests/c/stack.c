/* stack FORMAT FILE: makes each call in a thread with a stack of 256 KiB. */
#include "mpslp.h"

#include <limits.h>
#include <pthread.h>

enum { STACK = 256 * 1024 };

static uint8_t *bytes;
static size_t len;
static mpslp_format format;

static void *call(void *unused) {
    mpslp_text text = MPSLP_NO_TEXT;
    mpslp_model model = MPSLP_NO_MODEL, normal = MPSLP_NO_MODEL;
    mpslp_fault fault = MPSLP_NO_FAULT;
    (void)unused;
    for (int to = MPSLP_MPS; to <= MPSLP_LP; to++) {
        if (mpslp_canonical(format, (mpslp_format)to, bytes, len, &text, &fault) != MPSLP_OK) exit(1);
        mpslp_free(&text);
    }
    if (mpslp_same(format, bytes, len, format, bytes, len, &fault) != MPSLP_OK) exit(1);
    if (mpslp_is_canonical(format, bytes, len, &fault) > MPSLP_DIFFERS) exit(1);
    if (mpslp_load(format, bytes, len, &model, &fault) != MPSLP_OK) exit(1);
    for (int to = MPSLP_MPS; to <= MPSLP_LP; to++) {
        if (mpslp_store((mpslp_format)to, &model, &text, &fault) != MPSLP_OK) exit(1);
        mpslp_free(&text);
    }
    if (mpslp_normalize(&model, &normal, &fault) != MPSLP_OK) exit(1);
    mpslp_free_model(&normal);
    mpslp_free_model(&model);
    return NULL;
}

int main(int count, char **words) {
    FILE *file = count == 3 ? fopen(words[2], "rb") : NULL;
    pthread_attr_t attributes;
    pthread_t thread;
    if (!file) return 3;
    format = strcmp(words[1], "mps") == 0 ? MPSLP_MPS : MPSLP_LP;
    bytes = malloc(1 << 26);
    if (!bytes) return 3;
    len = fread(bytes, 1, 1 << 26, file);
    fclose(file);
    if (pthread_attr_init(&attributes) || pthread_attr_setstacksize(&attributes, STACK)) return 3;
    if (pthread_create(&thread, &attributes, call, NULL) || pthread_join(thread, NULL)) return 3;
    free(bytes);
    return 0;
}
