/*
 * library FORMAT FILE: loads a model file by the library for C and stores the model again in its format, once each. Prints the
 * seconds of mpslp_load, those of mpslp_store, and the peak of resident memory in bytes.
 */
#include "mpslp.h"
#include <stdio.h>
#include <stdlib.h>
#include <string.h>
#include <sys/resource.h>
#include <time.h>

static double seconds(void) {
    struct timespec now;
    clock_gettime(CLOCK_MONOTONIC, &now);
    return (double)now.tv_sec + (double)now.tv_nsec / 1e9;
}

static long peak_memory(void) {
    struct rusage usage;
    getrusage(RUSAGE_SELF, &usage);
    return usage.ru_maxrss * 1024;
}

static uint8_t *content(const char *path, size_t *len) {
    FILE *file = fopen(path, "rb");
    uint8_t *bytes;
    long end;
    if (file == NULL || fseek(file, 0, SEEK_END) != 0 || (end = ftell(file)) < 0 || fseek(file, 0, SEEK_SET) != 0) return NULL;
    *len = (size_t)end;
    bytes = malloc(*len + 1);
    if (bytes == NULL || fread(bytes, 1, *len, file) != *len) return NULL;
    fclose(file);
    return bytes;
}

int main(int argc, char **argv) {
    mpslp_model model = MPSLP_NO_MODEL;
    mpslp_text text = MPSLP_NO_TEXT;
    mpslp_fault fault = MPSLP_NO_FAULT;
    char line[MPSLP_LINE_ROOM];
    mpslp_format format;
    mpslp_status status;
    double begun, loaded, stored;
    uint8_t *bytes;
    size_t len;
    if (argc != 3) return 3;
    format = strcmp(argv[1], "lp") == 0 ? MPSLP_LP : MPSLP_MPS;
    bytes = content(argv[2], &len);
    if (bytes == NULL) return 4;
    begun = seconds();
    status = mpslp_load(format, bytes, len, &model, &fault);
    loaded = seconds();
    if (status == MPSLP_OK) status = mpslp_store(format, &model, &text, &fault);
    stored = seconds();
    if (status != MPSLP_OK) {
        mpslp_fault_line(&fault, line, sizeof line);
        fprintf(stderr, "%s: %s\n", mpslp_status_text(status), line);
        return 2;
    }
    printf("%.3f %.3f %ld\n", loaded - begun, stored - loaded, peak_memory());
    mpslp_free(&text);
    mpslp_free_model(&model);
    free(bytes);
    return 0;
}
