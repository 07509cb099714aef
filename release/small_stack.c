/*
 * Runs tests/c/program.c, compiled with -Dmain=run_words, in a thread whose stack has 256 KiB: every call of the library is
 * guaranteed to need no more.
 */
#include <pthread.h>
#include <stdio.h>

enum { STACK_BYTES = 256 * 1024, FAILED = 99 };

int run_words(int count, char **words);

typedef struct {
    int count;
    char **words;
    int status;
} task;

static void *run(void *argument) {
    task *it = argument;
    it->status = run_words(it->count, it->words);
    return NULL;
}

int main(int count, char **words) {
    task it = { count, words, FAILED };
    pthread_attr_t attributes;
    pthread_t thread;
    if (pthread_attr_init(&attributes) || pthread_attr_setstacksize(&attributes, STACK_BYTES) ||
        pthread_create(&thread, &attributes, run, &it) || pthread_join(thread, NULL))
        fprintf(stderr, "no thread with a stack of %d bytes\n", STACK_BYTES);
    return it.status;
}
