/* How fast the C library reads and prints numbers.
 *
 * Usage: numbers FILE, with one number literal per line. All work is done in
 * memory, so that reading the file and writing are not measured. */

#define _POSIX_C_SOURCE 200809L

#include <stdio.h>
#include <stdlib.h>
#include <time.h>

enum { ROUNDS = 5, TEXT_BYTES = 64 };

struct numbers {
    char *text;
    size_t text_length;
    size_t count;
    const char **literals;
    double *values;
};

/* The sums of the loops are stored here, so that no compiler removes the loops. */
static volatile double kept;

static void stop(const char *why)
{
    fprintf(stderr, "numbers: %s\n", why);
    exit(1);
}

static void *allocate(size_t count, size_t size)
{
    void *memory = calloc(count, size);
    if (memory == NULL)
        stop("out of memory");
    return memory;
}

static void read_text(struct numbers *numbers, const char *path)
{
    FILE *file = fopen(path, "rb");
    if (file == NULL || fseek(file, 0, SEEK_END) != 0)
        stop("the file does not open");
    long length = ftell(file);
    rewind(file);
    if (length <= 0)
        stop("the file is empty");
    numbers->text_length = (size_t)length;
    numbers->text = allocate(numbers->text_length + 1, 1);
    if (fread(numbers->text, 1, numbers->text_length, file) != numbers->text_length)
        stop("the file cannot be read");
    fclose(file);
}

static size_t count_lines(const struct numbers *numbers)
{
    size_t count = 0;
    for (size_t at = 0; at < numbers->text_length; at++)
        count += numbers->text[at] == '\n';
    return count;
}

static void find_literals(struct numbers *numbers)
{
    numbers->count = count_lines(numbers);
    if (numbers->count == 0)
        stop("the file has no whole line");
    numbers->literals = allocate(numbers->count, sizeof *numbers->literals);
    numbers->values = allocate(numbers->count, sizeof *numbers->values);
    const char *start = numbers->text;
    for (size_t line = 0, at = 0; line < numbers->count; at++) {
        if (numbers->text[at] != '\n')
            continue;
        numbers->literals[line++] = start;
        start = numbers->text + at + 1;
    }
}

static double seconds_now(void)
{
    struct timespec now;
    clock_gettime(CLOCK_MONOTONIC, &now);
    return (double)now.tv_sec + 1e-9 * (double)now.tv_nsec;
}

static void read_all(struct numbers *numbers)
{
    double sum = 0;
    for (size_t at = 0; at < numbers->count; at++) {
        numbers->values[at] = strtod(numbers->literals[at], NULL);
        sum += numbers->values[at];
    }
    kept = sum;
}

static void print_all(struct numbers *numbers)
{
    char text[TEXT_BYTES];
    double sum = 0;
    for (size_t at = 0; at < numbers->count; at++) {
        sum += snprintf(text, sizeof text, "%.15g", numbers->values[at]);
        sum += text[0];
    }
    kept = sum;
}

static double least_seconds(void (*work)(struct numbers *), struct numbers *numbers)
{
    double least = 0;
    for (int round = 0; round < ROUNDS; round++) {
        double start = seconds_now();
        work(numbers);
        double taken = seconds_now() - start;
        if (round == 0 || taken < least)
            least = taken;
    }
    return least;
}

static void print_speed(const char *name, size_t count, double seconds)
{
    printf("%s %.2f million/s\n", name, 1e-6 * (double)count / seconds);
}

int main(int argument_count, char **arguments)
{
    struct numbers numbers;
    if (argument_count != 2)
        stop("usage: numbers FILE");
    read_text(&numbers, arguments[1]);
    find_literals(&numbers);
    print_speed("strtod", numbers.count, least_seconds(read_all, &numbers));
    print_speed("snprintf", numbers.count, least_seconds(print_all, &numbers));
    return 0;
}
