/* The least that a reader of LP files does: how fast a file of `generate.py --lp` could be read at best.
 *
 * It cuts tokens, turns the digits of a number into one integer, looks each column up by a hash of its name and appends the
 * coefficient to its column. It checks nothing, rounds long numbers, detects no errors and makes no model, so most of its time
 * is spent on cache misses. It reads the text from standard input and prints the shortest time of seven rounds.
 *
 *     cc -O2 -o least_lp bench/least_lp.c && ./least_lp < FILE
 */
#include <stdbool.h>
#include <stdint.h>
#include <stdio.h>
#include <stdlib.h>
#include <string.h>
#include <time.h>

/* As large as a coefficient of mpslp with its row: 24 bytes. */
typedef struct {
    uint32_t row;
    uint32_t digits[4];
    uint32_t is_negative;
} Cell;

typedef struct {
    char *name;
    size_t name_len;
    size_t len, room;
    Cell *cells;
} Column;

typedef struct {
    Column *columns;
    size_t len, room;
    uint32_t *places; /* by hash: 0, or the number of a column plus 1 */
    size_t mask;
} Table;

static void *grown(void *memory, size_t size) {
    void *more = realloc(memory, size);
    if (more == NULL) {
        fputs("out of memory\n", stderr);
        exit(1);
    }
    return more;
}

static size_t hash_of(const char *name, size_t len) {
    uint64_t hash = 1469598103934665603u;
    for (size_t i = 0; i < len; i++) {
        hash = (hash ^ (unsigned char)name[i]) * 1099511628211u;
    }
    return (size_t)(hash ^ (hash >> 32));
}

static void set_room(Table *table, size_t places) {
    free(table->places);
    table->places = grown(NULL, places * sizeof *table->places);
    memset(table->places, 0, places * sizeof *table->places);
    table->mask = places - 1;
    for (size_t i = 0; i < table->len; i++) {
        size_t at = hash_of(table->columns[i].name, table->columns[i].name_len) & table->mask;
        while (table->places[at] != 0) {
            at = (at + 1) & table->mask;
        }
        table->places[at] = (uint32_t)i + 1;
    }
}

static Column *column_of(Table *table, const char *name, size_t len) {
    size_t at = hash_of(name, len) & table->mask;
    while (table->places[at] != 0) {
        Column *column = &table->columns[table->places[at] - 1];
        if (column->name_len == len && memcmp(column->name, name, len) == 0) {
            return column;
        }
        at = (at + 1) & table->mask;
    }
    if (table->len == table->room) {
        table->room = table->room == 0 ? 1024 : 2 * table->room;
        table->columns = grown(table->columns, table->room * sizeof *table->columns);
    }
    Column *column = &table->columns[table->len];
    *column = (Column){.name = grown(NULL, len), .name_len = len};
    memcpy(column->name, name, len);
    table->places[at] = (uint32_t)++table->len;
    if (2 * table->len > table->mask) {
        set_room(table, 2 * (table->mask + 1));
        column = &table->columns[table->len - 1];
    }
    return column;
}

static void append(Column *column, uint32_t row, unsigned __int128 digits, bool is_negative) {
    if (column->len == column->room) {
        column->room = column->room == 0 ? 1 : 2 * column->room;
        column->cells = grown(column->cells, column->room * sizeof *column->cells);
    }
    Cell *cell = &column->cells[column->len++];
    cell->row = row;
    memcpy(cell->digits, &digits, sizeof cell->digits);
    cell->is_negative = is_negative;
}

static bool is_digit(char c) { return '0' <= c && c <= '9'; }

static bool is_in_word(char c) {
    return ('a' <= c && c <= 'z') || ('A' <= c && c <= 'Z') || is_digit(c) || c == '_' || c == '.';
}

/* Returns the number of coefficients in the text, which ends with a zero byte. */
static size_t read_text(Table *table, const char *text) {
    size_t terms = 0;
    uint32_t row = 0;
    bool is_negative = false, has_number = false;
    unsigned __int128 digits = 0;
    for (const char *at = text; *at != '\0';) {
        if (is_digit(*at) || *at == '.') {
            for (digits = 0; is_digit(*at) || *at == '.'; at++) {
                digits = *at == '.' ? digits : 10 * digits + (unsigned)(*at - '0');
            }
            if (*at == 'e' || *at == 'E') {
                for (at++; is_digit(*at) || *at == '+' || *at == '-'; at++) {
                }
            }
            has_number = true;
        } else if (is_in_word(*at)) {
            const char *name = at;
            while (is_in_word(*at)) {
                at++;
            }
            if (*at == ':') {
                row++;
            } else if (has_number) {
                append(column_of(table, name, (size_t)(at - name)), row, digits, is_negative);
                terms++;
            }
            has_number = false;
            is_negative = false;
        } else {
            is_negative = *at == '-' || (is_negative && *at == ' ');
            at++;
        }
    }
    return terms;
}

static void drop(Table *table) {
    for (size_t i = 0; i < table->len; i++) {
        free(table->columns[i].name);
        free(table->columns[i].cells);
    }
    free(table->columns);
    free(table->places);
}

static char *input(size_t *len) {
    char *text = NULL;
    size_t room = 0;
    *len = 0;
    do {
        room = room == 0 ? 1 << 20 : 2 * room;
        text = grown(text, room);
        *len += fread(text + *len, 1, room - 1 - *len, stdin);
    } while (*len == room - 1);
    text[*len] = '\0';
    return text;
}

int main(void) {
    size_t len;
    char *text = input(&len);
    double least = 0;
    for (int round = 0; round < 7; round++) {
        Table table = {0};
        struct timespec start, end;
        clock_gettime(CLOCK_MONOTONIC, &start);
        set_room(&table, 1024);
        size_t terms = read_text(&table, text);
        clock_gettime(CLOCK_MONOTONIC, &end);
        double seconds = (double)(end.tv_sec - start.tv_sec) + (double)(end.tv_nsec - start.tv_nsec) / 1e9;
        if (round == 0) {
            printf("columns %zu coefficients %zu\n", table.len, terms);
        }
        least = round == 0 || seconds < least ? seconds : least;
        drop(&table);
    }
    printf("%.3f s, %.1f MB/s\n", least, (double)len / least / 1e6);
    free(text);
    return 0;
}
