/* The list call on long lists, with an output of exactly the size that the header gives and one byte short: the answer,
   the items, the tables, and that every byte behind the items and, on a refusal, everything is as it was. Items and
   tables are compared with those of one call a line. */
#include "thompson.h"

#include <stdio.h>
#include <stdlib.h>
#include <string.h>
#include <time.h>

#define MOST 100000000
#define BYTE 0xEE
#define ENTRY 0xA5A5
static uint8_t list[MOST], record[THOMPSON_RECORD(THOMPSON_LIMIT)], *records;
static uint16_t tables[2][2][THOMPSON_FULL_TABLE]; /* by the list call and by one call a line; b and a */
static int cases, right;

/* The lines of the list, and their bytes without the ends. */
static void count(size_t n, size_t *lines, size_t *bytes) {
    size_t ends = 0;
    for (size_t i = 0; i < n; i++) ends += list[i] == '\n';
    *lines = ends + (n > 0 && list[n - 1] != '\n');
    *bytes = n - ends;
}

static thompson_answer call(size_t n, size_t size) {
    return thompson_list_to_records(list, n, tables[0][0], THOMPSON_FULL_TABLE, tables[0][1], THOMPSON_FULL_TABLE,
                                    records, size);
}

/* Whether all bytes from a place on are as before the call. */
static int kept(size_t from, size_t size) {
    for (size_t i = from; i < size; i++)
        if (records[i] != BYTE) return 0;
    return 1;
}

/* The item of a line, by one call; its bytes. */
static size_t put_item(const uint8_t *line, size_t n, uint8_t item[sizeof record]) {
    thompson_answer answer =
        thompson_word_to_record(line, n, tables[1][0], THOMPSON_FULL_TABLE, tables[1][1], THOMPSON_FULL_TABLE, item,
                                sizeof record);
    if (answer.refusal == 0) return answer.value;
    const uint8_t refused[THOMPSON_REFUSED_ITEM] = {THOMPSON_REFUSED_TAG, 0, 3, answer.refusal, answer.value >> 8,
                                                    answer.value & 255};
    memcpy(item, refused, sizeof refused);
    return sizeof refused;
}

/* Whether the items are those of one call a line; where they end. */
static int items(size_t n, size_t *end) {
    *end = 0;
    for (size_t at = 0; at < n;) {
        const uint8_t *feed = memchr(list + at, '\n', n - at);
        size_t length = feed ? (size_t)(feed - (list + at)) : n - at;
        size_t size = put_item(list + at, length, record);
        if (memcmp(records + *end, record, size) != 0) return 0;
        *end += size;
        at += length + 1;
    }
    return 1;
}

static void try_list(const char *what, size_t n) {
    size_t lines, bytes, end;
    count(n, &lines, &bytes);
    size_t size = THOMPSON_LIST(lines, bytes);
    records = malloc(size + 1);
    if (!records) exit(1);
    memset(records, BYTE, size + 1);
    for (size_t i = 0; i < THOMPSON_FULL_TABLE; i++)
        tables[0][0][i] = tables[0][1][i] = tables[1][0][i] = tables[1][1][i] = ENTRY;
    int good = 1;
    if (size > 0) {
        thompson_answer shorter = call(n, size - 1);
        good = shorter.refusal == THOMPSON_SHORT_BUFFER && shorter.value == 0 && kept(0, size + 1) &&
               memcmp(tables[0], tables[1], sizeof tables[0]) == 0;
    }
    clock_t start = clock();
    thompson_answer answer = call(n, size);
    double seconds = (double)(clock() - start) / CLOCKS_PER_SEC;
    good = good && answer.refusal == 0 && items(n, &end) && answer.value == end && kept(end, size + 1) &&
           memcmp(tables[0], tables[1], sizeof tables[0]) == 0;
    printf("  %-44s %10zu lines %10zu bytes out %6.3f s %s\n", what, lines, (size_t)answer.value, seconds,
           good ? "right" : "WRONG");
    free(records);
    cases++;
    right += good;
}

/* A million lines of one byte. */
static void million(const char *what, uint8_t byte) {
    for (size_t i = 0; i < 2000000; i++) list[i] = i % 2 ? '\n' : byte;
    try_list(what, 2000000);
}

int main(void) {
    try_list("no list", 0);
    memset(list, 'a', MOST);
    try_list("a line of 100 MB, unended", MOST);
    list[MOST - 1] = '\n';
    try_list("a line of 100 MB", MOST);
    memset(list, '\n', 1000000);
    try_list("a million empty lines", 1000000);
    million("a million lines of a letter", 'b');
    million("a million lines of CR", '\r');
    million("a million lines of NUL", 0);
    million("a million lines of a byte above 7F", 0xFF);
    uint64_t state = 1;
    for (size_t i = 0; i < MOST; i++) {
        state = state * 6364136223846793005u + 1442695040888963407u;
        list[i] = state >> 56;
    }
    try_list("100 MB of any bytes", MOST);
    for (size_t i = 0; i < MOST; i++) list[i] = "aAbB\n"[list[i] % 64 == 0 ? 4 : list[i] & 3];
    try_list("100 MB of letters, short lines", MOST);
    printf("  %d of %d right\n", right, cases);
    return right != cases;
}
