/* A program in C over libthompson.a: for each word on the command line its record, its tree pair, the tree T+ packed
   with its carets, its end and a caret grown at its first leaf, its length and the same by Table 1, a word that the
   record spells, its text in subscript notation, and its entry in a register of the words before it, each word with a
   holder of its own; then whether each word and the one before it are the same, inverse or different, and the records
   of all words in one call.
       words abA ba */
#include "thompson.h"

#include <inttypes.h>
#include <stdio.h>
#include <stdlib.h>
#include <string.h>

static uint16_t b_table[THOMPSON_TABLE(THOMPSON_LIMIT)], a_table[THOMPSON_TABLE(THOMPSON_LIMIT)];
static uint8_t record[THOMPSON_RECORD(THOMPSON_LIMIT)], letters[THOMPSON_LIMIT], text[THOMPSON_TEXT(THOMPSON_LIMIT)];
static uint8_t t_minus[THOMPSON_SHAPE(THOMPSON_CARETS)], t_plus[THOMPSON_SHAPE(THOMPSON_CARETS)];
static uint64_t numbers[THOMPSON_NUMBERS(THOMPSON_CARETS)];
static uint16_t summary[THOMPSON_NUMBERS(THOMPSON_CARETS)];

/* A fresh register: the first field, and a byte 00 behind it. */
static uint8_t filed[THOMPSON_REGISTER_MOST] = {0x10, 0, 4};

/* Whether the call was accepted; else its refusal is printed. */
static int accepted(const char *what, thompson_answer answer) {
    if (answer.refusal == THOMPSON_ACCEPTED) return 1;
    printf("  %s: refused %" PRIu64 ", place %" PRIu64 "\n", what, answer.refusal, answer.value);
    return 0;
}

static void print_hexadecimal(const char *what, const uint8_t *bytes, size_t n) {
    printf("  %s ", what);
    for (size_t i = 0; i < n; i++) printf("%02x", bytes[i]);
    printf("\n");
}

static void print_shape(const char *what, const uint8_t *shape, size_t carets) {
    printf("  %s ", what);
    for (size_t i = 0; i < THOMPSON_SHAPE(carets); i++) printf("%d", shape[i]);
    printf("\n");
}

/* A shape packed, the carets before its last node, where its first node's subtree ends, and the shape with a caret
   grown at its first leaf. */
static void print_packed(const uint8_t *shape, size_t carets) {
    const size_t n = THOMPSON_NUMBERS(THOMPSON_CARETS), last = THOMPSON_SHAPE(carets) - 1;
    thompson_answer packed = thompson_pack_shape(shape, THOMPSON_SHAPE(carets), numbers, n, summary, n);
    if (!accepted("packed", packed)) return;
    printf("  packed");
    for (size_t i = 0; i < packed.value; i++) printf(" %016" PRIx64 ":%d", numbers[i], summary[i]);
    printf("\n");
    thompson_answer before = thompson_carets_before(numbers, n, summary, n, last);
    if (accepted("carets before", before)) printf("  before the last node %" PRIu64 "\n", before.value);
    thompson_answer end = thompson_subtree_end(numbers, n, summary, n, 0);
    if (accepted("subtree end", end)) printf("  end of node 0 at %" PRIu64 "\n", end.value);
    thompson_answer grown = thompson_grow_caret(numbers, n, summary, n, 0);
    if (!accepted("grown", grown)) return;
    thompson_answer unpacked = thompson_unpack_shape(numbers, n, summary, n, t_minus, sizeof t_minus);
    if (accepted("unpacked", unpacked)) print_shape("grown", t_minus, unpacked.value / 2);
}

static void print_word(const char *word, uint16_t holder) {
    printf("word %s\n", word);
    thompson_answer written =
        thompson_word_to_record((const uint8_t *)word, strlen(word), b_table, sizeof b_table / sizeof *b_table, a_table,
                                sizeof a_table / sizeof *a_table, record, sizeof record);
    if (!accepted("record", written)) return;
    print_hexadecimal("record", record, written.value);
    thompson_answer pair =
        thompson_record_to_tree_pair(record, written.value, t_minus, sizeof t_minus, t_plus, sizeof t_plus);
    if (accepted("tree pair", pair)) {
        printf("  carets %" PRIu64 "\n", pair.value);
        print_shape("T-", t_minus, pair.value);
        print_shape("T+", t_plus, pair.value);
        print_packed(t_plus, pair.value);
    }
    thompson_answer length = thompson_record_to_length(record, written.value);
    if (accepted("length", length)) printf("  length %" PRIu64 "\n", length.value);
    thompson_answer labels = thompson_record_to_label_length(record, written.value);
    if (accepted("length by Table 1", labels)) printf("  by Table 1 %" PRIu64 "\n", labels.value);
    thompson_answer spelled = thompson_record_to_word(record, written.value, letters, sizeof letters);
    if (accepted("spelling", spelled)) printf("  spelled %.*s\n", (int)spelled.value, (const char *)letters);
    thompson_answer noted = thompson_record_to_text(record, written.value, text, sizeof text);
    if (accepted("text", noted)) printf("  text %.*s\n", (int)noted.value, (const char *)text);
    thompson_filing filing =
        thompson_enter_word((const uint8_t *)word, strlen(word), b_table, sizeof b_table / sizeof *b_table, a_table,
                            sizeof a_table / sizeof *a_table, record, sizeof record, holder, filed, sizeof filed);
    if (accepted("entry", (thompson_answer){filing.refusal, filing.value}))
        printf("  entry %" PRIu64 " %s\n", filing.value, filing.present ? "present" : "new");
}

/* Whether two words are the same, inverse or different. */
static void print_verdict(const char *first, const char *second) {
    static const char *const names[] = {
        [THOMPSON_DIFFERENT] = "different", [THOMPSON_SAME] = "same", [THOMPSON_INVERSE] = "inverse"};
    static uint16_t b_table2[THOMPSON_FULL_TABLE], a_table2[THOMPSON_FULL_TABLE];
    static uint8_t record2[THOMPSON_RECORD(THOMPSON_LIMIT)];
    thompson_answer verdict = thompson_same_element(
        (const uint8_t *)first, strlen(first), b_table, THOMPSON_FULL_TABLE, a_table, THOMPSON_FULL_TABLE, record,
        sizeof record, (const uint8_t *)second, strlen(second), b_table2, THOMPSON_FULL_TABLE, a_table2,
        THOMPSON_FULL_TABLE, record2, sizeof record2);
    printf("  %s, %s: ", first, second);
    if (verdict.refusal == THOMPSON_ACCEPTED)
        printf("%s\n", names[verdict.value]);
    else
        printf("the %s is refused %" PRIu64 ", place %" PRIu64 "\n", verdict.refusal < 256 ? "first" : "second",
               verdict.refusal % 256, verdict.value);
}

/* The bytes of a field, with its tag and its length. */
static size_t field_size(const uint8_t *field) { return 3 + 256 * (size_t)field[1] + field[2]; }

/* Prints an item of a list, and gives its bytes: six for a refused word, else the two fields of a record. */
static size_t print_item(const uint8_t *item) {
    if (item[0] == THOMPSON_REFUSED_TAG) {
        printf("  refused %d, place %d\n", item[3], 256 * item[4] + item[5]);
        return THOMPSON_REFUSED_ITEM;
    }
    size_t first = field_size(item), n = first + field_size(item + first);
    print_hexadecimal("record", item, n);
    return n;
}

/* All words in one call, each a line of a list; the output is gone through by its tags. */
static void print_list(char **words, size_t count) {
    size_t bytes = 0, end = 0;
    for (size_t i = 0; i < count; i++) bytes += strlen(words[i]);
    uint8_t *list = malloc(bytes + count + 1), *records = malloc(THOMPSON_LIST(count, bytes) + 1);
    if (!list || !records) exit(1);
    for (size_t i = 0; i < count; i++) {
        memcpy(list + end, words[i], strlen(words[i]));
        end += strlen(words[i]);
        list[end++] = '\n';
    }
    thompson_answer listed = thompson_list_to_records(list, end, b_table, THOMPSON_FULL_TABLE, a_table,
                                                      THOMPSON_FULL_TABLE, records, THOMPSON_LIST(count, bytes));
    printf("list\n");
    if (accepted("records", listed))
        for (size_t at = 0; at < listed.value;) at += print_item(records + at);
    free(list);
    free(records);
}

int main(int argc, char **argv) {
    for (int i = 1; i < argc; i++) print_word(argv[i], (uint16_t)i);
    if (argc > 2) printf("verdicts\n");
    for (int i = 2; i < argc; i++) print_verdict(argv[i - 1], argv[i]);
    if (argc > 1) print_list(argv + 1, (size_t)argc - 1);
    return 0;
}
