/* The edges of the calls: null pointers with length 0, and the sizes that the header gives, each exact and one short.
   Each row prints the answer and whether it is the one that is wanted; the program ends with 1 where a row is wrong. */
#include "thompson.h"

#include <inttypes.h>
#include <stdio.h>
#include <string.h>

static const uint8_t identity[6] = {1, 0, 0, 2, 0, 0};
static char text[THOMPSON_TEXT(THOMPSON_LIMIT)];
static uint8_t word[THOMPSON_LIMIT + 1], record[THOMPSON_RECORD(THOMPSON_LIMIT)], record2[sizeof record];
static uint16_t b_table[THOMPSON_TABLE(THOMPSON_LIMIT)], a_table[THOMPSON_TABLE(THOMPSON_LIMIT)];
static uint16_t b_table2[THOMPSON_FULL_TABLE], a_table2[THOMPSON_FULL_TABLE];
static uint8_t t_minus[THOMPSON_SHAPE(THOMPSON_CARETS)], t_plus[THOMPSON_SHAPE(THOMPSON_CARETS)];
static uint8_t filed[THOMPSON_REGISTER_MOST + 1], records[THOMPSON_LIST(2, 2 * THOMPSON_LIMIT + 1)];
static uint64_t numbers[THOMPSON_NUMBERS(THOMPSON_CARETS)];
static uint16_t summary[THOMPSON_NUMBERS(THOMPSON_CARETS)];
static int wrong;

static void row(const char *what, thompson_answer answer, uint64_t refusal, uint64_t value) {
    int right = answer.refusal == refusal && answer.value == value;
    printf("  %-44s %" PRIu64 " %" PRIu64 " %s\n", what, answer.refusal, answer.value, right ? "right" : "WRONG");
    if (!right) wrong = 1;
}

/* Null for each slice that may be empty. */
static void null_pointers(void) {
    printf("null pointers with length 0: refusal, value\n");
    row("word to record, no word", thompson_word_to_record(0, 0, b_table, 1, a_table, 1, record, 6), 0, 6);
    row("word to record, no table", thompson_word_to_record(0, 0, 0, 0, 0, 0, record, 6), 6, 0);
    row("word to record, no buffer", thompson_word_to_record(0, 0, b_table, 1, a_table, 1, 0, 0), 7, 0);
    row("record check, no record", thompson_check_record(0, 0), 3, 0);
    row("record to word, no record", thompson_record_to_word(0, 0, 0, 0), 3, 0);
    row("record to word, identity, no buffer", thompson_record_to_word(identity, 6, 0, 0), 0, 0);
    row("text to record, no text",
        thompson_text_to_record(0, 0, b_table, THOMPSON_FULL_TABLE, a_table, THOMPSON_FULL_TABLE, record, 6), 0, 6);
    row("text to record, no table", thompson_text_to_record(0, 0, 0, 0, 0, 0, record, 6), 6, 0);
    row("text to record, no buffer",
        thompson_text_to_record(0, 0, b_table, THOMPSON_FULL_TABLE, a_table, THOMPSON_FULL_TABLE, 0, 0), 7, 0);
    row("record to text, no record", thompson_record_to_text(0, 0, 0, 0), 3, 0);
    row("record to text, identity, no buffer", thompson_record_to_text(identity, 6, 0, 0), 0, 0);
    row("record to tree pair, no record", thompson_record_to_tree_pair(0, 0, 0, 0, 0, 0), 3, 0);
    row("record to tree pair, identity, no buffers", thompson_record_to_tree_pair(identity, 6, 0, 0, 0, 0), 7, 0);
    row("record to length, no record", thompson_record_to_length(0, 0), 3, 0);
    row("record to label length, no record", thompson_record_to_label_length(0, 0), 3, 0);
    row("two words, no words",
        thompson_same_element(0, 0, b_table, 1, a_table, 1, record, 6, 0, 0, b_table2, 1, a_table2, 1, record2, 6), 0,
        THOMPSON_SAME);
    row("two words, nothing for the second",
        thompson_same_element(0, 0, b_table, 1, a_table, 1, record, 6, 0, 0, 0, 0, 0, 0, 0, 0), 256 + 6, 0);
}

/* A filing, as the others and with `present`. */
static void filing_row(const char *what, thompson_filing answer, uint64_t refusal, uint64_t value, uint64_t present) {
    int right = answer.refusal == refusal && answer.value == value && answer.present == present && answer.word == 0;
    printf("  %-44s %" PRIu64 " %" PRIu64 " %" PRIu64 " %s\n", what, answer.refusal, answer.value, answer.present,
           right ? "right" : "WRONG");
    if (!right) wrong = 1;
}

/* A word of n letters, with tables and a buffer that are so many elements short. */
static thompson_answer sent(size_t n, size_t b_short, size_t a_short, size_t record_short) {
    return thompson_word_to_record(word, n, b_table, THOMPSON_TABLE(n) - b_short, a_table, THOMPSON_TABLE(n) - a_short,
                                   record, THOMPSON_RECORD(n) - record_short);
}

/* A record with one power of x_LIMIT on its b side. */
static size_t put_power(size_t exponent) {
    const uint8_t index[2] = {THOMPSON_LIMIT >> 8, THOMPSON_LIMIT & 255};
    const uint8_t bytes[10] = {1, 0, 4, index[0], index[1], exponent >> 8, exponent & 255, 2, 0, 0};
    memcpy(record, bytes, sizeof bytes);
    return sizeof bytes;
}

static thompson_answer pair(size_t n, size_t minus_short, size_t plus_short) {
    return thompson_record_to_tree_pair(record, n, t_minus, sizeof t_minus - minus_short, t_plus,
                                        sizeof t_plus - plus_short);
}

/* The sizes of the header. */
static void sizes(void) {
    memset(word, 'a', sizeof word);
    printf("the sizes of the header: refusal, value\n");
    row("a word of THOMPSON_LIMIT letters", sent(THOMPSON_LIMIT, 0, 0, 0), 0, 10);
    row("one letter more", thompson_word_to_record(word, THOMPSON_LIMIT + 1, b_table, 0, a_table, 0, record, 0), 1,
        THOMPSON_LIMIT);
    row("the b table one entry short", sent(THOMPSON_LIMIT, 1, 0, 0), 6, 0);
    row("the a table one entry short", sent(THOMPSON_LIMIT, 0, 1, 0), 6, 0);
    row("the record buffer one byte short", sent(THOMPSON_LIMIT, 0, 0, 1), 7, 0);
    row("the spelling of THOMPSON_LIMIT letters",
        thompson_record_to_word(record, sent(THOMPSON_LIMIT, 0, 0, 0).value, word, THOMPSON_LIMIT), 0, THOMPSON_LIMIT);
    size_t n = put_power(THOMPSON_LIMIT);
    row("THOMPSON_CARETS carets", pair(n, 0, 0), 0, THOMPSON_CARETS);
    row("the first buffer one byte short", pair(n, 1, 0), 7, 0);
    row("the second buffer one byte short", pair(n, 0, 1), 7, 0);
    row("x_LIMIT alone, spelled", thompson_record_to_word(record, put_power(1), word, THOMPSON_LIMIT), 8, 0);
}

/* Two words of n letters each, the first all one letter and the second all another. */
static thompson_answer verdict(size_t n, char first, char second) {
    static uint8_t word2[THOMPSON_LIMIT + 1];
    memset(word, first, sizeof word);
    memset(word2, second, sizeof word2);
    return thompson_same_element(word, n, b_table, THOMPSON_FULL_TABLE, a_table, THOMPSON_FULL_TABLE, record,
                                 sizeof record, word2, n, b_table2, THOMPSON_FULL_TABLE, a_table2, THOMPSON_FULL_TABLE,
                                 record2, sizeof record2);
}

/* The three verdicts, and the limit. */
static void verdicts(void) {
    printf("two words: refusal, value\n");
    row("a and a", verdict(1, 'a', 'a'), 0, THOMPSON_SAME);
    row("a and A", verdict(1, 'a', 'A'), 0, THOMPSON_INVERSE);
    row("a and b", verdict(1, 'a', 'b'), 0, THOMPSON_DIFFERENT);
    row("a and B", verdict(1, 'a', 'B'), 0, THOMPSON_DIFFERENT);
    row("no letters", verdict(0, 'a', 'A'), 0, THOMPSON_SAME);
    row("THOMPSON_LIMIT letters a, and A", verdict(THOMPSON_LIMIT, 'a', 'A'), 0, THOMPSON_INVERSE);
    row("one letter more", verdict(THOMPSON_LIMIT + 1, 'a', 'A'), 1, THOMPSON_LIMIT);
    row("the second no letter", verdict(1, 'a', 'x'), 256 + 2, 0);
}

/* A text whose exponents' sizes sum to n, with tables and a buffer that are so many elements short. */
static thompson_answer text_sent(size_t n, size_t b_short, size_t a_short, size_t record_short) {
    return thompson_text_to_record((const uint8_t *)text, strlen(text), b_table, THOMPSON_FULL_TABLE - b_short, a_table,
                                   THOMPSON_FULL_TABLE - a_short, record, THOMPSON_RECORD(n) - record_short);
}

/* The same with nothing lent. */
static thompson_answer text_alone(void) {
    return thompson_text_to_record((const uint8_t *)text, strlen(text), 0, 0, 0, 0, 0, 0);
}

/* The inverses of x_LIMIT to x_1, as a text; its bytes. */
static size_t put_inverses(void) {
    size_t n = 0;
    for (unsigned i = THOMPSON_LIMIT; i > 0; i--) n += sprintf(text + n, i > 1 ? "x%u^-1 " : "x%u^-1", i);
    return n;
}

/* A record into a text buffer of n bytes. */
static thompson_answer text_back(size_t record_bytes, size_t n) {
    return thompson_record_to_text(record, record_bytes, (uint8_t *)text, n);
}

/* The sizes of the header, for texts. */
static void text_sizes(void) {
    printf("the sizes of the header, texts: refusal, value\n");
    sprintf(text, "x0^%d", THOMPSON_LIMIT);
    row("an exponent of THOMPSON_LIMIT", text_sent(THOMPSON_LIMIT, 0, 0, 0), 0, 10);
    row("the b table of THOMPSON_LIMIT entries", text_sent(THOMPSON_LIMIT, 1, 0, 0), 6, 0);
    row("the a table of THOMPSON_LIMIT entries", text_sent(THOMPSON_LIMIT, 0, 1, 0), 6, 0);
    row("the record buffer one byte short", text_sent(THOMPSON_LIMIT, 0, 0, 1), 7, 0);
    sprintf(text, "x0^%d x0", THOMPSON_LIMIT);
    row("one more in all, nothing lent", text_alone(), 10, 0);
    sprintf(text, "x1 x1^-1");
    row("x1 and its inverse", text_sent(2, 0, 0, 0), 0, 6);
    row("the record buffer one byte short", text_sent(2, 0, 0, 1), 7, 0);
    sprintf(text, "x0 x%d", THOMPSON_LIMIT);
    row("x0 and x_LIMIT", text_sent(2, 0, 0, 0), 0, 14);
    sprintf(text, "x%d x0", THOMPSON_LIMIT);
    row("x_LIMIT and x0, nothing lent", text_alone(), 11, 0);
    sprintf(text, "x0 x%d", THOMPSON_LIMIT + 1);
    row("an index above THOMPSON_LIMIT, nothing lent", text_alone(), 9, 3);
    size_t n = put_inverses();
    uint64_t all = text_sent(THOMPSON_LIMIT, 0, 0, 0).value;
    row("THOMPSON_LIMIT tokens", text_sent(THOMPSON_LIMIT, 0, 0, 0), 0, THOMPSON_RECORD(THOMPSON_LIMIT));
    row("their record in a text buffer of their size", text_back(all, n), 0, n);
    row("the text buffer one byte short", text_back(all, n - 1), 7, 0);
}

/* A list, with tables and an output that are so many elements short of its lines and bytes. */
static thompson_answer list_sent(const char *list, size_t lines, size_t bytes, size_t b_short, size_t a_short,
                                 size_t short_by) {
    return thompson_list_to_records((const uint8_t *)list, strlen(list), b_table, THOMPSON_FULL_TABLE - b_short,
                                    a_table, THOMPSON_FULL_TABLE - a_short, records,
                                    THOMPSON_LIST(lines, bytes) - short_by);
}

/* The sizes of the header, for lists. */
static void list_sizes(void) {
    static char list[2 * THOMPSON_LIMIT + 4];
    printf("lists: refusal, value\n");
    row("nothing lent", thompson_list_to_records(0, 0, 0, 0, 0, 0, 0, 0), 6, 0);
    row("no list and no output", list_sent("", 0, 0, 0, 0, 0), 0, 0);
    row("no list, the a table one entry short", list_sent("", 0, 0, 0, 1, 0), 6, 0);
    row("an empty line", list_sent("\n", 1, 0, 0, 0, 0), 0, 6);
    row("the output one byte short", list_sent("\n", 1, 0, 0, 0, 1), 7, 0);
    row("a refused word alone", list_sent("x", 1, 1, 0, 0, 0), 0, THOMPSON_REFUSED_ITEM);
    row("the output one byte short", list_sent("x", 1, 1, 0, 0, 1), 7, 0);
    row("three lines", list_sent("ba\naxb\nA\n", 3, 6, 0, 0, 0), 0, 14 + THOMPSON_REFUSED_ITEM + 10);
    row("the last one unended", list_sent("ba\naxb\nA", 3, 6, 0, 0, 0), 0, 14 + THOMPSON_REFUSED_ITEM + 10);
    row("the b table one entry short", list_sent("ba\naxb\nA\n", 3, 6, 1, 0, 0), 6, 0);
    row("the a table one entry short", list_sent("ba\naxb\nA\n", 3, 6, 0, 1, 0), 6, 0);
    row("the output one byte short", list_sent("ba\naxb\nA\n", 3, 6, 0, 0, 1), 7, 0);
    memset(list, 'a', THOMPSON_LIMIT);
    memset(list + THOMPSON_LIMIT + 1, 'a', THOMPSON_LIMIT + 1);
    list[THOMPSON_LIMIT] = '\n';
    row("THOMPSON_LIMIT letters, then one more", list_sent(list, 2, 2 * THOMPSON_LIMIT + 1, 0, 0, 0), 0,
        10 + THOMPSON_REFUSED_ITEM);
    row("the output one byte short", list_sent(list, 2, 2 * THOMPSON_LIMIT + 1, 0, 0, 1), 7, 0);
}

/* A fresh register of n bytes. */
static void put_fresh(size_t n) {
    memset(filed, 0, n);
    filed[0] = 0x10;
    filed[2] = 4;
}

/* The word of n letters at the front of `word`, filed under a holder into a register of so many bytes. */
static thompson_filing file(size_t n, uint16_t holder, size_t bytes) {
    return thompson_enter_word(word, n, b_table, THOMPSON_TABLE(n), a_table, THOMPSON_TABLE(n), record,
                               THOMPSON_RECORD(n), holder, filed, bytes);
}

/* The sizes of the header, for registers. */
static void register_sizes(void) {
    const size_t entry = THOMPSON_ENTRY(10), one = THOMPSON_REGISTER_FIRST + entry;
    const uint8_t greater[10] = {1, 0, 4, 0, 0, 0, 1, 2, 0, 0};
    printf("registers: refusal, value, and for a filing whether the element was present\n");
    memset(word, 'a', sizeof word);
    row("register check, no register", thompson_check_register(0, 0), 12, 0);
    row("live entries, no register", thompson_live_entries(0, 0, 0), 12, 0);
    filing_row("a filing, nothing lent", thompson_enter_word(0, 0, 0, 0, 0, 0, 0, 0, 0, 0, 0), 6, 0, 0);
    filing_row("a filing, no register", file(1, 0, 0), 12, 0, 0);
    put_fresh(one);
    row("a fresh register", thompson_check_register(filed, THOMPSON_REGISTER_FIRST), 0, 0);
    filing_row("no room for the entry of one power", file(1, 9, one - 1), 14, 0, 0);
    filing_row("room for it and no more", file(1, 9, one), 0, 1, 0);
    filing_row("the same again", file(1, 8, one), 0, 1, 1);
    memset(word, 'A', 1);
    filing_row("its inverse", file(1, 8, one), 0, 1, 1);
    memset(word, 'a', 1);
    memcpy(filed + one - sizeof greater, greater, sizeof greater);
    row("the greater record in its entry", thompson_check_register(filed, one), 12, 0);
    put_fresh(one);
    file(1, 9, one);
    row("live entries of its holder", thompson_live_entries(filed, one, 9), 0, 1);
    row("live entries of the other", thompson_live_entries(filed, one, 8), 0, 0);
    put_fresh(THOMPSON_REGISTER_MOST + 1);
    filing_row("THOMPSON_REGISTER_MOST bytes", file(1, 65535, THOMPSON_REGISTER_MOST), 0, 1, 0);
    filing_row("one byte more", file(1, 65535, THOMPSON_REGISTER_MOST + 1), 12, 0, 0);
    row("register check of as many", thompson_check_register(filed, THOMPSON_REGISTER_MOST + 1), 12, 0);
    for (size_t n = 2; n <= 4; n++) file(n, 65535, THOMPSON_REGISTER_MOST);
    row("four entries of a holder", thompson_live_entries(filed, THOMPSON_REGISTER_MOST, 65535), 0, 4);
    filing_row("a fifth", file(5, 65535, THOMPSON_REGISTER_MOST), 13, 0, 0);
    filing_row("the fifth under another holder", file(5, 0, THOMPSON_REGISTER_MOST), 0, 5, 0);
    filing_row("a filing of THOMPSON_LIMIT letters", file(THOMPSON_LIMIT, 1, THOMPSON_REGISTER_MOST), 0, 6, 0);
}

/* A left spine of so many carets as a shape, T-, and packed with so many numbers and entries lent. */
static thompson_answer spine(size_t carets, size_t numbers_size, size_t entries) {
    memset(t_minus, 0, sizeof t_minus);
    memset(t_minus, 1, carets);
    return thompson_pack_shape(t_minus, THOMPSON_SHAPE(carets), numbers, numbers_size, summary, entries);
}

/* The two questions about the spine of so many carets, and a caret grown on it, with all its elements lent. */
static thompson_answer before(size_t carets, uint64_t node) {
    return thompson_carets_before(numbers, THOMPSON_NUMBERS(carets), summary, THOMPSON_NUMBERS(carets), node);
}

static thompson_answer end(size_t carets, uint64_t node) {
    return thompson_subtree_end(numbers, THOMPSON_NUMBERS(carets), summary, THOMPSON_NUMBERS(carets), node);
}

static thompson_answer grown(size_t numbers_size, size_t entries, uint64_t leaf) {
    return thompson_grow_caret(numbers, numbers_size, summary, entries, leaf);
}

/* Packed shapes with nothing lent, and with exact room and one short: 31 carets take one number, 32 take two. */
static void packed_sizes(void) {
    const size_t one = THOMPSON_NUMBERS(31), two = THOMPSON_NUMBERS(32);
    printf("packed shapes: refusal, value\n");
    row("pack, nothing lent", thompson_pack_shape(0, 0, 0, 0, 0, 0), 15, 0);
    row("unpack, nothing lent", thompson_unpack_shape(0, 0, 0, 0, 0, 0), 15, 0);
    row("carets before, nothing lent", thompson_carets_before(0, 0, 0, 0, 0), 15, 0);
    row("subtree end, nothing lent", thompson_subtree_end(0, 0, 0, 0, 0), 15, 0);
    row("grow, nothing lent", thompson_grow_caret(0, 0, 0, 0, 0), 15, 0);
    row("pack a leaf, no numbers", thompson_pack_shape((const uint8_t *)"", 1, 0, 0, 0, 0), 7, 0);
    row("pack 32 carets, a number short", spine(32, two - 1, two), 7, 0);
    row("an entry short", spine(32, two, two - 1), 7, 0);
    row("pack 31 carets, exact room", spine(31, one, one), 0, one);
    row("unpack, a byte short", thompson_unpack_shape(numbers, one, summary, one, t_plus, THOMPSON_SHAPE(31) - 1), 7,
        0);
    row("unpack, exact room", thompson_unpack_shape(numbers, one, summary, one, t_plus, THOMPSON_SHAPE(31)), 0,
        THOMPSON_SHAPE(31));
    row("grow, a number short", grown(one, two, 31), 7, 0);
    row("grow, an entry short", grown(two, one, 31), 7, 0);
    row("grow, exact room", grown(two, two, 31), 0, two);
    row("carets before the last node", before(32, THOMPSON_SHAPE(32) - 1), 0, 32);
    row("a summary one entry short", thompson_carets_before(numbers, two, summary, two - 1, 0), 15, 0);
}

/* Nodes and leaves up to the highest number, and the most carets. */
static void packed_limits(void) {
    const size_t n = THOMPSON_NUMBERS(THOMPSON_CARETS), last = THOMPSON_SHAPE(THOMPSON_CARETS) - 1;
    printf("packed shapes at the limits: refusal, value\n");
    row("THOMPSON_CARETS - 1 carets", spine(THOMPSON_CARETS - 1, n, n), 0, n);
    row("a leaf too high", grown(n, n, THOMPSON_CARETS), 15, 0);
    row("leaf 65536", grown(n, n, 65536), 15, 0);
    row("leaf UINT64_MAX", grown(n, n, UINT64_MAX), 15, 0);
    row("the last leaf", grown(n, n, THOMPSON_CARETS - 1), 0, n);
    row("leaf 0 of THOMPSON_CARETS carets", grown(n, n, 0), 15, 0);
    row("carets before the last node", before(THOMPSON_CARETS, last), 0, THOMPSON_CARETS);
    row("the node behind it", before(THOMPSON_CARETS, last + 1), 15, 0);
    row("node UINT64_MAX", before(THOMPSON_CARETS, UINT64_MAX), 15, 0);
    row("end of node 0", end(THOMPSON_CARETS, 0), 0, last + 1);
    row("end of the last node", end(THOMPSON_CARETS, last), 0, last + 1);
    row("end of the node behind it", end(THOMPSON_CARETS, last + 1), 15, 0);
    row("end of node UINT64_MAX", end(THOMPSON_CARETS, UINT64_MAX), 15, 0);
    row("unpack THOMPSON_CARETS carets", thompson_unpack_shape(numbers, n, summary, n, t_plus, sizeof t_plus), 0,
        sizeof t_plus);
    row("THOMPSON_CARETS carets", spine(THOMPSON_CARETS, n, n), 0, n);
    row("their numbers one short", spine(THOMPSON_CARETS, n - 1, n), 7, 0);
}

/* The shape of one caret too many, with nothing lent. */
static void packed_above(void) {
    static uint8_t shape[THOMPSON_SHAPE(THOMPSON_CARETS + 1)];
    memset(shape, 1, THOMPSON_CARETS + 1);
    row("one caret more, nothing lent", thompson_pack_shape(shape, sizeof shape, 0, 0, 0, 0), 15, 0);
}

int main(void) {
    null_pointers();
    sizes();
    verdicts();
    text_sizes();
    list_sizes();
    register_sizes();
    packed_sizes();
    packed_limits();
    packed_above();
    return wrong;
}
