/* Thompson's group F: each element listed once. The calls of libthompson.a, which `make` proves and
   builds, for C and for anything that can call C on x86-64.

   Every call answers two numbers by value, a filing four. `refusal` is 0 where the call was accepted, and `value` is
   then what the call answers; else `refusal` is the number of the refusal and `value` its place, and every byte that
   was lent is as it was before the call. A call asks nothing of the bytes it is given, always returns, and keeps
   nothing: no memory is allocated, no file is touched, nothing is remembered from one call to the next.

   What is proved of each call is its contract (crates/thompson/src/lib.rt) on every input. What no contract can say,
   and the caller must see to, is this:

   1. Each pointer is valid for its length: it points to that many elements, for reading (const) or for reading and
      writing (the others), aligned as the element's type asks, until the call returns. The lengths are counted in
      elements: bytes, 16-bit numbers for tables and summaries, or 64-bit numbers for packed shapes.
   2. What is lent for writing overlaps nothing else that is lent to the same call. What is lent for reading only may
      be the same memory twice.
   3. Nothing else, such as another thread, changes what is lent while the call runs.
   4. There is stack: 900,000 bytes are enough for every call, as measured.

   A pointer with length 0 may be anything, null too: it is never looked through. (This last is tested, in
   examples/run, and not proved.)

   Words are bytes `a`, `A`, `b`, `B`, for x0, its inverse, x1, its inverse; the rightmost letter acts first. A word
   has at most THOMPSON_LIMIT letters. A record is the bytes of a reduced form; each element has one. A text is in
   subscript notation, as in `x0^2 x1 x6 x3^-1 x0^-2`: tokens one space apart, each an `x`, an index and, unless the
   exponent is 1, a `^` and the exponent, which is not 0 and at most THOMPSON_LIMIT in size; decimals without leading
   zeros. An empty token, as in front of a first space, is misspelled; the empty text has none and is the empty word.

   A list has a word a line: byte 0A (hexadecimal) ends a line, and an unended last line counts unless it is empty. Its
   items stand one behind another, in the order of the lines: the record of each word, two fields, or, for a word that
   is refused, a field of six bytes: tag 0F, length 00 03, the refusal's number (1 or 2) and its place in two bytes,
   high byte first. A field is a one-byte tag, a two-byte length, and that many bytes; a record's first tag is 01, its
   second 02.

   A shape has a byte for each node of a tree, 1 for a caret and 0 for a leaf, a node before its left subtree before its
   right one. A packed shape has the same nodes 64 to a number: node i is bit i mod 64, from the lowest on, of number
   i / 64, and the unused bits of the last number are zero. Its summary has an entry for each number: the carets in all
   numbers before it. Numbers behind the last node's, and their entries, mean nothing. Nodes and leaves are counted from
   0, in the order in which the shape is written.

   A register is one buffer of at most THOMPSON_REGISTER_MOST bytes, in which an element and its inverse share one
   entry, numbered in the order of first filing; it stores the smaller, in byte order, of the record and the record with
   its two sides exchanged, the body of its second field in the first and the other way round. It begins with the last
   entry number given: a fresh one has the bytes 10 00 04 00 00 00 00 (hexadecimal), and then ends or has a byte 00. A
   holder, any 16-bit number, has at most four entries. Each call checks all of the register that it is handed. */
#ifndef THOMPSON_H
#define THOMPSON_H

#include <stddef.h>
#include <stdint.h>

#ifdef __cplusplus
extern "C" {
#endif

/* The version of the calls, the refusals and the formats. */
#define THOMPSON_VERSION "0.7.0"

/* The most letters of a word; also the highest index and the highest sum of exponents of a record, and the highest
   index and the highest sum of the sizes of exponents of a text. */
#define THOMPSON_LIMIT 4096

/* The entries that each table needs for a word of n letters, and for any text or list. */
#define THOMPSON_TABLE(n) ((size_t)(n) + 1)
#define THOMPSON_FULL_TABLE THOMPSON_TABLE(THOMPSON_LIMIT)

/* The bytes that the record buffer needs for a word of n letters, or for a text whose exponents' sizes sum to n. */
#define THOMPSON_RECORD(n) (6 + 4 * (size_t)(n))

/* The bytes that the output needs for a list of so many lines, which have so many bytes without their ends; all lines
   count, those that are refused too. The tag and the bytes of the item of a refused word. */
#define THOMPSON_LIST(lines, bytes) (6 * (size_t)(lines) + 4 * (size_t)(bytes))
#define THOMPSON_REFUSED_TAG 0x0F
#define THOMPSON_REFUSED_ITEM 6

/* Bytes that are enough for the text of a record whose exponents sum to n: `x4096^-1` and a space, n times. */
#define THOMPSON_TEXT(n) (9 * (size_t)(n))

/* The most carets of a tree, and the bytes of the shape of a tree with n carets. */
#define THOMPSON_CARETS (2 * THOMPSON_LIMIT + 1)
#define THOMPSON_SHAPE(n) (2 * (size_t)(n) + 1)

/* The numbers of a packed shape with so many carets, and the entries of its summary. */
#define THOMPSON_NUMBERS(carets) ((THOMPSON_SHAPE(carets) + 63) / 64)

/* The most bytes of a register, the bytes of one without entries, and those of an entry with a record of r bytes. */
#define THOMPSON_REGISTER_MOST 65536
#define THOMPSON_REGISTER_FIRST 7
#define THOMPSON_ENTRY(r) (9 + (size_t)(r))

/* Bytes that are enough for a register of k entries, each the element of a word of at most n letters. */
#define THOMPSON_REGISTER(k, n) (THOMPSON_REGISTER_FIRST + (size_t)(k)*THOMPSON_ENTRY(THOMPSON_RECORD(n)))

/* The refusals. The order in which a call tests them stands with the call. */
enum {
    THOMPSON_ACCEPTED = 0,
    THOMPSON_TOO_MANY_LETTERS = 1, /* more letters than the limit; place: the limit */
    THOMPSON_NOT_LETTER = 2,       /* a byte that is no letter; place: the offset of the first */
    THOMPSON_BAD_FRAME = 3,        /* two fields do not frame the record, or a body is no multiple of four; place 0 */
    THOMPSON_BAD_ENTRY = 4,        /* an entry that breaks a rule; place: the offset of the first */
    THOMPSON_NOT_REDUCED = 5,      /* the form is not reduced; place: the smallest index that breaks the clause */
    THOMPSON_SHORT_TABLE = 6,      /* a table too short; place 0 */
    THOMPSON_SHORT_BUFFER = 7,     /* an output buffer too short; place 0 */
    THOMPSON_LONG_SPELLING = 8,    /* the spelling has more letters than the limit; place 0 */
    THOMPSON_MISSPELLED = 9,       /* a misspelled token, or an index above the limit; place: the offset of the first */
    THOMPSON_LARGE_EXPONENTS = 10, /* the sizes of the exponents sum above the limit; place 0 */
    THOMPSON_HIGH_INDEX = 11,      /* the reduced form has an index above the limit; place 0 */
    THOMPSON_BAD_REGISTER = 12,    /* no well-formed register, or too long a one; place 0. A register that stores the
                                      greater of a record and its exchange, as before request [7], is none */
    THOMPSON_HOLDER_FULL = 13,     /* the holder has four entries; place 0 */
    THOMPSON_REGISTER_FULL = 14,   /* the entry does not fit, or its number would pass 4,294,967,295; place 0 */
    THOMPSON_NOT_TREE = 15         /* a shape that is no tree or has or would have more than THOMPSON_CARETS carets, a
                                      wrong or too short summary, or no such node or leaf; place 0 */
};

/* A refusal in words, which stand as long as the program runs. 0 is no refusal; a number with 256 added, as the second
   word of thompson_same_element has it, is named as without. Any number may be asked for. */
static inline const char *thompson_refusal_name(uint64_t number) {
    switch (number > 256 ? number - 256 : number) {
    case THOMPSON_ACCEPTED: return "no refusal";
    case THOMPSON_TOO_MANY_LETTERS: return "more letters than the limit";
    case THOMPSON_NOT_LETTER: return "a byte that is no letter";
    case THOMPSON_BAD_FRAME: return "the two fields do not frame the record";
    case THOMPSON_BAD_ENTRY: return "an entry that breaks a rule";
    case THOMPSON_NOT_REDUCED: return "the form is not reduced";
    case THOMPSON_SHORT_TABLE: return "a table that is too short";
    case THOMPSON_SHORT_BUFFER: return "an output buffer that is too short";
    case THOMPSON_LONG_SPELLING: return "a spelling with more letters than the limit";
    case THOMPSON_MISSPELLED: return "a misspelled token, or an index above the limit";
    case THOMPSON_LARGE_EXPONENTS: return "exponents whose sizes sum above the limit";
    case THOMPSON_HIGH_INDEX: return "a reduced form with an index above the limit";
    case THOMPSON_BAD_REGISTER: return "no well-formed register";
    case THOMPSON_HOLDER_FULL: return "a holder with four entries";
    case THOMPSON_REGISTER_FULL: return "an entry that does not fit the register";
    case THOMPSON_NOT_TREE: return "no tree within the bound, or no such node or leaf";
    default: return "unknown refusal";
    }
}

/* The verdict on two words. */
enum {
    THOMPSON_DIFFERENT = 0, /* neither of the following */
    THOMPSON_SAME = 1,      /* one element */
    THOMPSON_INVERSE = 2    /* two elements, each the inverse of the other */
};

/* A refusal's number and place, or 0 and the call's value. */
typedef struct {
    uint64_t refusal;
    uint64_t value;
} thompson_answer;

/* A filing: a refusal's number and place, or 0 and the entry's number; `present` is 1 where that entry held the element
   or its inverse before, else 0; `word` is the word that this is said of, 0 where one word is filed. */
typedef struct {
    uint64_t refusal;
    uint64_t value;
    uint64_t present;
    uint64_t word;
} thompson_filing;

/* Word to record.
   Lent: the word, n letters; two tables of at least n + 1 entries each; a record buffer of at least 6 + 4 n bytes.
   Value: the bytes of the record, which stand at the front of the buffer. Entry i of the tables, for i up to n, is then
   the exponent of x_i (b table) and of its inverse (a table). Everything beyond is unchanged.
   Refusals, in this order: 1, 2, 6, 7. */
thompson_answer thompson_word_to_record(const uint8_t *word, size_t letters, uint16_t *b_table, size_t b_entries,
                                        uint16_t *a_table, size_t a_entries, uint8_t *record, size_t record_size);

/* Many words in one call: what one call a word gives, with the tables as those calls leave them, one after another.
   Lent: the list, all its bytes; two tables of at least THOMPSON_FULL_TABLE entries each; an output of at least
   THOMPSON_LIST bytes.
   Value: the bytes of the items, which stand at the front of the output; bytes beyond are unchanged, also inside the
   size that the output needs. Entry i of the tables is then that of the last accepted word of at least i letters, or
   as it was where there is none.
   Refusals, in this order, before the first word is read: 6, 7. A refused word refuses nothing but itself. */
thompson_answer thompson_list_to_records(const uint8_t *list, size_t list_size, uint16_t *b_table, size_t b_entries,
                                         uint16_t *a_table, size_t a_entries, uint8_t *records, size_t records_size);

/* Record check. Nothing is written.
   Lent: the record, all its bytes and no more.
   Value: 0.
   Refusals, in this order: 3, 4, 5. */
thompson_answer thompson_check_record(const uint8_t *record, size_t record_size);

/* Record to word: each power of the form in order, through its letters, freely reduced.
   Lent: the record; a buffer with a byte for each letter of the word, THOMPSON_LIMIT bytes at most.
   Value: the number of letters, which stand at the front of the buffer; bytes beyond are unchanged.
   Refusals, in this order: 3, 4, 5, 8, 7. */
thompson_answer thompson_record_to_word(const uint8_t *record, size_t record_size, uint8_t *word, size_t word_size);

/* Text to record.
   Lent: the text, all its bytes; two tables of at least THOMPSON_FULL_TABLE entries each; a record buffer of at least
   6 + 4 n bytes, where n is the sum of the sizes of the exponents.
   Value: the bytes of the record, which stand at the front of the buffer. Entry i of the tables, for i up to
   THOMPSON_LIMIT, is then the exponent of x_i (b table) and of its inverse (a table). Everything beyond is unchanged.
   Refusals, in this order: 9, 10, 11, 6, 7. */
thompson_answer thompson_text_to_record(const uint8_t *text, size_t text_size, uint16_t *b_table, size_t b_entries,
                                        uint16_t *a_table, size_t a_entries, uint8_t *record, size_t record_size);

/* Record to text: a token for each power of the form, in order.
   Lent: the record; a buffer with a byte for each byte of the text, THOMPSON_TEXT(THOMPSON_LIMIT) bytes at most.
   Value: the bytes of the text, which stand at the front of the buffer; bytes beyond are unchanged. No byte 0 is put
   behind them.
   Refusals, in this order: 3, 4, 5, 7. */
thompson_answer thompson_record_to_text(const uint8_t *record, size_t record_size, uint8_t *text, size_t text_size);

/* Record to tree pair.
   Lent: the record; two buffers of at least 2 N + 1 bytes, THOMPSON_SHAPE(THOMPSON_CARETS) at most.
   Value: N, the carets of each tree. The shape of T- stands at the front of the first buffer, that of T+ at the front
   of the second; bytes beyond are unchanged.
   Refusals, in this order: 3, 4, 5, 7. */
thompson_answer thompson_record_to_tree_pair(const uint8_t *record, size_t record_size, uint8_t *t_minus,
                                             size_t t_minus_size, uint8_t *t_plus, size_t t_plus_size);

/* Record to length, Fordham's sum over the carets of the tree pair. Nothing is written.
   Lent: the record.
   Value: the length, at most 20,480: 16 bits hold it.
   Refusals, in this order: 3, 4, 5. */
thompson_answer thompson_record_to_length(const uint8_t *record, size_t record_size);

/* Record to length by Table 1 of Elder, Fusy and Rechnitzer, over the labels of the carets. Nothing is written.
   Lent: the record.
   Value: the length, the same number as that of thompson_record_to_length.
   Refusals, in this order: 3, 4, 5. */
thompson_answer thompson_record_to_label_length(const uint8_t *record, size_t record_size);

/* Two words: the same element, inverse elements, or neither.
   Lent, for each word: what thompson_word_to_record takes; it is left as that call leaves it.
   Value: THOMPSON_SAME, 1, where the words are the same element; THOMPSON_INVERSE, 2, where they are not, and the first
   is the inverse of the second; THOMPSON_DIFFERENT, 0, where neither is so. The identity is its own inverse, and the
   only element that is: two words for it are the same.
   Refusals: those of the first word, then those of the second, with 256 added to the number. After either, everything
   that was lent with both words is as it was. */
thompson_answer thompson_same_element(const uint8_t *word1, size_t letters1, uint16_t *b_table1, size_t b_entries1,
                                      uint16_t *a_table1, size_t a_entries1, uint8_t *record1, size_t record_size1,
                                      const uint8_t *word2, size_t letters2, uint16_t *b_table2, size_t b_entries2,
                                      uint16_t *a_table2, size_t a_entries2, uint8_t *record2, size_t record_size2);

/* A word filed into a register under a holder: the entry that holds the word's element or its inverse, whoever holds
   it, or a new one.
   Lent: what thompson_word_to_record takes, which an answer leaves as that call does, with the word's own record,
   whichever record the register stores; the register.
   Value: the entry's number. A new entry has one above the last number given; it stands behind the last entry, with a
   byte 00 behind it if a byte is free, and the first field has its number. Every other byte of the register is as it
   was; where the element or its inverse has an entry already, every byte is.
   Refusals, in this order: 1, 2, 6, 7, 12; then, where no entry holds either, 13, 14. */
thompson_filing thompson_enter_word(const uint8_t *word, size_t letters, uint16_t *b_table, size_t b_entries,
                                    uint16_t *a_table, size_t a_entries, uint8_t *record, size_t record_size,
                                    uint16_t holder, uint8_t *register_bytes, size_t register_size);

/* Register check. Nothing is written.
   Lent: the register, all of its buffer.
   Value: 0.
   Refusal: 12. */
thompson_answer thompson_check_register(const uint8_t *register_bytes, size_t register_size);

/* The live entries of a holder, at most four. Nothing is written.
   Lent: the register.
   Value: how many entries the holder has.
   Refusal: 12. */
thompson_answer thompson_live_entries(const uint8_t *register_bytes, size_t register_size, uint16_t holder);

/* Shape to packed shape.
   Lent: the shape, all its bytes; at least THOMPSON_NUMBERS(N) numbers and as many entries of a summary, where the
   shape has N carets.
   Value: how many numbers the shape takes, which stand at the front, with as many entries of the summary. Everything
   beyond is unchanged.
   Refusals, in this order: 15 (a byte that is neither 1 nor 0, bytes that end before the tree does or go on behind it,
   too many carets), 7. */
thompson_answer thompson_pack_shape(const uint8_t *shape, size_t shape_size, uint64_t *numbers, size_t numbers_size,
                                    uint16_t *summary, size_t summary_entries);

/* Packed shape to shape. Each of the calls from here on checks all of the packed shape that it is handed.
   Lent: the packed shape, its numbers and its summary, and maybe more behind; a buffer of at least 2 N + 1 bytes,
   THOMPSON_SHAPE(THOMPSON_CARETS) at most.
   Value: 2 N + 1, the bytes of the shape, which stand at the front of the buffer; bytes beyond are unchanged.
   Refusals, in this order: 15 (numbers that end before the tree does, an unused bit that is not zero, a summary that is
   wrong or too short, too many carets), 7. */
thompson_answer thompson_unpack_shape(const uint64_t *numbers, size_t numbers_size, const uint16_t *summary,
                                      size_t summary_entries, uint8_t *shape, size_t shape_size);

/* How many carets stand before a node, in the order of the shape. Nothing is written.
   Lent: the packed shape. `node` is any number.
   Value: the carets among the nodes 0 to node - 1.
   Refusal: 15, as above, and where `node` is above 2 N. */
thompson_answer thompson_carets_before(const uint64_t *numbers, size_t numbers_size, const uint16_t *summary,
                                       size_t summary_entries, uint64_t node);

/* Where the subtree of a node ends. Nothing is written.
   Lent: the packed shape. `node` is any number.
   Value: the node just behind the last one of the subtree, at most 2 N + 1.
   Refusal: 15, as above, and where `node` is above 2 N. */
thompson_answer thompson_subtree_end(const uint64_t *numbers, size_t numbers_size, const uint16_t *summary,
                                     size_t summary_entries, uint64_t node);

/* A caret with two leaves in place of a leaf.
   Lent: the packed shape, with at least THOMPSON_NUMBERS(N + 1) numbers and as many entries of the summary. `leaf` is
   any number.
   Value: how many numbers the grown shape takes. They, and as many entries of the summary, are then what
   thompson_pack_shape would write of the grown shape. Everything beyond is unchanged.
   Refusals, in this order: 15, as above, and where `leaf` is above N or N is THOMPSON_CARETS; 7. */
thompson_answer thompson_grow_caret(uint64_t *numbers, size_t numbers_size, uint16_t *summary, size_t summary_entries,
                                    uint64_t leaf);

#ifdef __cplusplus
}
#endif

#endif
