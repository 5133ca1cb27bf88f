/* The stack that one call of each exported function needs: the call runs on a thread whose stack was painted before,
   and the lowest byte that changed tells how deep it went. The calls that recurse over trees run on forms of one kind
   in two sizes: the difference, for each caret, is what one level of the recursion takes. */
#include "thompson.h"

#include <pthread.h>
#include <stdio.h>
#include <string.h>
#include <sys/mman.h>

#define LETTERS THOMPSON_LIMIT
#define STACK (1 << 21)
static uint8_t word[LETTERS], record1[THOMPSON_RECORD(LETTERS)], record2[THOMPSON_RECORD(LETTERS)];
static uint8_t t_minus[THOMPSON_SHAPE(THOMPSON_CARETS)], t_plus[THOMPSON_SHAPE(THOMPSON_CARETS)];
static uint16_t b1[LETTERS + 1], a1[LETTERS + 1], b2[LETTERS + 1], a2[LETTERS + 1];
static uint8_t text[THOMPSON_TEXT(LETTERS)], filed[THOMPSON_REGISTER_MOST];
static uint8_t list[LETTERS + 4], records[THOMPSON_LIST(2, LETTERS + 2)];
static uint64_t numbers[THOMPSON_NUMBERS(THOMPSON_CARETS)];
static uint16_t summary[THOMPSON_NUMBERS(THOMPSON_CARETS)];
static size_t length, text_length, nodes;
static thompson_answer answer;
static thompson_filing filing;

static void *nothing(void *p) { return p; }

static void *word_to_record(void *p) {
    length = thompson_word_to_record(word, LETTERS, b1, LETTERS + 1, a1, LETTERS + 1, record1, sizeof record1).value;
    return p;
}

static void *short_word_to_record(void *p) {
    thompson_word_to_record(word, 16, b1, LETTERS + 1, a1, LETTERS + 1, record1, sizeof record1);
    return p;
}

static void *list_to_records(void *p) {
    answer = thompson_list_to_records(list, sizeof list, b1, LETTERS + 1, a1, LETTERS + 1, records, sizeof records);
    return p;
}

static void *check_record(void *p) {
    thompson_check_record(record1, length);
    return p;
}

static void *same_element(void *p) {
    thompson_same_element(word, LETTERS, b1, LETTERS + 1, a1, LETTERS + 1, record1, sizeof record1,
                          word, LETTERS, b2, LETTERS + 1, a2, LETTERS + 1, record2, sizeof record2);
    return p;
}

static void *record_to_word(void *p) {
    answer = thompson_record_to_word(record1, length, word, LETTERS);
    return p;
}

static void *text_to_record(void *p) {
    answer = thompson_text_to_record(text, text_length, b1, LETTERS + 1, a1, LETTERS + 1, record1, sizeof record1);
    return p;
}

static void *short_text_to_record(void *p) {
    answer = thompson_text_to_record(text, text_length, b1, LETTERS + 1, a1, LETTERS + 1, record1, 0);
    return p;
}

static void *record_to_text(void *p) {
    answer = thompson_record_to_text(record1, length, text, sizeof text);
    return p;
}

static void *record_to_tree_pair(void *p) {
    answer = thompson_record_to_tree_pair(record1, length, t_minus, sizeof t_minus, t_plus, sizeof t_plus);
    return p;
}

static void *record_to_label_length(void *p) {
    answer = thompson_record_to_label_length(record1, length);
    return p;
}

static void *record_to_length(void *p) {
    answer = thompson_record_to_length(record1, length);
    return p;
}

static void *enter_word(void *p) {
    filing = thompson_enter_word(word, LETTERS, b1, LETTERS + 1, a1, LETTERS + 1, record2, sizeof record2, 1, filed,
                                 sizeof filed);
    return p;
}

static void *check_register(void *p) {
    answer = thompson_check_register(filed, sizeof filed);
    return p;
}

static void *live_entries(void *p) {
    answer = thompson_live_entries(filed, sizeof filed, 1);
    return p;
}

static void *pack_shape(void *p) {
    answer = thompson_pack_shape(t_plus, nodes, numbers, THOMPSON_NUMBERS(THOMPSON_CARETS), summary,
                                 THOMPSON_NUMBERS(THOMPSON_CARETS));
    return p;
}

static void *unpack_shape(void *p) {
    answer = thompson_unpack_shape(numbers, THOMPSON_NUMBERS(THOMPSON_CARETS), summary,
                                   THOMPSON_NUMBERS(THOMPSON_CARETS), t_minus, sizeof t_minus);
    return p;
}

static void *carets_before(void *p) {
    answer = thompson_carets_before(numbers, THOMPSON_NUMBERS(THOMPSON_CARETS), summary,
                                    THOMPSON_NUMBERS(THOMPSON_CARETS), nodes - 1);
    return p;
}

static void *subtree_end(void *p) {
    answer = thompson_subtree_end(numbers, THOMPSON_NUMBERS(THOMPSON_CARETS), summary,
                                  THOMPSON_NUMBERS(THOMPSON_CARETS), 0);
    return p;
}

static void *grow_caret(void *p) {
    answer = thompson_grow_caret(numbers, THOMPSON_NUMBERS(THOMPSON_CARETS), summary,
                                 THOMPSON_NUMBERS(THOMPSON_CARETS), 0);
    return p;
}

static size_t depth(void *(*call)(void *)) {
    uint8_t *s = mmap(0, STACK, PROT_READ | PROT_WRITE, MAP_PRIVATE | MAP_ANONYMOUS, -1, 0);
    memset(s, 0xA5, STACK);
    pthread_attr_t a;
    pthread_t t;
    pthread_attr_init(&a);
    pthread_attr_setstack(&a, s, STACK);
    if (pthread_create(&t, &a, call, 0) != 0) return 0;
    pthread_join(t, 0);
    size_t i = 0;
    while (i < STACK && s[i] == 0xA5) i++;
    munmap(s, STACK);
    return STACK - i;
}

/* A field of a record: its tag, the bytes of its entries, the entries; an entry with exponent 0 is left out. */
static void put_field(int tag, int entries, const int (*entry)[2]) {
    size_t body = length + 3, end = body;
    for (int i = 0; i < entries; i++) {
        if (entry[i][1] == 0) continue;
        for (int k = 0; k < 2; k++) {
            record1[end++] = entry[i][k] >> 8;
            record1[end++] = entry[i][k];
        }
    }
    record1[length] = tag;
    record1[length + 1] = (end - body) >> 8;
    record1[length + 2] = end - body;
    length = end;
}

/* The forms, in a size n of at most LETTERS. */
static void high_b(int n) {
    put_field(1, 1, (const int[][2]){{n, n}});
    put_field(2, 0, 0);
}

static void high_a(int n) {
    put_field(1, 0, 0);
    put_field(2, 1, (const int[][2]){{n, n}});
}

static void low_b(int n) {
    put_field(1, 1, (const int[][2]){{0, n}});
    put_field(2, 0, 0);
}

static void one_b(int n) {
    put_field(1, 1, (const int[][2]){{n, 1}});
    put_field(2, 0, 0);
}

static void low_both(int n) {
    put_field(1, 2, (const int[][2]){{0, n / 2 - 1}, {1, 1}});
    put_field(2, 1, (const int[][2]){{0, n / 2 - 1}});
}

static const struct {
    const char *name, *trees;
    void (*put)(int);
} forms[] = {
    {"x_n^n", "all right; right, then left", high_b},
    {"x_n^-n", "right, then left; all right", high_a},
    {"x_0^n", "all right; left", low_b},
    {"x_n", "all right; right", one_b},
    {"x_0^m x_1 x_0^-m", "left; left", low_both},
};

/* A register with the record of record1 as its one entry, number 1 of holder 0. */
static void put_register(void) {
    size_t body = 6 + length;
    const uint8_t front[] = {0x10, 0, 4, 0, 0, 0, 1, 0x11, body >> 8, body, 0, 0, 0, 1, 0, 0};
    memset(filed, 0, sizeof filed);
    memcpy(filed, front, sizeof front);
    memcpy(filed + sizeof front, record1, length);
}

static void register_calls(size_t none) {
    put_register();
    printf("a word entered         %zu bytes more\n", depth(enter_word) - none);
    if (filing.value != 2 || filing.present) printf("entry %d, present %d\n", (int)filing.value, (int)filing.present);
    printf("  again, now present   %zu bytes more\n", depth(enter_word) - none);
    if (filing.value != 2 || !filing.present) printf("entry %d, present %d\n", (int)filing.value, (int)filing.present);
    printf("register check         %zu bytes more\n", depth(check_register) - none);
    if (answer.refusal != 0) printf("refused with %d\n", (int)answer.refusal);
    printf("live entries           %zu bytes more\n", depth(live_entries) - none);
    if (answer.value != 1) printf("%d live entries\n", (int)answer.value);
}

/* The calls on packed shapes, on a comb with one caret less than the most, so that it grows. */
static void packed_calls(size_t none) {
    static const struct {
        const char *name;
        void *(*call)(void *);
    } calls[] = {
        {"pack shape", pack_shape},
        {"unpack shape", unpack_shape},
        {"carets before a node", carets_before},
        {"end of a subtree", subtree_end},
        {"caret grown", grow_caret},
    };
    nodes = THOMPSON_SHAPE(THOMPSON_CARETS - 1);
    for (size_t i = 0; i < nodes; i++) t_plus[i] = i + 1 < nodes && i % 2 == 0;
    for (size_t i = 0; i < sizeof calls / sizeof calls[0]; i++) {
        printf("%-22s %zu bytes more\n", calls[i].name, depth(calls[i].call) - none);
        if (answer.refusal != 0) printf("refused with %d\n", (int)answer.refusal);
    }
}

static void tree_calls(const char *name, void *(*call)(void *), size_t none) {
    printf("\n%s\n", name);
    printf("  form, n = 4096    T-; T+                         carets    bytes  carets    bytes  bytes a caret\n");
    for (size_t i = 0; i < sizeof forms / sizeof forms[0]; i++) {
        size_t carets[2], bytes[2];
        for (int k = 0; k < 2; k++) {
            length = 0;
            forms[i].put(LETTERS >> k);
            record_to_tree_pair(0);
            carets[k] = answer.value;
            bytes[k] = depth(call) - none;
            if (answer.refusal != 0) printf("refused with %d\n", (int)answer.refusal);
        }
        printf("  %-16s  %-28s  %7zu  %7zu %7zu  %7zu  %13.2f\n", forms[i].name, forms[i].trees, carets[0], bytes[0],
               carets[1], bytes[1], (double)(bytes[0] - bytes[1]) / (carets[0] - carets[1]));
    }
}

int main(void) {
    for (int i = 0; i < LETTERS; i++) word[i] = "aAbB"[(i * 2654435761u >> 13) & 3];
    size_t none = depth(nothing);
    printf("a thread with no call  %zu bytes\n", none);
    printf("word to record         %zu bytes more\n", depth(word_to_record) - none);
    printf("  of 16 letters        %zu bytes more\n", depth(short_word_to_record) - none);
    memcpy(list, word, LETTERS);
    memcpy(list + LETTERS, "\nab\n", 4);
    printf("list to records        %zu bytes more\n", depth(list_to_records) - none);
    if (answer.refusal != 0) printf("refused with %d\n", (int)answer.refusal);
    word_to_record(0);
    printf("record check           %zu bytes more\n", depth(check_record) - none);
    printf("two words              %zu bytes more\n", depth(same_element) - none);
    length = 0;
    put_field(1, 1, (const int[][2]){{LETTERS / 2, 2}});
    put_field(2, 0, 0);
    printf("record to word         %zu bytes more\n", depth(record_to_word) - none);
    if (answer.value != LETTERS) printf("%d letters\n", (int)answer.value);
    length = 0;
    static int powers[LETTERS][2];
    for (int i = 0; i < LETTERS; i++) powers[i][0] = i + 1, powers[i][1] = 1;
    put_field(1, 0, 0);
    put_field(2, LETTERS, (const int(*)[2])powers);
    printf("record to text         %zu bytes more\n", depth(record_to_text) - none);
    text_length = answer.value;
    printf("text to record         %zu bytes more\n", depth(text_to_record) - none);
    if (answer.refusal != 0) printf("refused with %d\n", (int)answer.refusal);
    printf("  its buffer too short %zu bytes more\n", depth(short_text_to_record) - none);
    if (answer.refusal != 7) printf("refused with %d\n", (int)answer.refusal);
    register_calls(none);
    packed_calls(none);
    tree_calls("record to tree pair", record_to_tree_pair, none);
    tree_calls("record to length", record_to_length, none);
    tree_calls("the same by Table 1", record_to_label_length, none);
    return 0;
}
