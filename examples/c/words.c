/* words FILE.. tests the tree in words, the calls that cut script sources, the values of literals and the core grammar: with
 * results worked out by hand, and, on each file, that the words are the steps of rap_tree. Prints what is wrong, and
 * returns 1 then. */
#include <stdio.h>
#include <stdlib.h>
#include <string.h>
#include "rap.h"

static int wrong = 0;

static void expect(int holds, const char *what) {
    if (holds) return;
    printf("words: %s\n", what);
    wrong = 1;
}

static void *room(size_t count, size_t size) {
    void *made = calloc(count + 1, size);
    if (!made) exit(2);
    return made;
}

static uint32_t kind(const char *name) {
    uint8_t bytes[32];
    for (uint32_t k = 0; k <= RAP_LAST_KIND; k++) {
        size_t length = rap_kind_name(k, bytes, sizeof bytes);
        if (length == strlen(name) && !memcmp(bytes, name, length)) return k;
    }
    expect(0, name);
    return RAP_NO_KIND;
}

/* Reads a step from the words, of which `*at` have been read; it begins at `*place` and after `*said` bytes of messages. */
static struct rap_step step_of(const uint32_t *words, size_t *at, size_t *place, size_t *said) {
    uint32_t word = words[(*at)++];
    struct rap_step step = {word & 7, word >> 16, *place, *place, *place};
    size_t length = word >> 3 & RAP_LONG;
    if (step.what == RAP_TOKEN) *place = step.end = *place + (length == RAP_LONG ? words[(*at)++] : length);
    if (step.what == RAP_MESSAGE) {
        step.at = words[(*at)++];
        step.start = *said;
        *said = step.end = *said + words[(*at)++];
    }
    return step;
}

static int are_same(struct rap_step a, struct rap_step b) {
    return a.what == b.what && a.kind == b.kind && a.at == b.at && a.start == b.start && a.end == b.end;
}

/* A text's words are the steps of its tree. Returns how many of the words are after the tree. */
static size_t compare(const uint8_t *text, size_t length, uint32_t edition, uint32_t entry) {
    struct rap_step step;
    uint32_t word;
    uint8_t byte;
    struct rap_answer t = rap_tree(text, length, edition, entry, &step, 0, &byte, 0);
    struct rap_answer w = rap_tree_words(text, length, edition, entry, &word, 0, &byte, 0);
    expect(w.status == t.status && w.message_bytes == t.message_bytes, "another answer than that of rap_tree");
    struct rap_step *steps = room(t.steps, sizeof *steps);
    uint32_t *words = room(w.steps + 1, sizeof *words);
    uint8_t *said = room(t.message_bytes, 1), *also_said = room(t.message_bytes, 1);
    rap_tree(text, length, edition, entry, steps, t.steps, said, t.message_bytes);
    words[w.steps] = 0xa5a5a5a5;
    w = rap_tree_words(text, length, edition, entry, words, w.steps, also_said, w.message_bytes);
    expect(words[w.steps] == 0xa5a5a5a5, "a word after the last one");
    expect(memcmp(said, also_said, t.message_bytes) == 0, "other messages than those of rap_tree");
    size_t at = 0, place = 0, bytes = 0, count = 0, last_exit = 0;
    while (at < w.steps && count < t.steps) {
        struct rap_step found = step_of(words, &at, &place, &bytes);
        expect(are_same(found, steps[count++]), "another step than that of rap_tree");
        if (found.what == RAP_EXIT) last_exit = at;
    }
    expect(at == w.steps && count == t.steps && place == length, "another number of steps than rap_tree's");
    expect(w.used == last_exit, "where the tree ends");
    free(steps), free(words), free(said), free(also_said);
    return w.steps - w.used;
}

/* `0x +`: an operand is missing, and the digits of the number are. */
static void test_words(void) {
    uint32_t words[20] = {0};
    uint8_t said[80];
    struct rap_answer a = rap_tree_words((const uint8_t *)"0x +", 4, 2024, RAP_EXPR, words, 20, said, 80);
    const uint32_t want[] = {kind("BIN_EXPR") << 16, kind("LITERAL") << 16, kind("INT_NUMBER") << 16 | 2 << 3 | 2, 1,
        kind("WHITESPACE") << 16 | 1 << 3 | 2, kind("PLUS") << 16 | 1 << 3 | 2, kind("ERROR") << 16, 3, 4, 19, 1, 1, 3, 0, 44};
    expect(a.status == RAP_OK && a.steps == 15 && a.used == 12 && a.message_bytes == 63, "the answer of a tree in words");
    expect(memcmp(words, want, sizeof want) == 0 && words[15] == 0, "the words of a tree");
    expect(memcmp(said, "expected expressionMissing digits", 33) == 0, "the messages of a tree in words");
    memset(words, 0, sizeof words);
    a = rap_tree_words((const uint8_t *)"0x +", 4, 2024, RAP_EXPR, words, 9, said, 0);
    expect(a.steps == 15 && a.used == 12 && !memcmp(words, want, 36) && words[9] == 0, "room that ends in a message");
    a = rap_tree_words((const uint8_t *)"x", 1, 2022, RAP_EXPR, words, 9, said, 0);
    expect(a.status == RAP_NO_EDITION && a.steps == 0 && a.used == 0, "no edition");
    a = rap_tree_words((const uint8_t *)"x", 1, 2021, RAP_META_ITEM + 1, words, 9, said, 0);
    expect(a.status == RAP_NO_ENTRY && a.steps == 0 && a.used == 0, "no entry");
    a = rap_tree_words((const uint8_t *)"\xff", 1, 2021, RAP_EXPR, words, 9, said, 0);
    expect(a.status == RAP_NOT_UTF8 && a.steps == 0 && a.used == 0, "no UTF-8");
}

/* Identifiers of so many bytes: 8,190 are in the token's own word, more are not. */
static void test_long_tokens(void) {
    uint8_t byte, *text = room(70000, 1);
    uint32_t words[20] = {0};
    memset(text, 'a', 70000);
    const size_t lengths[] = {8190, 8191, 8192, 65536, 70000};
    for (size_t i = 0; i < 5; i++) {
        struct rap_answer a = rap_tree_words(text, lengths[i], 2024, RAP_EXPR, words, 20, &byte, 0);
        uint32_t token = kind("IDENT") << 16 | (i ? 8191 : 8190) << 3 | 2;
        expect(a.steps == (i ? 10 : 9) && a.used == a.steps && words[4] == token, "a long token");
        expect(i == 0 || words[5] == lengths[i], "the length of a long token");
        compare(text, lengths[i], 2018, RAP_EXPR);
    }
    free(text);
}

static int is_part(struct rap_part part, size_t start, size_t end) {
    return part.there == 1 && part.start == start && part.end == end;
}

static struct rap_answer script(const char *text, struct rap_part *parts, uint8_t *said) {
    return rap_script((const uint8_t *)text, strlen(text), parts, 7, said, 64);
}

static void test_scripts(void) {
    struct rap_part parts[7] = {{9, 9, 9}, {9, 9, 9}, {9, 9, 9}, {9, 9, 9}, {9, 9, 9}, {9, 9, 9}, {9, 9, 9}};
    uint8_t said[64] = {0};
    struct rap_answer a = script("#!x\n\n--- y \nz\n---\nfn", parts, said);
    expect(a.status == RAP_OK && a.steps == 6 && a.message_bytes == 0 && a.used == 20, "a script source");
    expect(is_part(parts[0], 0, 4) && is_part(parts[1], 5, 8) && is_part(parts[2], 9, 10), "its first parts");
    expect(is_part(parts[3], 12, 14) && is_part(parts[4], 14, 17) && is_part(parts[5], 18, 20), "its last parts");
    expect(parts[6].there == 9, "a part after the last one");
    a = script("fn", parts, said);
    expect(a.status == RAP_OK && is_part(parts[5], 0, 2), "no script source");
    for (size_t i = 0; i < 5; i++)
        expect(!parts[i].there && !parts[i].start && !parts[i].end, "a part that is not there");
    a = script("---\n---\n\n-", parts, said);
    expect(a.status == RAP_NO_SCRIPT && a.steps == 3 && a.message_bytes == 33 && a.used == 10, "two frontmatters");
    expect(is_part(parts[0], 9, 10) && is_part(parts[1], 0, 3) && is_part(parts[2], 4, 7), "what is shown of them");
    expect(memcmp(said, "only one frontmatter is supported", 34) == 0, "their message");
    a = script("\xff", parts, said);
    expect(a.status == RAP_NOT_UTF8 && a.steps == 0 && a.used == 0, "no text");
}

static size_t shebang(const char *text) { return rap_shebang((const uint8_t *)text, strlen(text)).used; }

static size_t blank(const char *text) { return rap_blank_lines((const uint8_t *)text, strlen(text)).used; }

static void test_ends(void) {
    expect(shebang("#!x\ny") == 4 && shebang("#!x") == 3 && shebang("#! [x") == 0 && shebang(" #!") == 0, "shebangs");
    expect(blank(" \n \nx") == 4 && blank(" x") == 0 && blank("\xc2\x85\n") == 3 && blank("") == 0, "blank lines");
    expect(rap_shebang((const uint8_t *)"\xff", 1).status == RAP_NOT_UTF8, "a shebang of no text");
    expect(rap_blank_lines((const uint8_t *)"\xff", 1).status == RAP_NOT_UTF8, "blank lines of no text");
}

static int is_number(const char *text, const char *name, struct rap_number want) {
    struct rap_number n = rap_number_value((const uint8_t *)text, strlen(text), kind(name));
    return n.status == want.status && n.radix == want.radix && n.low == want.low && n.high == want.high
        && n.real == want.real && n.suffix == want.suffix;
}

static void test_values(void) {
    uint8_t value[4] = "....";
    const char *text = "\"a\\u{e9}\"";
    struct rap_string s = rap_string_value((const uint8_t *)text, strlen(text), RAP_KIND_STRING, value, 4);
    expect(s.status == RAP_OK && s.bytes == 3 && memcmp(value, "a\xc3\xa9.", 4) == 0, "a string");
    s = rap_string_value((const uint8_t *)text, strlen(text), RAP_KIND_BYTE_STRING, value, 4);
    expect(s.status == RAP_NO_LITERAL && s.bytes == 0 && value[3] == '.', "a string that is no byte string");
    expect(is_number("0xff_u8", "INT_NUMBER", (struct rap_number){0, 16, 255, 0, 0, 5}), "an integer");
    expect(is_number("0x1_0000_0000_0000_0002", "INT_NUMBER", (struct rap_number){0, 16, 2, 1, 0, 23}), "a large one");
    expect(is_number("0b12u8", "INT_NUMBER", (struct rap_number){RAP_NO_NUMBER, 2, 0, 0, 0, 4}), "a digit too large");
    expect(is_number("1.5e3f32", "FLOAT_NUMBER", (struct rap_number){0, 10, 0, 0, 1500, 5}), "a float");
    expect(is_number("'\\n'", "CHAR", (struct rap_number){0, 0, 10, 0, 0, 4}), "a character");
    expect(is_number("b'\\xff'", "BYTE", (struct rap_number){0, 0, 255, 0, 0, 7}), "a byte");
    expect(is_number("'a'", "BYTE", (struct rap_number){RAP_NO_LITERAL, 0, 0, 0, 0, 0}), "a character that is no byte");
}

static struct rap_core_answer core(const char *text, struct rap_place *places, size_t place_room) {
    return rap_core((const uint8_t *)text, strlen(text), 2024, places, place_room);
}

static int is_place(struct rap_place place, const char *name, uint32_t is_token, size_t start, size_t end) {
    return place.kind == kind(name) && place.is_token == is_token && place.start == start && place.end == end;
}

static void test_core(void) {
    struct rap_place places[3] = {{9, 9, 9, 9}, {9, 9, 9, 9}, {9, 9, 9, 9}};
    struct rap_core_answer a = core("fn f(x: u8) -> u8 { x + 1 }", places, 3);
    expect(a.status == RAP_OK && a.derived == 1 && a.places == 0 && a.used == 27, "a text of the core grammar");
    expect(places[0].kind == 9, "a place in a text of the core grammar");
    a = core("trait A = B; const C: char = 'ab';", places, 3);
    expect(a.status == RAP_OK && a.derived == 0 && a.places == 2 && a.used == 34, "a text outside of the core grammar");
    expect(is_place(places[0], "CHAR", 1, 29, 33) && is_place(places[1], "TRAIT", 0, 0, 12), "what is outside");
    expect(places[2].kind == 9, "a place after the last one");
    a = core("trait A = B; trait C = D;", places, 1);
    expect(a.places == 2 && is_place(places[0], "TRAIT", 0, 0, 12), "room for one place");
    expect(is_place(places[1], "TRAIT", 0, 0, 12) && places[2].kind == 9, "a place past the room");
    a = core("\xff", places, 1);
    expect(a.status == RAP_NOT_UTF8 && a.derived == 0 && a.places == 0 && a.used == 0, "the core grammar and no UTF-8");
}

static void compare_file(const char *path) {
    FILE *file = fopen(path, "rb");
    if (!file) exit(2);
    size_t length = 0, some;
    uint8_t *text = room(1 << 22, 1);
    while ((some = fread(text + length, 1, (1 << 22) - length, file)) > 0) length += some;
    fclose(file);
    for (uint32_t entry = RAP_SOURCE_FILE; entry <= RAP_META_ITEM; entry++) compare(text, length, 2021, entry);
    free(text);
}

int main(int count, char **words) {
    test_words();
    test_long_tokens();
    test_scripts();
    test_ends();
    test_values();
    test_core();
    for (int i = 1; i < count; i++) compare_file(words[i]);
    return wrong;
}
