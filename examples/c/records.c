/* records FILE.. tests the calls that take records and steps: with results worked out by hand, and, on each file, that records
 * parsed and woven with the text again are the tree of rap_tree. Prints what is wrong, and returns 1 then. */
#include <stdio.h>
#include <stdlib.h>
#include <string.h>
#include "rap.h"

static int wrong = 0;

static void expect(int holds, const char *what) {
    if (holds) return;
    printf("records: %s\n", what);
    wrong = 1;
}

/* What a call wrote. */
struct filled {
    struct rap_answer answer;
    struct rap_step *steps;
    uint8_t *messages;
};

static void *room(size_t count, size_t size) {
    void *made = calloc(count + 1, size);
    if (!made) exit(2);
    return made;
}

static struct filled made(struct rap_answer counted) {
    struct filled f = {counted, room(counted.steps, sizeof *f.steps), room(counted.message_bytes, 1)};
    return f;
}

static void drop(struct filled f) {
    free(f.steps);
    free(f.messages);
}

static uint32_t kind(const char *name) {
    uint8_t bytes[32];
    for (uint32_t k = 0; k <= RAP_LAST_KIND; k++) {
        size_t length = rap_kind_name(k, bytes, sizeof bytes);
        if (length == strlen(name) && !memcmp(bytes, name, length)) return k;
    }
    expect(0, name);
    return RAP_NO_KIND;
}

static struct rap_record record(const char *name, uint32_t joint) {
    struct rap_record made = {kind(name), RAP_EOF, 2021, joint};
    return made;
}

static struct filled parse(const struct rap_record *records, size_t count, uint32_t entry) {
    struct rap_step step;
    uint8_t byte;
    struct filled f = made(rap_parse(records, count, entry, &step, 0, &byte, 0));
    f.answer = rap_parse(records, count, entry, f.steps, f.answer.steps, f.messages, f.answer.message_bytes);
    return f;
}

static struct filled parse_prefix(const struct rap_record *records, size_t count, uint32_t entry) {
    struct rap_step step;
    uint8_t byte;
    struct filled f = made(rap_parse_prefix(records, count, entry, &step, 0, &byte, 0));
    f.answer = rap_parse_prefix(records, count, entry, f.steps, f.answer.steps, f.messages, f.answer.message_bytes);
    return f;
}

static struct filled weave(const uint8_t *text, size_t length, uint32_t edition, struct filled tree) {
    const struct rap_step *in = tree.steps;
    size_t n = tree.answer.steps, bytes = tree.answer.message_bytes;
    struct rap_step step;
    uint8_t byte;
    struct filled f = made(rap_weave(text, length, edition, in, n, tree.messages, bytes, &step, 0, &byte, 0));
    f.answer = rap_weave(text, length, edition, in, n, tree.messages, bytes, f.steps, f.answer.steps, f.messages,
                         f.answer.message_bytes);
    return f;
}

static struct rap_record *records_of(const uint8_t *text, size_t length, uint32_t edition, size_t *count) {
    struct rap_record none;
    struct rap_answer answer = rap_records(text, length, edition, &none, 0);
    struct rap_record *records = room(answer.steps, sizeof *records);
    *count = answer.steps;
    answer = rap_records(text, length, edition, records, answer.steps);
    expect(answer.status == RAP_OK && answer.used == length && answer.message_bytes == 0, "an answer of rap_records");
    return records;
}

static int is_step(struct rap_step s, uint32_t what, const char *name, size_t start, size_t end) {
    return s.what == what && s.kind == (name ? kind(name) : 0) && s.at == start && s.start == start && s.end == end;
}

/* The records of a text, the joint bit of each, and what an identifier may be read as. */
static void test_records(void) {
    static const char text[] = "union /* */ U { 1.5 ; 1. }";
    static const char *const kinds[] = {"IDENT", "IDENT", "L_CURLY", "FLOAT_NUMBER", "SEMICOLON", "FLOAT_NUMBER", "R_CURLY"};
    static const uint32_t joints[] = {0, 0, 0, 1, 0, 0, 0};
    size_t count;
    struct rap_record *records = records_of((const uint8_t *)text, sizeof text - 1, 2018, &count);
    expect(count == 7, "how many records there are");
    for (size_t i = 0; i < count && i < 7; i++) {
        expect(records[i].kind == kind(kinds[i]) && records[i].edition == 2018, "a record's kind");
        expect(records[i].joint == joints[i], "a record's joint bit");
    }
    expect(records[0].contextual_kind == kind("UNION_KW") && records[1].contextual_kind == RAP_IDENT, "identifiers");
    expect(records[2].contextual_kind == RAP_EOF, "what is no identifier");
    free(records);
}

/* `a >>= b`, pushed: three tokens are one operator where the first two touch the next. */
static void test_pushed(void) {
    struct rap_record tokens[] = {
        record("IDENT", 0), record("R_ANGLE", 1), record("R_ANGLE", 1), record("EQ", 0), record("IDENT", 0)};
    struct filled f = parse(tokens, 5, RAP_EXPR);
    expect(f.answer.status == RAP_OK && f.answer.steps == 21 && f.answer.used == 5, "an operator's answer");
    expect(is_step(f.steps[0], RAP_ENTER, "BIN_EXPR", 0, 0), "an operator's node");
    expect(is_step(f.steps[10], RAP_TOKEN, "SHREQ", 1, 4), "an operator");
    expect(is_step(f.steps[20], RAP_EXIT, NULL, 5, 5), "an operator's end");
    drop(f);
    tokens[2].joint = 0;
    f = parse(tokens, 5, RAP_EXPR);
    expect(f.answer.status == RAP_OK && f.answer.message_bytes > 0, "`>>` apart from `=`");
    drop(f);
    f = parse_prefix(tokens, 1, RAP_PREFIX_VIS);
    expect(f.answer.status == RAP_NO_TREE && f.answer.steps == 0 && f.answer.used == 0, "no visibility");
    drop(f);
    f = parse_prefix(tokens + 2, 1, RAP_PREFIX_PATH);
    expect(f.answer.used == 0 && f.answer.message_bytes > 0, "no path");
    drop(f);
}

static uint32_t status_with(struct rap_record token) {
    struct filled f = parse(&token, 1, RAP_MACRO_STMTS);
    expect(f.answer.status < RAP_NO_EDITION || f.answer.steps == 0, "a refusal has no steps");
    drop(f);
    return f.answer.status;
}

/* Nothing is believed of a record. */
static void test_no_records(void) {
    struct rap_record good = record("IDENT", 1), bad = good;
    expect(status_with(good) == RAP_OK, "a record");
    bad.kind = RAP_EOF;
    expect(status_with(bad) == RAP_NO_RECORD, "the end as a record");
    bad.kind = RAP_LAST_TOKEN + 1;
    expect(status_with(bad) == RAP_NO_RECORD, "a node's kind as a record's");
    bad = good, bad.joint = 2;
    expect(status_with(bad) == RAP_NO_RECORD, "a joint bit of 2");
    bad = good, bad.edition = 2019;
    expect(status_with(bad) == RAP_NO_RECORD, "no year");
    bad = good, bad.contextual_kind = RAP_NO_KIND;
    expect(status_with(bad) == RAP_NO_RECORD, "a contextual kind that is none");
    bad = good, bad.contextual_kind = kind("UNION_KW");
    expect(status_with(bad) == RAP_OK, "a contextual keyword");
    bad.kind = kind("COMMA");
    expect(status_with(bad) == RAP_NO_RECORD, "a comma that may be read as a keyword");
    struct rap_step step;
    uint8_t byte;
    expect(rap_parse(&good, 1, RAP_META_ITEM + 1, &step, 0, &byte, 0).status == RAP_NO_ENTRY, "no top entry");
    expect(rap_parse_prefix(&good, 1, RAP_PREFIX_META_ITEM + 1, &step, 0, &byte, 0).status == RAP_NO_ENTRY, "no front");
}

/* `{ ; }`, a block's statements, parsed again. */
static void test_nodes(void) {
    struct rap_record tokens[] = {record("L_CURLY", 0), record("SEMICOLON", 0), record("R_CURLY", 0)};
    struct rap_step steps[8];
    uint8_t byte;
    uint32_t list = kind("MATCH_ARM_LIST"), expression = kind("BIN_EXPR");
    struct rap_answer a = rap_parse_node(tokens, 3, kind("BLOCK_EXPR"), RAP_NO_KIND, RAP_NO_KIND, steps, 8, &byte, 0);
    expect(a.status == RAP_OK && a.steps == 7 && a.used == 3, "a block");
    expect(is_step(steps[1], RAP_ENTER, "STMT_LIST", 0, 0) && is_step(steps[4], RAP_TOKEN, "R_CURLY", 2, 3), "its list");
    a = rap_parse_node(tokens + 1, 2, list, RAP_NO_KIND, RAP_NO_KIND, steps, 8, &byte, 0);
    expect(a.status == RAP_NO_BRACE, "a list without its brace");
    a = rap_parse_node(tokens, 0, list, RAP_NO_KIND, RAP_NO_KIND, steps, 8, &byte, 0);
    expect(a.status == RAP_NO_BRACE, "a list of nothing");
    a = rap_parse_node(tokens, 0, expression, RAP_NO_KIND, RAP_NO_KIND, steps, 8, &byte, 0);
    expect(a.status == RAP_NO_NODE, "an expression is not parsed again");
    tokens[1].kind = RAP_EOF;
    a = rap_parse_node(tokens, 3, list, RAP_NO_KIND, RAP_NO_KIND, steps, 8, &byte, 0);
    expect(a.status == RAP_NO_RECORD, "a list with the end in it");
}

/* More records than a parse accepts: what is tested first is returned. */
static void test_too_many(void) {
    const size_t count = 8388608;
    struct rap_record *records = room(count, sizeof *records), name = record("IDENT", 0);
    struct rap_step step;
    uint8_t byte;
    uint32_t list = kind("MATCH_ARM_LIST");
    for (size_t i = 0; i < count; i++) records[i] = name;
    struct rap_answer a = rap_parse_node(records, count, list, RAP_NO_KIND, RAP_NO_KIND, &step, 0, &byte, 0);
    expect(a.status == RAP_NO_BRACE, "too many records and no brace");
    records[0].kind = kind("L_CURLY"), records[0].contextual_kind = RAP_EOF;
    a = rap_parse_node(records, count, list, RAP_NO_KIND, RAP_NO_KIND, &step, 0, &byte, 0);
    expect(a.status == RAP_TOO_MANY_TOKENS, "too many records in braces");
    a = rap_parse(records, count, RAP_EXPR, &step, 0, &byte, 0);
    expect(a.status == RAP_TOO_MANY_TOKENS && a.steps == 0 && a.used == 0, "too many records");
    records[count - 1].joint = 2;
    a = rap_parse_node(records, count, list, RAP_NO_KIND, RAP_NO_KIND, &step, 0, &byte, 0);
    expect(a.status == RAP_NO_RECORD, "too many records, and one that is none");
    free(records);
}

/* The names of the kinds and their numbers; the texts of the statuses; the version. */
static void test_names(void) {
    uint8_t bytes[40];
    for (uint32_t k = 0; k <= RAP_LAST_KIND; k++) {
        size_t length = rap_kind_name(k, bytes, sizeof bytes);
        expect(length > 0 && length <= 32 && rap_kind_of_name(bytes, length) == k, "a kind by its name");
        expect(rap_kind_of_name(bytes, length - 1) != k, "a kind by a part of its name");
    }
    expect(rap_kind_of_name(bytes, 0) == RAP_NO_KIND, "a kind without a name");
    expect(rap_kind_of_name((const uint8_t *)"Ident", 5) == RAP_NO_KIND, "a name of no kind");
    expect(rap_kind_of_name((const uint8_t *)"IDENT", 5) == RAP_IDENT, "an identifier's name");
    for (uint32_t status = RAP_OK; status <= RAP_NO_NUMBER; status++) {
        size_t length = rap_status_text(status, bytes, sizeof bytes);
        expect(length > 0 && length <= 36, "a status's text");
    }
    expect(rap_status_text(RAP_NO_NUMBER + 1, bytes, sizeof bytes) == 0, "the text of no status");
    memset(bytes, '?', sizeof bytes);
    expect(rap_status_text(RAP_NO_MEMORY, bytes, 3) == 13 && !memcmp(bytes, "out?", 4), "a text with too little room");
    expect(rap_version() == RAP_VERSION, "the version");
}

/* Nothing is believed of a step. */
static void test_no_steps(void) {
    static const char text[] = "/* */ x.0.1 ; ";
    const uint8_t *bytes = (const uint8_t *)text;
    size_t count;
    struct rap_record *records = records_of(bytes, sizeof text - 1, 2021, &count);
    struct filled tree = parse(records, count, RAP_MACRO_STMTS), f = weave(bytes, sizeof text - 1, 2021, tree);
    expect(f.answer.status == RAP_OK && f.answer.used == 13, "a tree");
    drop(f);
    for (size_t i = 0; i < tree.answer.steps; i++) {
        struct rap_step kept = tree.steps[i];
        tree.steps[i].what = 5;
        f = weave(bytes, sizeof text - 1, 2021, tree), drop(f);
        expect(f.answer.status == RAP_NO_STEPS, "a step of no sort");
        tree.steps[i].what = kept.what == RAP_EXIT ? RAP_ENTER : RAP_EXIT;
        f = weave(bytes, sizeof text - 1, 2021, tree), drop(f);
        expect(f.answer.status == RAP_NO_STEPS, "a node that does not end, or ends twice");
        tree.steps[i] = kept;
        if (kept.what != RAP_TOKEN && kept.what != RAP_SPLIT) continue;
        tree.steps[i].kind = kept.what == RAP_SPLIT ? 1 - kept.kind : kind("COMMA");
        f = weave(bytes, sizeof text - 1, 2021, tree), drop(f);
        expect(f.answer.status == RAP_NO_STEPS, "a leaf of another kind");
        tree.steps[i] = kept;
        if (kept.what == RAP_SPLIT) continue;
        tree.steps[i].end += 1;
        f = weave(bytes, sizeof text - 1, 2021, tree), drop(f);
        expect(f.answer.status == RAP_NO_STEPS, "a leaf of more tokens");
        tree.steps[i].end = tree.steps[i].start - 1;
        f = weave(bytes, sizeof text - 1, 2021, tree), drop(f);
        expect(f.answer.status == RAP_NO_STEPS, "a leaf that ends before its start");
        tree.steps[i] = kept;
    }
    tree.answer.steps -= 1;
    f = weave(bytes, sizeof text - 1, 2021, tree), drop(f);
    expect(f.answer.status == RAP_NO_STEPS, "the last step is missing");
    drop(tree);
    free(records);
}

/* Messages that are not in their array, or no text. */
static void test_no_messages(void) {
    static const char text[] = "fn";
    const uint8_t *bytes = (const uint8_t *)text;
    size_t count;
    struct rap_record *records = records_of(bytes, 2, 2021, &count);
    struct filled tree = parse(records, count, RAP_SOURCE_FILE), f;
    expect(tree.answer.message_bytes > 0, "messages");
    uint8_t first = tree.messages[0];
    tree.messages[0] = 0x80;
    f = weave(bytes, 2, 2021, tree), drop(f);
    expect(f.answer.status == RAP_NO_STEPS, "a message that is no text");
    tree.messages[0] = first;
    f = weave(bytes, 2, 2021, tree), drop(f);
    expect(f.answer.status == RAP_OK && f.answer.message_bytes == tree.answer.message_bytes, "messages woven");
    tree.answer.message_bytes -= 1;
    f = weave(bytes, 2, 2021, tree), drop(f);
    expect(f.answer.status == RAP_NO_STEPS, "a message past the array");
    expect(weave(bytes, 2, 2022, tree).answer.status == RAP_NO_EDITION, "no edition to weave in");
    expect(weave((const uint8_t *)"\xff", 1, 2021, tree).answer.status == RAP_NOT_UTF8, "no text to weave in");
    drop(tree);
    free(records);
}

/* The tree of a text is that of its records, woven. */
static void test_round(const uint8_t *text, size_t length, uint32_t edition, uint32_t entry, const char *name) {
    struct rap_step step;
    uint8_t byte;
    struct filled whole = made(rap_tree(text, length, edition, entry, &step, 0, &byte, 0));
    whole.answer = rap_tree(text, length, edition, entry, whole.steps, whole.answer.steps, whole.messages,
                            whole.answer.message_bytes);
    size_t count, last = whole.answer.steps;
    struct rap_record *records = records_of(text, length, edition, &count);
    struct filled tree = parse(records, count, entry), woven = weave(text, length, edition, tree);
    while (last > 0 && whole.steps[last - 1].what == RAP_MESSAGE) last--;
    expect(tree.answer.status == RAP_OK && woven.answer.status == RAP_OK && woven.answer.steps == last, name);
    for (size_t i = 0; i < last && i < woven.answer.steps; i++)
        expect(!memcmp(&whole.steps[i], &woven.steps[i], sizeof step), name);
    expect(!memcmp(whole.messages, woven.messages, woven.answer.message_bytes), name);
    drop(whole);
    drop(tree);
    drop(woven);
    free(records);
}

static void test_file(const char *name) {
    FILE *file = fopen(name, "rb");
    if (!file || fseek(file, 0, SEEK_END)) exit(2);
    size_t length = (size_t)ftell(file);
    uint8_t *text = room(length, 1);
    rewind(file);
    if (fread(text, 1, length, file) != length || fclose(file)) exit(2);
    struct rap_record none;
    if (rap_records(text, length, 2021, &none, 0).status == RAP_OK)
        for (uint32_t entry = 0; entry <= RAP_META_ITEM; entry++) test_round(text, length, 2021, entry, name);
    free(text);
}

int main(int count, char **words) {
    static const char *const texts[] = {"", " ", "x.0.1", "x.0.", "x.1e3", "a>>=b", "fn f() { x.0.1.2 /* */ }\n\n// end\n"};
    test_records();
    test_pushed();
    test_no_records();
    test_nodes();
    test_too_many();
    test_names();
    test_no_steps();
    test_no_messages();
    for (size_t i = 0; i < sizeof texts / sizeof *texts; i++)
        for (uint32_t entry = 0; entry <= RAP_META_ITEM; entry++)
            test_round((const uint8_t *)texts[i], strlen(texts[i]), 2024, entry, texts[i]);
    for (int i = 1; i < count; i++) test_file(words[i]);
    return wrong;
}
