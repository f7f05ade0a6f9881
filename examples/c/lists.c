/* lists FILE.. tests the calls that return a tree in one list: with results worked out by hand, and, on each file, that
 * the list is what the steps of rap_tree and rap_prefix make. Prints what is wrong, and returns 1 then. */
#include <stdio.h>
#include <stdlib.h>
#include <string.h>
#include "rap.h"

static int wrong = 0;

static void expect(int holds, const char *what) {
    if (holds) return;
    printf("lists: %s\n", what);
    wrong = 1;
}

static void *room(size_t count, size_t size) {
    void *made = calloc(count + 1, size);
    if (!made) exit(2);
    return made;
}

/* A tree in one list, with all of its messages. */
struct list {
    struct rap_nodes_answer answer;
    struct rap_element *elements;
    struct rap_message *messages;
    uint8_t *bytes;
};

/* A call that returns one: rap_nodes, or rap_prefix_nodes. */
struct call {
    const uint8_t *text;
    size_t length;
    uint32_t edition, entry;
    int is_prefix;
};

static struct rap_nodes_answer fill(const struct call *c, struct list *l, size_t elements, size_t messages,
                                    size_t bytes) {
    return (c->is_prefix ? rap_prefix_nodes : rap_nodes)(c->text, c->length, c->edition, c->entry, l->elements,
                                                         elements, l->messages, messages, l->bytes, bytes);
}

static struct list with_room(size_t elements, size_t messages, size_t bytes) {
    struct list l = {{0, 0, 0, 0, 0}, room(elements, sizeof *l.elements), room(messages, sizeof *l.messages),
                     room(bytes, 1)};
    return l;
}

static void drop(struct list l) { free(l.elements), free(l.messages), free(l.bytes); }

static int are_same(struct rap_nodes_answer a, struct rap_nodes_answer b) {
    return a.status == b.status && a.elements == b.elements && a.messages == b.messages &&
           a.message_bytes == b.message_bytes && a.used == b.used;
}

/* Counts, fills arrays of these lengths, and then smaller ones, which must hold the same up to their ends. */
static struct list called(const struct call *c) {
    struct list none = with_room(0, 0, 0);
    struct rap_nodes_answer a = fill(c, &none, 0, 0, 0);
    struct list all = with_room(a.elements, a.messages, a.message_bytes);
    all.answer = fill(c, &all, a.elements, a.messages, a.message_bytes);
    expect(are_same(all.answer, a), "another answer with room than without");
    for (size_t part = 1; part <= 3; part++) {
        size_t elements = a.elements * part / 4, messages = a.messages * part / 4, bytes = a.message_bytes * part / 4;
        struct list some = with_room(a.elements, a.messages, a.message_bytes);
        expect(are_same(fill(c, &some, elements, messages, bytes), a), "another answer with less room");
        expect(!memcmp(some.elements, all.elements, elements * sizeof *all.elements), "other elements with less room");
        expect(!memcmp(some.messages, all.messages, messages * sizeof *all.messages), "other messages with less room");
        expect(!memcmp(some.bytes, all.bytes, bytes), "other bytes of messages with less room");
        expect(some.elements[elements].kind == 0 && some.messages[messages].text_end == 0, "something after the room");
        drop(some);
    }
    drop(none);
    return all;
}

static int is_leaf(const struct rap_element *e, uint32_t i) { return e[i].after == i + 1 && e[i].start < e[i].end; }

/* The list that steps make, node by node. `inner` has room for as many indices as there are steps. */
static size_t elements_of(const struct rap_step *steps, size_t count, struct rap_element *made, uint32_t *inner) {
    size_t open = 0;
    uint32_t found = 0;
    for (size_t i = 0; i < count; i++) {
        uint32_t parent = open ? inner[open - 1] : RAP_NO_PARENT;
        if (steps[i].what == RAP_ENTER || steps[i].what == RAP_TOKEN) {
            struct rap_element e = {steps[i].kind, (uint32_t)steps[i].start, (uint32_t)steps[i].end, found + 1, parent};
            if (steps[i].what == RAP_ENTER) inner[open++] = found;
            made[found++] = e;
            if (steps[i].what == RAP_TOKEN) expect(is_leaf(made, found - 1), "a leaf that looks like a node");
        } else if (steps[i].what == RAP_EXIT) {
            uint32_t node = inner[--open];
            made[node].after = found;
            made[node].end = (uint32_t)steps[i].at;
            expect(!is_leaf(made, node), "a node that looks like a leaf");
        }
    }
    return found;
}

/* Compares the messages with those of steps: the first `parsed` of these are the parser's, the others the lexer's. Each
 * of the list is the next of one of the two, whichever is at an earlier byte, at one byte the parser's. */
static void compare_messages(const struct list *l, const struct rap_step *steps, size_t count, size_t parsed,
                             const uint8_t *said) {
    size_t next = 0, later = parsed, text = 0, found = 0;
    uint32_t leaf = 0;
    for (;;) {
        while (next < parsed && steps[next].what != RAP_MESSAGE) next++;
        while (later < count && steps[later].what != RAP_MESSAGE) later++;
        if (next >= parsed && later >= count) break;
        int is_lexed = next >= parsed || (later < count && steps[later].at < steps[next].at);
        const struct rap_step *step = &steps[is_lexed ? later++ : next++];
        if (found >= l->answer.messages) break;
        const struct rap_message *m = &l->messages[found++];
        size_t length = step->end - step->start;
        expect(m->at == step->at, "another place of a message");
        expect(m->text_start == text && m->text_end == text + length, "another range of a message's bytes");
        expect(!memcmp(l->bytes + text, said + step->start, length), "another text of a message");
        text += length;
        while (leaf < l->answer.elements && !(is_leaf(l->elements, leaf) && m->at < l->elements[leaf].end)) leaf++;
        size_t start = leaf < l->answer.elements ? l->elements[leaf].start : m->at;
        size_t end = leaf < l->answer.elements ? l->elements[leaf].end : m->at;
        expect(m->start == start && m->end == end, "another range of a message");
    }
    expect(found == l->answer.messages && text == l->answer.message_bytes && next >= parsed && later >= count,
           "another number of messages");
}

/* A text's list is what its steps make. */
static void compare(const struct call *c) {
    struct list l = called(c);
    struct rap_step none, *steps;
    uint8_t byte, *said;
    struct rap_answer (*steps_call)(const uint8_t *, size_t, uint32_t, uint32_t, struct rap_step *, size_t, uint8_t *,
                                    size_t) = c->is_prefix ? rap_prefix : rap_tree;
    struct rap_answer t = steps_call(c->text, c->length, c->edition, c->entry, &none, 0, &byte, 0);
    expect(l.answer.status == t.status && l.answer.used == t.used, "another answer than that of the steps");
    if (t.status != RAP_OK) {
        expect(!l.answer.elements && !l.answer.messages && !l.answer.message_bytes, "numbers where there is no tree");
        drop(l);
        return;
    }
    steps = room(t.steps, sizeof *steps);
    said = room(t.message_bytes, 1);
    steps_call(c->text, c->length, c->edition, c->entry, steps, t.steps, said, t.message_bytes);
    struct rap_element *made = room(t.steps, sizeof *made);
    uint32_t *inner = room(t.steps, sizeof *inner);
    size_t count = elements_of(steps, t.steps, made, inner), parsed = t.steps;
    expect(count == l.answer.elements, "another number of elements than the steps'");
    expect(!memcmp(made, l.elements, count * sizeof *made), "another list than the steps'");
    while (parsed > 0 && steps[parsed - 1].what != RAP_EXIT) parsed--;
    compare_messages(&l, steps, t.steps, parsed, said);
    free(steps), free(said), free(made), free(inner);
    drop(l);
}

static int is_element(struct rap_element e, uint32_t kind, uint32_t start, uint32_t end, uint32_t after,
                      uint32_t parent) {
    return e.kind == kind && e.start == start && e.end == end && e.after == after && e.parent == parent;
}

static int is_message(struct rap_message m, size_t at, size_t start, size_t end, size_t text_start, size_t text_end) {
    return m.at == at && m.start == start && m.end == end && m.text_start == text_start && m.text_end == text_end;
}

/* `0x +`: an operand is missing, and the digits of the number are. */
static void test_list(void) {
    struct call c = {(const uint8_t *)"0x +", 4, 2024, RAP_EXPR, 0};
    struct list l = called(&c);
    expect(l.answer.status == RAP_OK && l.answer.elements == 6 && l.answer.messages == 2, "the answer of a list");
    expect(l.answer.message_bytes == 63 && l.answer.used == 4, "the other numbers of a list");
    const struct rap_element *e = l.elements;
    expect(is_element(e[0], RAP_KIND_BIN_EXPR, 0, 4, 6, RAP_NO_PARENT), "the root");
    expect(is_element(e[1], RAP_KIND_LITERAL, 0, 2, 3, 0), "a node");
    expect(is_element(e[2], RAP_KIND_INT_NUMBER, 0, 2, 3, 1), "a leaf");
    expect(is_element(e[3], RAP_KIND_WHITESPACE, 2, 3, 4, 0), "white space");
    expect(is_element(e[4], RAP_KIND_PLUS, 3, 4, 5, 0), "an operator");
    expect(is_element(e[5], RAP_KIND_ERROR, 4, 4, 6, 0), "an empty node");
    expect(is_message(l.messages[0], 0, 0, 2, 0, 44) && is_message(l.messages[1], 4, 4, 4, 44, 63), "messages");
    expect(!memcmp(l.bytes, "Missing digits after the integer base prefixexpected expression", 63), "their texts");
    drop(l);
}

/* A float that is taken apart, with a message of the lexer about it; and messages of both about one token. */
static void test_messages(void) {
    struct call c = {(const uint8_t *)"x.1.2e", 6, 2024, RAP_EXPR, 0};
    struct list l = called(&c);
    expect(l.answer.messages == 1 && is_message(l.messages[0], 2, 2, 3, 0, 40), "a message at a part of a float");
    drop(l);
    struct call both = {(const uint8_t *)"x 'a", 4, 2021, RAP_EXPR, 0};
    compare(&both);
}

/* Fronts that are one tree and none, and a node. */
static void test_fronts(void) {
    struct call c = {(const uint8_t *)" a + b ] c", 10, 2021, RAP_PREFIX_EXPR, 1};
    struct list l = called(&c);
    expect(l.answer.status == RAP_OK && l.answer.elements == 16 && l.answer.used == 6, "the answer of a front");
    expect(is_element(l.elements[0], RAP_KIND_BIN_EXPR, 0, 7, 16, RAP_NO_PARENT), "a front with its trivia");
    drop(l);
    struct call none = {(const uint8_t *)"x", 1, 2021, RAP_PREFIX_VIS, 1};
    l = called(&none);
    expect(l.answer.status == RAP_NO_TREE && l.answer.elements == 0 && l.answer.used == 0, "no front");
    drop(l);
    struct list n = with_room(9, 1, 9);
    struct rap_nodes_answer a = rap_reparse_nodes((const uint8_t *)"{ x }", 5, 2021, RAP_KIND_ITEM_LIST, RAP_NO_KIND,
                                                  RAP_NO_KIND, n.elements, 9, n.messages, 0, n.bytes, 0);
    expect(a.status == RAP_OK && a.used == 5 && a.messages > 0, "the answer of a node");
    expect(n.elements[0].kind == RAP_KIND_ITEM_LIST && n.elements[0].end == 5, "a node");
    a = rap_reparse_nodes((const uint8_t *)"x", 1, 2021, RAP_KIND_ITEM_LIST, RAP_NO_KIND, RAP_NO_KIND, n.elements, 9,
                          n.messages, 1, n.bytes, 9);
    expect(a.status == RAP_NO_BRACE && a.elements == 0 && a.used == 0, "a node without its brace");
    a = rap_reparse_nodes((const uint8_t *)"x", 1, 2021, RAP_KIND_NAME, RAP_NO_KIND, RAP_NO_KIND, n.elements, 9,
                          n.messages, 1, n.bytes, 9);
    expect(a.status == RAP_NO_NODE && a.elements == 0, "no such node");
    drop(n);
}

static void test_faults(void) {
    struct list l = with_room(1, 1, 1);
    struct call c = {(const uint8_t *)"x", 1, 2022, RAP_EXPR, 0};
    expect(fill(&c, &l, 1, 1, 1).status == RAP_NO_EDITION, "no edition");
    c.edition = 2021, c.entry = RAP_META_ITEM + 1;
    expect(fill(&c, &l, 1, 1, 1).status == RAP_NO_ENTRY, "no entry");
    c.entry = RAP_EXPR, c.text = (const uint8_t *)"\xff";
    struct rap_nodes_answer a = fill(&c, &l, 1, 1, 1);
    expect(a.status == RAP_NOT_UTF8 && !a.elements && !a.messages && !a.message_bytes && !a.used, "no UTF-8");
    expect(l.elements[0].after == 0 && l.messages[0].at == 0 && l.bytes[0] == 0, "something written at a fault");
    drop(l);
}

static void compare_file(const char *path) {
    FILE *file = fopen(path, "rb");
    if (!file) exit(2);
    size_t length = 0, some;
    uint8_t *text = room(1 << 22, 1);
    while ((some = fread(text + length, 1, (1 << 22) - length, file)) > 0) length += some;
    fclose(file);
    for (uint32_t entry = RAP_SOURCE_FILE; entry <= RAP_META_ITEM; entry++) {
        struct call c = {text, length, 2021, entry, 0};
        compare(&c);
    }
    for (uint32_t entry = RAP_PREFIX_VIS; entry <= RAP_PREFIX_META_ITEM; entry++) {
        struct call c = {text, length, 2024, entry, 1};
        compare(&c);
    }
    free(text);
}

int main(int count, char **words) {
    test_list();
    test_messages();
    test_fronts();
    test_faults();
    for (int i = 1; i < count; i++) compare_file(words[i]);
    return wrong;
}
