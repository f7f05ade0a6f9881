/* A target for libFuzzer: what must hold for each call, whatever the bytes are. `examples/fuzz` builds and runs it.
 *
 * The bytes are the text; their number selects the edition and the entries. It ends the process if
 * - a tree's tokens, joined, are not the text, or its nodes do not nest, or a message is outside of the text;
 * - a call writes after the end of its arrays, or writes other values in small arrays than in large ones, or writes
 *   although it returns a fault;
 * - a tree in one list is not what its steps make, or its messages are not those of the steps in the order of the text;
 * - one call rejects the bytes as no UTF-8, and another accepts them;
 * - the tokens that a prefix entry takes are not a prefix of the text;
 * - a node that begins with `{` and ends with its own `}` differs when it is parsed again from its own text;
 * - a text of the core grammar has a message, or one outside of it no place of what is outside, or such a place is not in
 *   the text;
 * - memory is not freed after a call (by clang's address sanitizer).
 *
 * The library counts no branches for libFuzzer. So that it sees what is new, the kinds that are inside one another and
 * beside one another, and the messages, are counted here. */
#include <stdio.h>
#include <stdlib.h>
#include <string.h>
#include "rap.h"

enum { COUNTERS = 1 << 16, NODES = 16, DEEPEST = 1 << 12 };

__attribute__((section("__libfuzzer_extra_counters"))) static uint8_t counters[COUNTERS];

struct tree {
    struct rap_answer answer;
    struct rap_step *steps;
    uint8_t *messages;
};

static void check(int holds, const char *what) {
    if (holds) return;
    fprintf(stderr, "fuzz: not so: %s\n", what);
    abort();
}

static void *room_of(size_t size) {
    void *room = malloc(size + 1);
    if (!room) exit(2);
    return memset(room, 0xa5, size + 1);
}

static void count(uint32_t some, uint32_t other, uint32_t more) {
    uint32_t place = (some * 331 + other * 7919 + more * 104729) % COUNTERS;
    if (counters[place] < 255) counters[place]++;
}

/* A call, by its number: a tree, tokens, a prefix, or a node that is parsed again. */
struct call {
    int which;
    uint32_t edition, entry, first_child, parent;
    const uint8_t *text;
    size_t length;
};

static struct rap_answer made(const struct call *c, struct rap_step *steps, size_t room, uint8_t *bytes, size_t more) {
    if (c->which == 0) return rap_tree(c->text, c->length, c->edition, c->entry, steps, room, bytes, more);
    if (c->which == 1) return rap_tokens(c->text, c->length, c->edition, steps, room, bytes, more);
    if (c->which == 2) return rap_prefix(c->text, c->length, c->edition, c->entry, steps, room, bytes, more);
    return rap_reparse(c->text, c->length, c->edition, c->entry, c->first_child, c->parent, steps, room, bytes, more);
}

static void free_tree(struct tree *tree) {
    free(tree->steps);
    free(tree->messages);
}

static int is_same(struct rap_answer one, struct rap_answer other) {
    return one.status == other.status && one.steps == other.steps && one.message_bytes == other.message_bytes &&
           one.used == other.used;
}

/* That nothing is written from this byte on. */
static void check_rest(const void *room, size_t from, size_t size) {
    const uint8_t *bytes = room;
    while (from <= size) check(bytes[from++] == 0xa5, "nothing is written after the end of an array");
}

/* Calls with arrays of no length, with large ones, and with small ones. */
static struct tree call(const struct call *c) {
    struct rap_step *none = room_of(0);
    uint8_t *no_byte = room_of(0);
    struct tree tree;
    tree.answer = made(c, none, 0, no_byte, 0);
    size_t steps = tree.answer.steps, size = steps * sizeof *none, bytes = tree.answer.message_bytes;
    if (tree.answer.status > RAP_NO_TREE)
        check(steps == 0 && bytes == 0 && tree.answer.used == 0, "a refusal has no numbers");
    tree.steps = room_of(size);
    tree.messages = room_of(bytes);
    check(is_same(made(c, tree.steps, steps, tree.messages, bytes), tree.answer), "the same answer comes again");
    struct rap_step *few = room_of(size);
    uint8_t *fewer = room_of(bytes);
    check(is_same(made(c, few, steps / 2, fewer, bytes / 2), tree.answer), "the result does not depend on the room");
    check(!memcmp(few, tree.steps, steps / 2 * sizeof *none), "less room has the same steps at its start");
    check(!memcmp(fewer, tree.messages, bytes / 2), "less room has the same messages at its start");
    check_rest(none, 0, 0);
    check_rest(no_byte, 0, 0);
    check_rest(tree.steps, size, size);
    check_rest(tree.messages, bytes, bytes);
    check_rest(few, steps / 2 * sizeof *none, size);
    check_rest(fewer, bytes / 2, bytes);
    free(none);
    free(no_byte);
    free(few);
    free(fewer);
    return tree;
}

/* Checks that the tokens of a tree, or of none, are a prefix of the text, that its nodes nest, and that its messages
 * are inside the text. */
static void check_steps(const struct call *c, const struct tree *tree, int is_tree) {
    size_t depth = 0, end = 0, said = 0;
    uint32_t before = 0, around[DEEPEST] = {0};
    for (size_t i = 0; i < tree->answer.steps; i++) {
        const struct rap_step *step = &tree->steps[i];
        if (step->what == RAP_ENTER) {
            check(is_tree && step->start == end && step->end == end, "a node begins where the last token ends");
            count(around[depth % DEEPEST], step->kind, 0);
            around[++depth % DEEPEST] = step->kind;
        } else if (step->what == RAP_EXIT) {
            check(depth > 0 && step->at == end && step->kind == 0, "a node ends where its last token does");
            depth--;
        } else if (step->what == RAP_TOKEN) {
            check(step->start == end && step->end > end && step->at == end, "a token is where the last one ends");
            check((depth > 0) == is_tree, "a token is inside a node");
            count(around[depth % DEEPEST], step->kind, before);
            before = step->kind;
            end = step->end;
        } else {
            check(step->what == RAP_MESSAGE && step->start == said && step->end > said, "a step is a message");
            check(step->at <= c->length, "a message lies in the text");
            said = step->end;
            count(around[depth % DEEPEST], 1000, (uint32_t)(step->end - step->start));
        }
        check(step->kind <= RAP_LAST_KIND, "a step has a kind");
    }
    check(depth == 0 && said == tree->answer.message_bytes, "all nodes are ended");
    check(end <= c->length && tree->answer.used <= c->length, "the tokens lie in the text");
    if (c->which < 2) check(end == c->length && tree->answer.used == end, "the tokens are the text");
}

/* Whether a step of a tree is this one of a node of it whose text begins at this byte. */
static int same_step(const struct tree *tree, size_t step, const struct tree *node, size_t other, size_t base) {
    const struct rap_step *one = &tree->steps[step], *two = &node->steps[other];
    if (one->what != two->what || one->kind != two->kind || one->at != two->at + base) return 0;
    if (one->what != RAP_MESSAGE) return one->start == two->start + base && one->end == two->end + base;
    size_t length = one->end - one->start;
    return length == two->end - two->start && !memcmp(tree->messages + one->start, node->messages + two->start, length);
}

/* Parses the node that begins at this step again, if it is one in braces that it ends with. Returns whether it did. */
static int reparse(const struct call *c, const struct tree *tree, size_t first, uint32_t parent) {
    const struct rap_step *steps = tree->steps;
    size_t last = first, depth = 1;
    while (depth > 0) {
        last++;
        depth += steps[last].what == RAP_ENTER;
        depth -= steps[last].what == RAP_EXIT;
    }
    size_t ends = steps[first].kind == RAP_KIND_BLOCK_EXPR ? 2 : 1;
    const struct rap_step *brace = &steps[last - ends];
    if (last - first <= 2 * ends || brace->what != RAP_TOKEN || brace->kind != RAP_KIND_R_CURLY) return 0;
    if (ends == 2 && (steps[first + 1].what != RAP_ENTER || steps[last - 1].what != RAP_EXIT)) return 0;
    const struct rap_step *open = &steps[first + ends];
    if (open->what != RAP_TOKEN || open->kind != RAP_KIND_L_CURLY) return 0;
    size_t base = steps[first].at, length = steps[last].at - base;
    uint32_t child = steps[first + 1].kind;
    struct call again = {3, c->edition, steps[first].kind, child, parent, c->text + base, length};
    struct tree node = call(&again);
    if (node.answer.status != RAP_NO_NODE) {
        check(node.answer.status == RAP_OK && node.answer.used == length, "a node in braces is all of its text again");
        check(node.answer.steps == last - first + 1, "a node in braces has as many steps again");
        for (size_t i = 0; i < node.answer.steps; i++)
            check(same_step(tree, first + i, &node, i, base), "a node in braces has the same steps again");
    }
    int is_one = node.answer.status == RAP_OK;
    free_tree(&node);
    return is_one;
}

static void reparse_nodes(const struct call *c, const struct tree *tree) {
    uint32_t around[DEEPEST] = {0};
    size_t depth = 0, tried = 0;
    for (size_t i = 0; i < tree->answer.steps && tried < NODES && depth + 1 < DEEPEST; i++)
        if (tree->steps[i].what == RAP_ENTER) {
            tried += (size_t)reparse(c, tree, i, depth ? around[depth] : RAP_NO_KIND);
            around[++depth] = tree->steps[i].kind;
        } else if (tree->steps[i].what == RAP_EXIT) {
            depth--;
        }
}

/* A tree in one list, with all of its messages. */
struct list {
    struct rap_nodes_answer answer;
    struct rap_element *elements;
    struct rap_message *messages;
    uint8_t *bytes;
};

static int is_same_list(struct rap_nodes_answer one, struct rap_nodes_answer other) {
    return one.status == other.status && one.elements == other.elements && one.messages == other.messages &&
           one.message_bytes == other.message_bytes && one.used == other.used;
}

/* The list of a tree or of a prefix, with room for this part of it in four. */
static struct list listed(const struct call *c, struct rap_nodes_answer all, size_t part) {
    size_t elements = all.elements * part / 4, messages = all.messages * part / 4, bytes = all.message_bytes * part / 4;
    struct list l = {all, room_of(elements * sizeof *l.elements), room_of(messages * sizeof *l.messages),
                     room_of(bytes)};
    l.answer = (c->which == 2 ? rap_prefix_nodes : rap_nodes)(c->text, c->length, c->edition, c->entry, l.elements,
                                                              elements, l.messages, messages, l.bytes, bytes);
    check_rest(l.elements, elements * sizeof *l.elements, elements * sizeof *l.elements);
    check_rest(l.messages, messages * sizeof *l.messages, messages * sizeof *l.messages);
    check_rest(l.bytes, bytes, bytes);
    if (part > 0) check(is_same_list(l.answer, all), "the numbers of a list do not depend on the room");
    return l;
}

static void free_list(struct list l) {
    free(l.elements);
    free(l.messages);
    free(l.bytes);
}

/* Whether an element is a leaf. */
static int is_leaf(const struct list *l, uint32_t i) {
    return l->elements[i].after == i + 1 && l->elements[i].start < l->elements[i].end;
}

/* Checks that the elements are what the steps make. `around` has room for each open node. */
static void check_elements(const struct list *l, const struct tree *tree, uint32_t *around) {
    size_t depth = 0, end = 0;
    uint32_t i = 0;
    for (size_t s = 0; s < tree->answer.steps; s++) {
        const struct rap_step *step = &tree->steps[s];
        const struct rap_element *e = &l->elements[i];
        if (step->what == RAP_EXIT) {
            const struct rap_element *node = &l->elements[around[--depth]];
            check(node->after == i && node->end == end, "a node ends in the list where it does in the steps");
            check(!is_leaf(l, around[depth]), "a node does not look like a leaf");
        }
        if (step->what != RAP_ENTER && step->what != RAP_TOKEN) continue;
        check(i < l->answer.elements && e->kind == step->kind && e->start == step->start, "an element is that of a step");
        check(e->parent == (depth ? around[depth - 1] : RAP_NO_PARENT), "an element is in the newest open node");
        if (step->what == RAP_TOKEN) check(is_leaf(l, i), "a leaf looks like one");
        if (step->what == RAP_ENTER) around[depth++] = i;
        else check(e->after == i + 1 && e->end == step->end, "nothing is in a leaf");
        end = step->end;
        i++;
    }
    check(i == l->answer.elements && depth == 0, "there are as many elements as nodes and leaves");
}

/* Checks that the messages rise, that each has its leaf, and that there are as many as among the steps. */
static void check_messages(const struct list *l, const struct tree *tree) {
    size_t said = 0, count = 0;
    uint32_t leaf = 0;
    for (size_t s = 0; s < tree->answer.steps; s++) count += tree->steps[s].what == RAP_MESSAGE;
    for (size_t i = 0; i < l->answer.messages; i++) {
        const struct rap_message *m = &l->messages[i];
        check(m->text_start == said && m->text_end > said, "the texts of messages follow one another");
        check(i == 0 || m[-1].at <= m->at, "messages are in the order of the text");
        said = m->text_end;
        while (leaf < l->answer.elements && !(is_leaf(l, leaf) && m->at < l->elements[leaf].end)) leaf++;
        size_t start = leaf < l->answer.elements ? l->elements[leaf].start : m->at;
        size_t end = leaf < l->answer.elements ? l->elements[leaf].end : m->at;
        check(m->start == start && m->end == end, "a message has the range of its leaf");
    }
    check(count == l->answer.messages && said == tree->answer.message_bytes, "as many messages as in steps");
}

/* Checks the list of a tree, or of a prefix that is one. */
static void check_list(const struct call *c, const struct tree *tree) {
    struct rap_nodes_answer none = {0};
    struct list l = listed(c, none, 0);
    struct rap_nodes_answer all = l.answer;
    free_list(l);
    check(all.status == tree->answer.status && all.used == tree->answer.used, "a list has the status of its steps");
    if (all.status != RAP_OK) {
        check(all.elements == 0 && all.messages == 0 && all.message_bytes == 0, "what is no tree has no list");
        return;
    }
    l = listed(c, all, 4);
    uint32_t *around = room_of((tree->answer.steps + 1) * sizeof *around);
    check_elements(&l, tree, around);
    check_messages(&l, tree);
    free(around);
    struct list few = listed(c, all, 2);
    check(!memcmp(few.elements, l.elements, all.elements / 2 * sizeof *l.elements), "less room has the same elements");
    check(!memcmp(few.messages, l.messages, all.messages / 2 * sizeof *l.messages), "less room has the same messages");
    check(!memcmp(few.bytes, l.bytes, all.message_bytes / 2), "less room has the same bytes of messages");
    free_list(few);
    free_list(l);
}

/* The places of what is outside of the core grammar, in a room for so many. */
static struct rap_place *places_of(const struct call *c, struct rap_core_answer all, size_t room) {
    struct rap_place *places = room_of(room * sizeof *places);
    struct rap_core_answer told = rap_core(c->text, c->length, c->edition, places, room);
    check(told.derived == all.derived && told.places == all.places, "the numbers of places do not depend on the room");
    check_rest(places, room * sizeof *places, room * sizeof *places);
    return places;
}

/* Checks what is told of a file by the core grammar. */
static void check_core(const struct call *c, const struct tree *tree) {
    struct rap_place none;
    struct rap_core_answer all = rap_core(c->text, c->length, c->edition, &none, 0);
    check(all.status == RAP_OK && all.used == c->length, "all text is told of");
    check(all.derived == (all.places == 0), "what is not of the core grammar has something outside");
    check(!all.derived || tree->answer.message_bytes == 0, "what is of the core grammar has no message");
    struct rap_place *places = places_of(c, all, all.places), *few = places_of(c, all, all.places / 2);
    check(!memcmp(places, few, all.places / 2 * sizeof *few), "less room has the same places");
    for (size_t i = 0; i < all.places; i++) {
        const struct rap_place *place = &places[i];
        check(place->start <= place->end && place->end <= c->length, "a place is in the text");
        check(place->is_token <= (i ? places[i - 1].is_token : 1), "tokens come before nodes");
        if (i && place->is_token == places[i - 1].is_token)
            check(places[i - 1].end <= place->start, "tokens are in order, and so are nodes");
    }
    free(places);
    free(few);
}

int LLVMFuzzerTestOneInput(const uint8_t *text, size_t length) {
    static const uint32_t EDITIONS[] = {2024, 2021, 2018, 2015};
    struct call c = {0, EDITIONS[length / 70 % 4], (uint32_t)(length % 7), RAP_NO_KIND, RAP_NO_KIND, text, length};
    struct tree tree = call(&c);
    c.which = 1;
    struct tree tokens = call(&c);
    check(tree.answer.status == tokens.answer.status, "both take the bytes, or none");
    check(tree.answer.status == RAP_OK || tree.answer.status == RAP_NOT_UTF8, "all text is taken");
    if (tree.answer.status == RAP_OK) {
        check_steps(&c, &tokens, 0);
        c.which = 0;
        check_steps(&c, &tree, 1);
        check_list(&c, &tree);
        if (c.entry == RAP_SOURCE_FILE) check_core(&c, &tree);
        reparse_nodes(&c, &tree);
        c.which = 2;
        c.entry = (uint32_t)(length % 10);
        struct tree prefix = call(&c);
        check(prefix.answer.status <= RAP_NO_TREE, "all text has a front");
        if (prefix.answer.status == RAP_OK) check_steps(&c, &prefix, 1);
        check_list(&c, &prefix);
        check(prefix.answer.used <= length, "a front is no longer than the text");
        free_tree(&prefix);
    }
    free_tree(&tree);
    free_tree(&tokens);
    return 0;
}
