/* The calls of the static library as a line of words names them, for the tests of its exports.
 *
 *     tree EDITION ENTRY TEXT
 *     tokens EDITION TEXT
 *     prefix EDITION ENTRY TEXT
 *     reparse EDITION NODE FIRST PARENT TEXT
 *     words EDITION ENTRY TEXT
 *     nodes EDITION ENTRY TEXT
 *     prefix_nodes EDITION ENTRY TEXT
 *     reparse_nodes EDITION NODE FIRST PARENT TEXT
 *     core EDITION TEXT
 *     script TEXT
 *     shebang TEXT
 *     blank TEXT
 *     string NODE TEXT
 *     number NODE TEXT
 *
 * ENTRY is a number; NODE, FIRST and PARENT are names of kinds, or `-` for none; TEXT is in hexadecimal digits after
 * an `=`; the `=` alone is the empty text. */
#ifndef EXPORTS_H
#define EXPORTS_H

#include "rap.h"
#include <stdio.h>
#include <stdlib.h>
#include <string.h>

enum which {
    TREE, TOKENS, PREFIX, REPARSE, WORDS, NODES, PREFIX_NODES, REPARSE_NODES, CORE, SCRIPT, SHEBANG, BLANK,
    STRING_VALUE, NUMBER_VALUE, NO_CALL
};

/* A call without its arrays. */
struct call {
    enum which which;
    uint32_t edition, entry, node, first_child, parent;
    uint8_t *text;
    size_t length;
};

/* The arrays of a call, and how much room they have: the first is of steps, words, elements, places or parts, as the
 * call has them; the second of messages, where the call has them apart; and the last of the messages' bytes, or of
 * those that a string stands for. */
struct room {
    void *steps;
    size_t step_room;
    struct rap_message *notes;
    size_t note_room;
    uint8_t *messages;
    size_t message_room;
};

/* What a call returns: its status, how many there are of what the arrays hold, and whether the text is derived, where
 * the call tells that. */
struct numbers {
    uint32_t status;
    size_t steps;
    size_t notes;
    size_t message_bytes;
    size_t used;
    uint32_t derived;
};

/* Whether the call returns a tree in one list. */
static inline int has_list(const struct call *c)
{
    return c->which == NODES || c->which == PREFIX_NODES || c->which == REPARSE_NODES;
}

/* How many bytes one of the first array has. The last four calls have none. */
static inline size_t size_of_step(const struct call *c)
{
    if (has_list(c))
        return sizeof(struct rap_element);
    if (c->which == CORE)
        return sizeof(struct rap_place);
    if (c->which == SCRIPT)
        return sizeof(struct rap_part);
    return c->which == WORDS ? sizeof(uint32_t) : sizeof(struct rap_step);
}

/* Makes a call that returns a tree in one list on a text at another address. */
static inline struct rap_nodes_answer list_at(const struct call *c, const uint8_t *text, struct room r)
{
    if (c->which == NODES)
        return rap_nodes(text, c->length, c->edition, c->entry, r.steps, r.step_room, r.notes, r.note_room, r.messages,
                         r.message_room);
    if (c->which == PREFIX_NODES)
        return rap_prefix_nodes(text, c->length, c->edition, c->entry, r.steps, r.step_room, r.notes, r.note_room,
                                r.messages, r.message_room);
    return rap_reparse_nodes(text, c->length, c->edition, c->node, c->first_child, c->parent, r.steps, r.step_room,
                             r.notes, r.note_room, r.messages, r.message_room);
}

/* Makes a call for the value of a literal on a text at another address. */
static inline struct rap_answer value_at(const struct call *c, const uint8_t *text, struct room r)
{
    if (c->which == STRING_VALUE) {
        struct rap_string string = rap_string_value(text, c->length, c->node, r.messages, r.message_room);
        struct rap_answer of_string = {string.status, 0, string.bytes, 0};
        return of_string;
    }
    struct rap_number number = rap_number_value(text, c->length, c->node);
    struct rap_answer of_number = {number.status, 0, 0, number.suffix};
    return of_number;
}

/* Makes another call on a text at another address. */
static inline struct rap_answer steps_at(const struct call *c, const uint8_t *text, struct room r)
{
    switch (c->which) {
    case TREE:
        return rap_tree(text, c->length, c->edition, c->entry, r.steps, r.step_room, r.messages, r.message_room);
    case TOKENS:
        return rap_tokens(text, c->length, c->edition, r.steps, r.step_room, r.messages, r.message_room);
    case PREFIX:
        return rap_prefix(text, c->length, c->edition, c->entry, r.steps, r.step_room, r.messages, r.message_room);
    case REPARSE:
        return rap_reparse(text, c->length, c->edition, c->node, c->first_child, c->parent, r.steps, r.step_room,
                           r.messages, r.message_room);
    case WORDS:
        return rap_tree_words(text, c->length, c->edition, c->entry, r.steps, r.step_room, r.messages, r.message_room);
    case SCRIPT:
        return rap_script(text, c->length, r.steps, r.step_room, r.messages, r.message_room);
    case SHEBANG:
        return rap_shebang(text, c->length);
    case BLANK:
        return rap_blank_lines(text, c->length);
    default:
        return value_at(c, text, r);
    }
}

/* Makes a call on a text at another address. */
static inline struct numbers answer_at(const struct call *c, const uint8_t *text, struct room r)
{
    if (has_list(c)) {
        struct rap_nodes_answer list = list_at(c, text, r);
        struct numbers of_list = {list.status, list.elements, list.messages, list.message_bytes, list.used, 0};
        return of_list;
    }
    if (c->which == CORE) {
        struct rap_core_answer told = rap_core(text, c->length, c->edition, r.steps, r.step_room);
        struct numbers of_core = {told.status, told.places, 0, 0, told.used, told.derived};
        return of_core;
    }
    struct rap_answer steps = steps_at(c, text, r);
    struct numbers of_steps = {steps.status, steps.steps, 0, steps.message_bytes, steps.used, 0};
    return of_steps;
}

static inline int are_same(struct numbers a, struct numbers b)
{
    return a.status == b.status && a.steps == b.steps && a.notes == b.notes && a.message_bytes == b.message_bytes
        && a.used == b.used && a.derived == b.derived;
}

/* The number of the kind of this name. */
static inline uint32_t kind_named(const char *name)
{
    uint8_t bytes[64];
    if (strcmp(name, "-") == 0)
        return RAP_NO_KIND;
    for (uint32_t kind = 0; kind <= RAP_LAST_KIND; kind++)
        if (rap_kind_name(kind, bytes, sizeof bytes) == strlen(name) && memcmp(bytes, name, strlen(name)) == 0)
            return kind;
    fprintf(stderr, "no kind has the name %s\n", name);
    exit(2);
}

static inline const char *next_word(void)
{
    const char *word = strtok(NULL, " \n");
    if (!word) {
        fprintf(stderr, "a line ends too early\n");
        exit(2);
    }
    return word;
}

/* The text of `=` and hexadecimal digits. Its place is the call's own. */
static inline void read_text(struct call *c, const char *word)
{
    c->length = strlen(word + 1) / 2;
    c->text = malloc(c->length + 1);
    for (size_t i = 0; i < c->length; i++) {
        unsigned byte;
        if (sscanf(word + 1 + 2 * i, "%2x", &byte) != 1)
            exit(2);
        c->text[i] = (uint8_t)byte;
    }
}

/* Reads a line's call. */
static inline struct call read_call(char *line)
{
    static const char *const names[] = {"tree",  "tokens",       "prefix",        "reparse", "words",   "nodes",
                                        "prefix_nodes", "reparse_nodes", "core", "script",  "shebang", "blank",
                                        "string", "number"};
    struct call c = {0};
    const char *word = strtok(line, " \n");
    while (c.which < NO_CALL && strcmp(word, names[c.which]) != 0)
        c.which++;
    if (c.which == NO_CALL)
        exit(2);
    if (c.which < SCRIPT)
        c.edition = (uint32_t)atoi(next_word());
    if (c.which < CORE && c.which != TOKENS && c.which != REPARSE && c.which != REPARSE_NODES)
        c.entry = (uint32_t)atoi(next_word());
    if (c.which == REPARSE || c.which == REPARSE_NODES || c.which >= STRING_VALUE)
        c.node = kind_named(next_word());
    if (c.which == REPARSE || c.which == REPARSE_NODES) {
        c.first_child = kind_named(next_word());
        c.parent = kind_named(next_word());
    }
    read_text(&c, next_word());
    return c;
}

#endif
