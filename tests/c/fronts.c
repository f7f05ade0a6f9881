/* fronts reads texts, and parses each prefix (front) of those that are wrong, from the empty one to the whole text,
 * that ends at a character boundary, under each top entry. `tests/fronts` calls it.
 *
 * Standard input has for each text a line `EDITION ENTRIES LENGTH`, and then its bytes. ENTRIES has the bit of each
 * entry under which the text is tested: the text is wrong if one of these reports a message. Standard output has a
 * line for each text: `HASH FRONTS TREES` for a wrong one, and otherwise `right`.
 *
 * The hash is that of 64 bits by FNV-1a, in sixteen hexadecimal digits, of the lines of all trees: entry after entry in
 * the order of enum rap_entry, and under each the prefixes from the shortest on. A tree has a line for each step, in the
 * order of its steps, each with a line feed at its end; the lexer's messages are its last ones:
 *
 *     enter KIND            a node begins
 *     token KIND LENGTH     a token, and the number of its bytes
 *     exit                  the newest open node ends
 *     error AT MESSAGE      a message, with its place
 *
 * KIND is the kind's name, and numbers are decimal. After these lines each tree has the line `front ENTRY LENGTH`, with
 * the entry's number and the prefix's length.
 *
 * For each tree it is checked that its tokens, in order, are the prefix, that it is one node that contains all others,
 * and that messages are inside the prefix. Otherwise the program ends with 1 and a line on standard error. */
#include <inttypes.h>
#include <stdio.h>
#include <stdlib.h>
#include <string.h>
#include "rap.h"

enum { ENTRIES = 7 };

struct names {
    uint8_t bytes[RAP_LAST_KIND + 1][32];
    size_t lengths[RAP_LAST_KIND + 1];
};

/* The arrays for a tree, and the results for all trees of a text. */
struct sweep {
    struct rap_step *steps;
    size_t step_room;
    uint8_t *messages;
    size_t message_room;
    uint64_t hash;
    size_t fronts, trees;
};

static struct names names;

static void fail(const char *why, const uint8_t *text, size_t length, uint32_t edition, uint32_t entry) {
    fprintf(stderr, "fronts: %s, under the entry %" PRIu32 " of %" PRIu32 ": ", why, entry, edition);
    fwrite(text, 1, length, stderr);
    fputc('\n', stderr);
    exit(1);
}

static void *grown(void *room, size_t size) {
    void *more = realloc(room, size);
    if (!more) {
        fprintf(stderr, "fronts: no memory\n");
        exit(2);
    }
    return more;
}

static void hash_bytes(struct sweep *sweep, const void *bytes, size_t length) {
    const uint8_t *place = bytes;
    uint64_t hash = sweep->hash;
    for (size_t i = 0; i < length; i++) hash = (hash ^ place[i]) * UINT64_C(0x100000001b3);
    sweep->hash = hash;
}

static void hash_word(struct sweep *sweep, const char *word) {
    hash_bytes(sweep, word, strlen(word));
}

static void hash_number(struct sweep *sweep, size_t number) {
    char digits[24], *place = digits + sizeof digits;
    do *--place = (char)('0' + number % 10);
    while (number /= 10);
    hash_bytes(sweep, place, (size_t)(digits + sizeof digits - place));
}

static void hash_kind(struct sweep *sweep, uint32_t kind) {
    hash_bytes(sweep, names.bytes[kind], names.lengths[kind]);
}

static void hash_step(struct sweep *sweep, const struct rap_step *step) {
    if (step->what == RAP_ENTER) {
        hash_word(sweep, "enter ");
        hash_kind(sweep, step->kind);
    } else if (step->what == RAP_TOKEN) {
        hash_word(sweep, "token ");
        hash_kind(sweep, step->kind);
        hash_word(sweep, " ");
        hash_number(sweep, step->end - step->start);
    } else if (step->what == RAP_EXIT) {
        hash_word(sweep, "exit");
    } else {
        hash_word(sweep, "error ");
        hash_number(sweep, step->at);
        hash_word(sweep, " ");
        hash_bytes(sweep, sweep->messages + step->start, step->end - step->start);
    }
    hash_word(sweep, "\n");
}

/* Parses, with larger arrays if they were too small. */
static struct rap_answer parse(struct sweep *s, const uint8_t *text, size_t length, uint32_t edition, uint32_t entry) {
    for (;;) {
        struct rap_answer answer =
            rap_tree(text, length, edition, entry, s->steps, s->step_room, s->messages, s->message_room);
        if (answer.status != RAP_OK) fail("no tree", text, length, edition, entry);
        if (answer.steps <= s->step_room && answer.message_bytes <= s->message_room) return answer;
        if (answer.steps > s->step_room) {
            s->step_room = 2 * answer.steps;
            s->steps = grown(s->steps, s->step_room * sizeof *s->steps);
        }
        if (answer.message_bytes > s->message_room) {
            s->message_room = 2 * answer.message_bytes;
            s->messages = grown(s->messages, s->message_room);
        }
    }
}

/* What is wrong with the steps of a tree of so many bytes, if anything is. */
static const char *fault_of(const struct rap_step *steps, struct rap_answer answer, size_t length) {
    size_t depth = 0, end = 0, said = 0;
    for (size_t i = 0; i < answer.steps; i++) {
        const struct rap_step *step = &steps[i];
        if (step->what == RAP_MESSAGE) {
            if (step->at > length || step->start != said || step->end < said) return "a message is not in the text";
            said = step->end;
            continue;
        }
        if (depth == 0 && i > 0) return "a step is outside of the root";
        if (step->what == RAP_ENTER) depth++;
        else if (step->what == RAP_EXIT) depth--;
        else if (step->what != RAP_TOKEN || depth == 0) return "a step is no step of a tree";
        else if (step->start != end || step->end <= end) return "a token does not begin where the last one ended";
        else end = step->end;
        if (step->what != RAP_EXIT && step->kind > RAP_LAST_KIND) return "a step has no kind";
    }
    if (depth != 0) return "a node has no end";
    if (said != answer.message_bytes) return "a message is missing";
    return end != length || answer.used != length ? "the tokens are not the text" : NULL;
}

static void sweep_tree(struct sweep *sweep, const uint8_t *text, size_t length, uint32_t edition, uint32_t entry) {
    struct rap_answer answer = parse(sweep, text, length, edition, entry);
    const char *fault = fault_of(sweep->steps, answer, length);
    if (fault) fail(fault, text, length, edition, entry);
    for (size_t i = 0; i < answer.steps; i++) hash_step(sweep, &sweep->steps[i]);
    hash_word(sweep, "front ");
    hash_number(sweep, entry);
    hash_word(sweep, " ");
    hash_number(sweep, length);
    hash_word(sweep, "\n");
    sweep->trees++;
}

static void sweep_text(struct sweep *sweep, const uint8_t *text, size_t length, uint32_t edition) {
    sweep->hash = UINT64_C(0xcbf29ce484222325);
    sweep->fronts = sweep->trees = 0;
    for (uint32_t entry = 0; entry < ENTRIES; entry++)
        for (size_t end = 0; end <= length; end++)
            if (end == length || (text[end] & 0xc0) != 0x80) {
                sweep_tree(sweep, text, end, edition, entry);
                sweep->fronts += entry == 0;
            }
}

static int is_wrong(struct sweep *sweep, const uint8_t *text, size_t length, uint32_t edition, unsigned entries) {
    for (uint32_t entry = 0; entry < ENTRIES; entry++)
        if (entries >> entry & 1 && parse(sweep, text, length, edition, entry).message_bytes > 0) return 1;
    return 0;
}

int main(void) {
    struct sweep sweep = {0};
    uint8_t *text = NULL;
    unsigned edition, entries;
    size_t length;
    sweep.steps = grown(NULL, sizeof *sweep.steps);
    sweep.messages = grown(NULL, 1);
    for (uint32_t kind = 0; kind <= RAP_LAST_KIND; kind++)
        names.lengths[kind] = rap_kind_name(kind, names.bytes[kind], sizeof names.bytes[kind]);
    while (scanf("%u %u %zu", &edition, &entries, &length) == 3) {
        getchar();
        text = grown(text, length + 1);
        if (fread(text, 1, length, stdin) != length) return 2;
        if (is_wrong(&sweep, text, length, edition, entries)) {
            sweep_text(&sweep, text, length, edition);
            printf("%016" PRIx64 " %zu %zu\n", sweep.hash, sweep.fronts, sweep.trees);
        } else {
            puts("right");
        }
    }
    free(text);
    free(sweep.steps);
    free(sweep.messages);
    return fclose(stdout) ? 2 : 0;
}
