/* shapes reads texts, and prints the tree of each by rap_nodes as `rast .. ranges` does, but without what tokens and
 * messages say. `tests/shapes` calls it.
 *
 * Standard input has for each text a line `EDITION ENTRY LENGTH`, and then its bytes; ENTRY is the entry's number.
 * Standard output has for each the lines of its tree, two spaces further in for each node around:
 *
 *     KIND@START..END          a node
 *     KIND@START..END ""       a token
 *     error AT:                a message
 *
 * and then the line `end`. A text that is not parsed has this line alone. */
#include <inttypes.h>
#include <stdio.h>
#include <stdlib.h>
#include "rap.h"

/* The arrays for a tree, with how deep each element stands. */
struct room {
    struct rap_element *elements;
    int *depths;
    size_t element_room;
    struct rap_message *messages;
    size_t message_room;
    uint8_t *bytes;
    size_t byte_room;
};

static void *grown(void *room, size_t size) {
    void *more = realloc(room, size);
    if (!more) {
        fprintf(stderr, "shapes: no memory\n");
        exit(2);
    }
    return more;
}

/* Makes room for so many elements, messages and bytes of messages. */
static void make_room(struct room *r, size_t elements, size_t messages, size_t bytes) {
    r->elements = grown(r->elements, elements * sizeof *r->elements);
    r->depths = grown(r->depths, elements * sizeof *r->depths);
    r->messages = grown(r->messages, messages * sizeof *r->messages);
    r->bytes = grown(r->bytes, bytes);
    r->element_room = elements;
    r->message_room = messages;
    r->byte_room = bytes;
}

/* Parses, with larger arrays if they were too small. */
static struct rap_nodes_answer parse(struct room *r, const uint8_t *text, size_t length, unsigned edition,
                                     unsigned entry) {
    for (;;) {
        struct rap_nodes_answer answer = rap_nodes(text, length, edition, entry, r->elements, r->element_room,
                                                   r->messages, r->message_room, r->bytes, r->byte_room);
        if (answer.elements <= r->element_room && answer.messages <= r->message_room &&
            answer.message_bytes <= r->byte_room)
            return answer;
        make_room(r, answer.elements + 1, answer.messages + 1, answer.message_bytes + 1);
    }
}

static void print_tree(const struct room *r, struct rap_nodes_answer answer) {
    for (size_t i = 0; i < answer.elements; i++) {
        const struct rap_element *e = &r->elements[i];
        uint8_t name[64];
        int length = (int)rap_kind_name(e->kind, name, sizeof name);
        int is_leaf = e->after == i + 1 && e->start < e->end;
        r->depths[i] = e->parent == RAP_NO_PARENT ? 0 : r->depths[e->parent] + 1;
        printf("%*s%.*s@%" PRIu32 "..%" PRIu32 "%s\n", 2 * r->depths[i], "", length, name, e->start, e->end,
               is_leaf ? " \"\"" : "");
    }
    for (size_t i = 0; i < answer.messages; i++) printf("error %zu: \n", r->messages[i].at);
}

int main(void) {
    struct room room = {0};
    uint8_t *text = NULL;
    unsigned edition, entry;
    size_t length;
    make_room(&room, 1, 1, 1);
    while (scanf("%u %u %zu", &edition, &entry, &length) == 3) {
        getchar();
        text = grown(text, length + 1);
        if (fread(text, 1, length, stdin) != length) return 2;
        struct rap_nodes_answer answer = parse(&room, text, length, edition, entry);
        if (answer.status == RAP_OK) print_tree(&room, answer);
        puts("end");
    }
    free(text);
    free(room.elements);
    free(room.depths);
    free(room.messages);
    free(room.bytes);
    return fclose(stdout) ? 2 : 0;
}
