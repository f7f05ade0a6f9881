/* fields FILE prints how many children the fields of include/rap_fields.h find, and the hash of all they find, in the
 * trees of a sample: of the lines of crates/rast_replay/data/texts.txt one in eight, if it is read as a whole text. The
 * packages for cargo and for Python find the same, which is what tests/fields.hash has. That each child which a field
 * finds is told to be of that field, or of one before it, is tested too. */
#include <stdio.h>
#include <stdlib.h>
#include <string.h>
#include "rap_fields.h"

enum { EACH = 8 };

static const char *const ENTRIES[] = {"SourceFile", "MacroStmts", "MacroItems", "Pattern", "Type", "Expr", "MetaItem"};

/* What was found. */
struct sum {
    size_t texts, children;
    uint64_t hash;
};

static void *room(size_t count, size_t size) {
    void *made = calloc(count + 1, size);
    if (!made) exit(2);
    return made;
}

/* Takes a text into the hash. */
static void add(struct sum *sum, const char *text) {
    for (; *text; text++) sum->hash = (sum->hash ^ (uint8_t)*text) * 0x100000001b3u;
}

/* Writes a character in UTF-8, and returns the byte behind it. */
static uint8_t *put(uint8_t *to, unsigned long c) {
    if (c < 0x80) *to++ = (uint8_t)c;
    else {
        int more = c < 0x800 ? 1 : c < 0x10000 ? 2 : 3;
        *to++ = (uint8_t)((more == 1 ? 0xC0 : more == 2 ? 0xE0 : 0xF0) | c >> 6 * more);
        while (more--) *to++ = (uint8_t)(0x80 | (c >> 6 * more & 0x3F));
    }
    return to;
}

/* Writes the text that stands in quotes, and returns its length. */
static size_t unquote(const char *quoted, uint8_t *to) {
    uint8_t *first = to;
    for (const char *at = quoted + 1; *at && *at != '"'; at++) {
        if (*at != '\\') {
            *to++ = (uint8_t)*at;
            continue;
        }
        at++;
        if (*at == 'u') {
            char *end;
            to = put(to, strtoul(at + 2, &end, 16));
            at = end;
        } else
            *to++ = (uint8_t)(*at == 'n' ? '\n' : *at == 'r' ? '\r' : *at == 't' ? '\t' : *at == '0' ? 0 : *at);
    }
    return (size_t)(to - first);
}

/* One child of a node, which a field has. */
static void found(struct sum *sum, const struct rap_element *e, const struct rap_field_row *row, uint32_t child) {
    char line[128];
    uint32_t told = rap_field_of(e, child);
    const char *name = rap_field_name(row->field);
    if (told == RAP_FIELD_NONE || rap_field_of_name(name, strlen(name)) != row->field) {
        printf("fields: %s is not told\n", name);
        exit(1);
    }
    snprintf(line, sizeof line, "%u %s %u\n", (unsigned)e[child].parent, name, (unsigned)child);
    add(sum, line);
    sum->children++;
}

/* All fields of all nodes. */
static void count_fields(struct sum *sum, const struct rap_element *e, size_t count) {
    for (uint32_t node = 0; node < count; node++) {
        size_t fields;
        if (e[node].after == node + 1 && e[node].start < e[node].end) continue;
        const struct rap_field_row *rows = rap_fields_of_kind(e[node].kind, &fields);
        for (size_t i = 0; i < fields; i++)
            for (uint32_t child = rap_child_by_field(e, node, rows[i].field); child != RAP_NO_PARENT;
                 child = rap_field_next(e, node, rows[i].field, child))
                found(sum, e, &rows[i], child);
    }
}

/* A text: it is parsed twice, to count and to fill an array of this length. */
static void read_text(struct sum *sum, const uint8_t *text, size_t length, uint32_t edition, uint32_t entry) {
    struct rap_element none;
    struct rap_message message;
    uint8_t byte;
    struct rap_nodes_answer a = rap_nodes(text, length, edition, entry, &none, 0, &message, 0, &byte, 0);
    struct rap_element *elements = room(a.elements, sizeof *elements);
    a = rap_nodes(text, length, edition, entry, elements, a.elements, &message, 0, &byte, 0);
    if (a.status != RAP_OK) exit(2);
    count_fields(sum, elements, a.elements);
    free(elements);
    sum->texts++;
}

/* A line of the sample: a year, an entry, a hash and a text in quotes. */
static void read_line(struct sum *sum, const char *line) {
    char name[32];
    int quoted = 0;
    unsigned year;
    if (sscanf(line, "%u %31s %*s %n", &year, name, &quoted) != 2 || !quoted) return;
    for (uint32_t entry = 0; entry < sizeof ENTRIES / sizeof *ENTRIES; entry++)
        if (!strcmp(name, ENTRIES[entry])) {
            uint8_t *text = room(strlen(line), 1);
            read_text(sum, text, unquote(line + quoted, text), year, entry);
            free(text);
        }
}

/* A whole file, with a 0 behind it. */
static char *read_file(const char *name) {
    FILE *file = fopen(name, "rb");
    if (!file) return NULL;
    long length = fseek(file, 0, SEEK_END) ? -1 : ftell(file);
    rewind(file);
    char *text = length < 0 ? NULL : room((size_t)length, 1);
    if (text && fread(text, 1, (size_t)length, file) != (size_t)length) text[0] = 0;
    fclose(file);
    return text;
}

int main(int argc, char **argv) {
    struct sum sum = {0, 0, 0xcbf29ce484222325u};
    char *sample = argc == 2 ? read_file(argv[1]) : NULL;
    size_t number = 0;
    if (!sample) {
        fprintf(stderr, "usage: fields FILE\n");
        return 2;
    }
    for (char *line = strtok(sample, "\n"); line; line = strtok(NULL, "\n"))
        if (number++ % EACH == 0) read_line(&sum, line);
    free(sample);
    printf("%lu texts, %lu children: %08lx%08lx\n", (unsigned long)sum.texts, (unsigned long)sum.children,
           (unsigned long)(sum.hash >> 32), (unsigned long)(sum.hash & 0xFFFFFFFF));
    return 0;
}
