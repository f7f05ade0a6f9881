/* Parses tokens whose tree is known, as they are and from a text of them.
 *
 * Reads lines of four words: how they are read; the text, in hexadecimal digits after an `=`, or `-` for none; the
 * tokens, each as KIND:WORD:JOINT, with commas between them, or `-`; and the steps of their tree, with commas between
 * them: e and the kind of a node, t and the kind of a leaf with the number of its tokens, as t1:2, or x. The first word
 * is top:ENTRY:0:0, or front:ENTRY:0:0 with the number of a prefix entry, or part:NODE:FIRST:PARENT with the kinds of a
 * node that is parsed again, of its first child and of its parent. Of these two the tree may have a front of the tokens.
 * Prints each line whose tree is not that one, or comes with a message, and how. The last line tells how many lines
 * passed. The status is 1 where one failed, or there was none. */
#include "rap.h"
#include <stdio.h>
#include <stdlib.h>
#include <string.h>

enum { EDITION = 2024 };

/* How a line's tokens are read, its text, its tokens and its steps, and how many of the tokens these take. `at` of a
 * step is not known here, nor `start` and `end` of a node's. */
struct derivation {
    char way;
    uint32_t entry, first_child, parent;
    size_t used;
    uint8_t *text;
    size_t text_length, records, steps;
    struct rap_record *record;
    struct rap_step *step;
    int has_text;
};

static void *room(size_t count, size_t size)
{
    void *found = calloc(count + 1, size);
    if (!found) {
        fputs("derivations: no memory\n", stderr);
        exit(2);
    }
    return found;
}

/* The number of a word's parts, which stand between commas. */
static size_t parts(const char *word)
{
    size_t count = 1;
    for (; *word; word++)
        count += *word == ',';
    return count;
}

static size_t read_text(const char *digits, uint8_t *text)
{
    size_t length = 0;
    unsigned byte;
    for (; sscanf(digits, "%2x", &byte) == 1; digits += 2)
        text[length++] = byte;
    return length;
}

static size_t read_records(char *word, struct rap_record *record)
{
    size_t count = 0;
    for (char *it = strtok(word, ","); it && *it != '-'; it = strtok(NULL, ",")) {
        struct rap_record *r = &record[count++];
        r->kind = strtoul(it, &it, 10);
        r->contextual_kind = strtoul(it + 1, &it, 10);
        r->joint = strtoul(it + 1, &it, 10);
        r->edition = EDITION;
    }
    return count;
}

static size_t read_steps(char *word, struct rap_step *step)
{
    size_t count = 0, used = 0;
    for (char *it = strtok(word, ","); it; it = strtok(NULL, ",")) {
        struct rap_step *s = &step[count++];
        s->what = *it == 'e' ? RAP_ENTER : *it == 't' ? RAP_TOKEN : RAP_EXIT;
        s->kind = strtoul(it + 1, &it, 10);
        s->start = used;
        if (s->what == RAP_TOKEN)
            used += strtoul(it + 1, &it, 10);
        s->end = used;
    }
    return count;
}

/* Reads how tokens are read. */
static void read_way(char *word, struct derivation *d)
{
    d->way = *word;
    d->entry = strtoul(strchr(word, ':') + 1, &word, 10);
    d->first_child = strtoul(word + 1, &word, 10);
    d->parent = strtoul(word + 1, &word, 10);
}

/* Reads a line, which it changes. */
static struct derivation read_line(char *line)
{
    struct derivation d = {0};
    char *way = strtok(line, " "), *text = strtok(NULL, " "), *records = strtok(NULL, " "), *steps = strtok(NULL, " ");
    read_way(way, &d);
    d.has_text = *text == '=';
    d.text = room(strlen(text) / 2, 1);
    d.text_length = d.has_text ? read_text(text + 1, d.text) : 0;
    d.record = room(parts(records), sizeof(struct rap_record));
    d.step = room(parts(steps), sizeof(struct rap_step));
    d.records = read_records(records, d.record);
    d.steps = read_steps(steps, d.step);
    d.used = d.step[d.steps - 1].end;
    return d;
}

static int is_trivia(const struct rap_step *s)
{
    return s->what == RAP_TOKEN && (s->kind == RAP_KIND_WHITESPACE || s->kind == RAP_KIND_COMMENT);
}

/* Whether these steps are those of the derivation: where places count tokens, with the places of leaves, and else those
 * that are no trivia. */
static int is_tree(const struct derivation *d, const struct rap_step *found, size_t count, int has_places)
{
    size_t at = 0;
    for (size_t i = 0; i < count; i++) {
        const struct rap_step *s = &found[i], *wanted = &d->step[at];
        if (!has_places && is_trivia(s))
            continue;
        if (at == d->steps || s->what != wanted->what || s->kind != wanted->kind)
            return 0;
        if (has_places && s->what == RAP_TOKEN && (s->start != wanted->start || s->end != wanted->end))
            return 0;
        at++;
    }
    return at == d->steps;
}

static struct rap_answer parse(const struct derivation *d, struct rap_step *steps, size_t most)
{
    if (d->way == 't')
        return rap_parse(d->record, d->records, d->entry, steps, most, NULL, 0);
    if (d->way == 'f')
        return rap_parse_prefix(d->record, d->records, d->entry, steps, most, NULL, 0);
    return rap_parse_node(d->record, d->records, d->entry, d->first_child, d->parent, steps, most, NULL, 0);
}

static int is_parsed(const struct derivation *d)
{
    size_t most = 256 * (d->records + 1);
    struct rap_step *steps = room(most, sizeof *steps);
    struct rap_answer a = parse(d, steps, most);
    int is_right = a.status == RAP_OK && a.message_bytes == 0 && a.used == d->used && a.steps <= most &&
                   is_tree(d, steps, a.steps, 1);
    free(steps);
    return is_right;
}

/* Whether the tokens of the text are the derivation's. A word that is none may be told in two ways. */
static int has_records(const struct derivation *d)
{
    struct rap_record *found = room(d->records, sizeof *found);
    struct rap_answer a = rap_records(d->text, d->text_length, EDITION, found, d->records);
    int is_right = a.status == RAP_OK && a.steps == d->records;
    for (size_t i = 0; is_right && i < d->records; i++)
        is_right = found[i].kind == d->record[i].kind && found[i].joint == d->record[i].joint &&
                   found[i].contextual_kind == d->record[i].contextual_kind;
    free(found);
    return is_right;
}

static int is_text_parsed(const struct derivation *d)
{
    size_t most = 256 * (d->records + 1) + d->text_length;
    struct rap_step *steps = room(most, sizeof *steps);
    struct rap_answer a = rap_tree(d->text, d->text_length, EDITION, d->entry, steps, most, NULL, 0);
    int is_right = a.status == RAP_OK && a.message_bytes == 0 && a.steps <= most && is_tree(d, steps, a.steps, 0);
    free(steps);
    return is_right;
}

/* How a derivation fails, or NULL. */
static const char *fault(const struct derivation *d)
{
    if (!is_parsed(d))
        return "the tree of the tokens is another one";
    if (d->has_text && !has_records(d))
        return "the text has other tokens";
    return d->has_text && !is_text_parsed(d) ? "the tree of the text is another one" : NULL;
}

int main(void)
{
    char *line = NULL;
    size_t size = 0, passed = 0, failed = 0;
    while (getline(&line, &size, stdin) > 0) {
        line[strcspn(line, "\n")] = 0;
        char *whole = strdup(line);
        struct derivation d = read_line(line);
        const char *how = fault(&d);
        if (how)
            printf("%s: %s\n", how, whole);
        *(how ? &failed : &passed) += 1;
        free(d.text);
        free(d.record);
        free(d.step);
        free(whole);
    }
    free(line);
    printf("%zu passed, %zu failed\n", passed, failed);
    return failed || !passed;
}
