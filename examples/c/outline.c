/* outline EDITION FILE prints the modules, types, traits, impls and functions of a file, each with the lines from its
 * first token to its last, two spaces further in than the one around it. It calls rap_nodes twice, to count and then to
 * fill arrays of these lengths, in a thread whose stack is as large as the text may need. */
#include <pthread.h>
#include <stdio.h>
#include <stdlib.h>
#include <string.h>
#include "rap.h"

/* A text that is to be parsed, and its tree. */
struct job {
    uint8_t *text;
    size_t length;
    uint32_t edition;
    struct rap_nodes_answer answer;
    struct rap_element *elements;
};

static int fail(const char *why) {
    fprintf(stderr, "outline: %s\n", why);
    return 2;
}

/* What the thread does. The messages are not asked for. */
static void *parse(void *given) {
    struct job *job = given;
    struct rap_element none;
    struct rap_message no_message;
    uint8_t no_byte;
    job->answer = rap_nodes(job->text, job->length, job->edition, RAP_SOURCE_FILE, &none, 0, &no_message, 0, &no_byte,
                            0);
    if (job->answer.status != RAP_OK) return NULL;
    job->elements = malloc((job->answer.elements + 1) * sizeof *job->elements);
    if (!job->elements) job->answer.status = RAP_NO_MEMORY;
    else
        job->answer = rap_nodes(job->text, job->length, job->edition, RAP_SOURCE_FILE, job->elements,
                                job->answer.elements, &no_message, 0, &no_byte, 0);
    return NULL;
}

/* Parses in a thread with a stack for this text. Returns 0, or the number of an error of the system. */
static int parse_in_thread(struct job *job) {
    pthread_attr_t attributes;
    pthread_t thread;
    int error = pthread_attr_init(&attributes);
    if (!error) error = pthread_attr_setstacksize(&attributes, rap_stack(job->length));
    if (!error) error = pthread_create(&thread, &attributes, parse, job);
    return error ? error : pthread_join(thread, NULL);
}

/* What a node of this kind is called, or NULL where it is not listed. */
static const char *word_of(uint32_t kind) {
    switch (kind) {
    case RAP_KIND_MODULE: return "mod";
    case RAP_KIND_STRUCT: return "struct";
    case RAP_KIND_ENUM: return "enum";
    case RAP_KIND_UNION: return "union";
    case RAP_KIND_TYPE_ALIAS: return "type";
    case RAP_KIND_TRAIT: return "trait";
    case RAP_KIND_IMPL: return "impl";
    case RAP_KIND_FN: return "fn";
    default: return NULL;
    }
}

/* The first child of an element with this kind, after this byte; 0, which is no child's index, where there is none. */
static uint32_t child_of(const struct rap_element *e, uint32_t i, uint32_t kind, uint32_t from) {
    for (uint32_t child = i + 1; child < e[i].after; child = e[child].after)
        if (e[child].kind == kind && e[child].start >= from) return child;
    return 0;
}

/* Whether an element is a type, as it stands in the head of an impl. */
static int is_type(uint32_t kind) {
    static const uint32_t TYPES[] = {RAP_KIND_PATH_TYPE, RAP_KIND_REF_TYPE, RAP_KIND_SLICE_TYPE, RAP_KIND_ARRAY_TYPE,
                                     RAP_KIND_TUPLE_TYPE, RAP_KIND_DYN_TRAIT_TYPE, RAP_KIND_FN_PTR_TYPE};
    for (size_t i = 0; i < sizeof TYPES / sizeof *TYPES; i++)
        if (TYPES[i] == kind) return 1;
    return 0;
}

/* Prints the text of an element on one line: each run of white space is one space. */
static void print_text(const struct job *job, const struct rap_element *element) {
    for (uint32_t at = element->start; at < element->end; at++) {
        int blank = job->text[at] <= ' ';
        if (!blank) putchar(job->text[at]);
        else if (at + 1 < element->end && job->text[at + 1] > ' ') putchar(' ');
    }
}

/* Prints what names a node: its name, or the types of an impl. */
static void print_name(const struct job *job, uint32_t i) {
    const struct rap_element *e = job->elements;
    uint32_t name = child_of(e, i, RAP_KIND_NAME, 0);
    if (name) {
        putchar(' ');
        print_text(job, &e[name]);
    } else if (e[i].kind == RAP_KIND_IMPL) {
        for (uint32_t child = i + 1; child < e[i].after; child = e[child].after) {
            if (e[child].kind == RAP_KIND_FOR_KW) printf(" for");
            if (!is_type(e[child].kind)) continue;
            putchar(' ');
            print_text(job, &e[child]);
        }
    }
}

/* The first child of a node that is no trivia, no comment and no attribute; the node itself where there is none. */
static uint32_t first_token(const struct rap_element *e, uint32_t i) {
    for (uint32_t child = i + 1; child < e[i].after; child = e[child].after)
        if (e[child].kind != RAP_KIND_WHITESPACE && e[child].kind != RAP_KIND_COMMENT &&
            e[child].kind != RAP_KIND_DOC_COMMENT && e[child].kind != RAP_KIND_ATTR)
            return child;
    return i;
}

/* The number of a byte's line. Bytes are asked for in the order of the text, so a line is counted once. */
static unsigned line_at(const struct job *job, uint32_t byte, uint32_t *from, unsigned line) {
    for (; *from < byte; ++*from) line += job->text[*from] == '\n';
    return line;
}

static void print_outline(const struct job *job) {
    const struct rap_element *e = job->elements;
    uint32_t from = 0;
    unsigned line = 1;
    for (uint32_t i = 0; i < job->answer.elements; i++) {
        const char *word = word_of(e[i].kind);
        if (!word) continue;
        int depth = 0;
        for (uint32_t up = e[i].parent; up != RAP_NO_PARENT; up = e[up].parent) depth += word_of(e[up].kind) != NULL;
        line = line_at(job, e[first_token(e, i)].start, &from, line);
        uint32_t past = from;
        unsigned last = line_at(job, e[i].end, &past, line);
        printf("%*s%s", 2 * depth, "", word);
        print_name(job, i);
        printf(" %u-%u\n", line, last);
    }
}

/* Reads a file. Returns whether it could be read. */
static int read_file(const char *name, struct job *job) {
    FILE *file = fopen(name, "rb");
    if (!file) return 0;
    long length = fseek(file, 0, SEEK_END) ? -1 : ftell(file);
    rewind(file);
    job->text = length < 0 ? NULL : malloc((size_t)length + 1);
    job->length = job->text ? fread(job->text, 1, (size_t)length, file) : 0;
    return !fclose(file) && job->text && job->length == (size_t)length;
}

int main(int count, char **words) {
    struct job job = {0};
    if (count != 3) return fail("usage: outline EDITION FILE");
    job.edition = (uint32_t)atoi(words[1]);
    if (!read_file(words[2], &job)) return fail("cannot read the file");
    int error = parse_in_thread(&job);
    if (error) return fail(strerror(error));
    if (job.answer.status != RAP_OK) return fail("the text was not parsed");
    print_outline(&job);
    free(job.elements);
    free(job.text);
    return 0;
}
