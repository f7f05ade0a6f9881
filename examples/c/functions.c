/* functions FILE prints the functions of a file by the fields of include/rap_fields.h, a line each: the name, the
 * parameters with their types, the type of the result, and how many lines the function has. */
#include <pthread.h>
#include <stdio.h>
#include <stdlib.h>
#include "rap_fields.h"

/* A text that is to be parsed, and its tree. */
struct job {
    uint8_t *text;
    size_t length;
    struct rap_nodes_answer answer;
    struct rap_element *elements;
};

/* What the thread does. The messages are not asked for. */
static void *parse(void *given) {
    struct job *job = given;
    struct rap_element none;
    struct rap_message message;
    uint8_t byte;
    job->answer = rap_nodes(job->text, job->length, 2024, RAP_SOURCE_FILE, &none, 0, &message, 0, &byte, 0);
    if (job->answer.status != RAP_OK) return NULL;
    job->elements = malloc((job->answer.elements + 1) * sizeof *job->elements);
    if (!job->elements) job->answer.status = RAP_NO_MEMORY;
    else
        job->answer = rap_nodes(job->text, job->length, 2024, RAP_SOURCE_FILE, job->elements, job->answer.elements,
                                &message, 0, &byte, 0);
    return NULL;
}

/* Parses in a thread with a stack for this text. Returns 0, or the number of an error of the system. */
static int parse_in_thread(struct job *job) {
    pthread_attr_t attributes;
    pthread_t thread;
    int error = pthread_attr_init(&attributes);
    if (!error) error = pthread_attr_setstacksize(&attributes, rap_stack(job->length));
    if (!error) error = pthread_create(&thread, &attributes, parse, job);
    return error ? error : pthread_join(thread, NULL);
}

/* Prints the text of an element behind some words. Nothing is printed where there is none. */
static int print(const struct job *job, const char *before, uint32_t i) {
    if (i == RAP_NO_PARENT) return 0;
    const struct rap_element *it = &job->elements[i];
    printf("%s%.*s", before, (int)(it->end - it->start), (const char *)job->text + it->start);
    return 1;
}

static void print_params(const struct job *job, uint32_t list) {
    const struct rap_element *e = job->elements;
    int is_first = !print(job, "", rap_child_by_field(e, list, RAP_FIELD_SELF_PARAM));
    for (uint32_t param = rap_child_by_field(e, list, RAP_FIELD_PARAMS); param != RAP_NO_PARENT;
         param = rap_field_next(e, list, RAP_FIELD_PARAMS, param)) {
        print(job, is_first ? "" : ", ", rap_child_by_field(e, param, RAP_FIELD_PAT));
        print(job, ": ", rap_child_by_field(e, param, RAP_FIELD_TY));
        is_first = 0;
    }
}

static void print_function(const struct job *job, uint32_t function) {
    const struct rap_element *e = job->elements;
    uint32_t list = rap_child_by_field(e, function, RAP_FIELD_PARAM_LIST);
    uint32_t result = rap_child_by_field(e, function, RAP_FIELD_RET_TYPE);
    unsigned lines = 1;
    if (!print(job, "", rap_child_by_field(e, function, RAP_FIELD_NAME))) return;
    printf("(");
    if (list != RAP_NO_PARENT) print_params(job, list);
    printf(")");
    if (result == RAP_NO_PARENT || !print(job, " -> ", rap_child_by_field(e, result, RAP_FIELD_TY))) printf(" -> ()");
    for (uint32_t at = e[function].start; at < e[function].end; at++) lines += job->text[at] == '\n';
    printf(": %u\n", lines);
}

/* Reads a file. Returns whether it could be read. */
static int read_file(const char *name, struct job *job) {
    FILE *file = fopen(name, "rb");
    if (!file) return 0;
    long length = fseek(file, 0, SEEK_END) ? -1 : ftell(file);
    rewind(file);
    job->text = length < 0 ? NULL : malloc((size_t)length + 1);
    job->length = job->text ? fread(job->text, 1, (size_t)length, file) : 0;
    return !fclose(file) && job->text && job->length == (size_t)length;
}

int main(int argc, char **argv) {
    struct job job = {NULL, 0, {RAP_NO_MEMORY, 0, 0, 0, 0}, NULL};
    if (argc != 2 || !read_file(argv[1], &job) || parse_in_thread(&job) || job.answer.status != RAP_OK) {
        fprintf(stderr, argc == 2 ? "functions: no tree of the file\n" : "usage: functions FILE\n");
        return 2;
    }
    for (uint32_t i = 0; i < job.answer.elements; i++)
        if (job.elements[i].kind == RAP_KIND_FN) print_function(&job, i);
    free(job.elements);
    free(job.text);
    return 0;
}
