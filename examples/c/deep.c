/* deep EDITION ENTRY FILE parses a file, however deeply it nests, and prints how many steps its tree has, and how many
 * nodes stand inside one another. The call is made in a thread whose stack is as large as the text may need. */
#include <pthread.h>
#include <stdio.h>
#include <stdlib.h>
#include <string.h>
#include "rap.h"

static const char *const ENTRIES[] = {"SourceFile", "MacroStmts", "MacroItems", "Pattern", "Type", "Expr", "MetaItem"};

/* A text that is to be parsed, and its tree. */
struct job {
    uint8_t *text;
    size_t length;
    uint32_t edition;
    uint32_t entry;
    struct rap_answer answer;
    struct rap_step *steps;
    uint8_t *messages;
};

static int fail(const char *why) {
    fprintf(stderr, "deep: %s\n", why);
    return 2;
}

/* Parses with room for so many steps and bytes of messages. */
static void parse_with(struct job *job, size_t steps, size_t bytes) {
    free(job->steps);
    free(job->messages);
    job->steps = malloc((steps + 1) * sizeof *job->steps);
    job->messages = malloc(bytes + 1);
    job->answer.status = RAP_NO_MEMORY;
    if (job->steps && job->messages)
        job->answer = rap_tree(job->text, job->length, job->edition, job->entry, job->steps, steps, job->messages, bytes);
}

/* What the thread does: counts first, and then fills arrays of these lengths. */
static void *parse(void *given) {
    struct job *job = given;
    parse_with(job, 0, 0);
    if (job->answer.status == RAP_OK) parse_with(job, job->answer.steps, job->answer.message_bytes);
    return NULL;
}

/* Parses in a thread with a stack for this text. Returns 0, or the number of an error of the system. The length of the
 * text would do in the place of the number of its tokens, and reserve more. */
static int parse_in_thread(struct job *job) {
    struct rap_record none;
    size_t tokens = rap_records(job->text, job->length, job->edition, &none, 0).steps;
    pthread_attr_t attributes;
    pthread_t thread;
    int error = pthread_attr_init(&attributes);
    if (!error) error = pthread_attr_setstacksize(&attributes, rap_stack(tokens));
    if (!error) error = pthread_create(&thread, &attributes, parse, job);
    return error ? error : pthread_join(thread, NULL);
}

/* How many nodes stand inside one another at most. */
static size_t deepest(const struct rap_step *steps, size_t count) {
    size_t open = 0, found = 0;
    for (size_t i = 0; i < count; i++) {
        if (steps[i].what == RAP_ENTER && ++open > found) found = open;
        if (steps[i].what == RAP_EXIT) open--;
    }
    return found;
}

/* Reads a file. Returns whether it could be read. */
static int read_file(const char *name, struct job *job) {
    FILE *file = fopen(name, "rb");
    if (!file) return 0;
    long length = fseek(file, 0, SEEK_END) ? -1 : ftell(file);
    rewind(file);
    job->text = length < 0 ? NULL : malloc((size_t)length + 1);
    job->length = job->text ? fread(job->text, 1, (size_t)length, file) : 0;
    return !fclose(file) && job->text && job->length == (size_t)length;
}

int main(int count, char **words) {
    struct job job = {0};
    while (count == 4 && job.entry <= RAP_META_ITEM && strcmp(words[2], ENTRIES[job.entry])) job.entry++;
    if (count != 4 || job.entry > RAP_META_ITEM) return fail("usage: deep EDITION ENTRY FILE");
    job.edition = (uint32_t)atoi(words[1]);
    if (!read_file(words[3], &job)) return fail("cannot read the file");
    int error = parse_in_thread(&job);
    if (error) return fail(strerror(error));
    if (job.answer.status != RAP_OK) return fail("the text was not parsed");
    printf("%zu steps, %zu deep\n", job.answer.steps, deepest(job.steps, job.answer.steps));
    free(job.messages);
    free(job.steps);
    free(job.text);
    return 0;
}
