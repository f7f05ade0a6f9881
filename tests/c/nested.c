/* nested ENTRY FILE prints how many bytes of the stack the call takes that parses a file in the edition 2024.
 *
 * The call is made in a thread whose stack is memory of this program, which holds zeros before: the lowest byte that is
 * none after the call is the deepest that was written to. */
#ifndef _GNU_SOURCE
#define _GNU_SOURCE
#endif
#include <pthread.h>
#include <stdio.h>
#include <stdlib.h>
#include <string.h>
#include <sys/mman.h>
#include "rap.h"

static const char *const ENTRIES[] = {"SourceFile", "MacroStmts", "MacroItems", "Pattern", "Type", "Expr", "MetaItem"};

struct job {
    uint8_t *text;
    size_t length;
    uint32_t entry;
    uint8_t *here;
    struct rap_answer answer;
};

static void *parse(void *given) {
    struct job *job = given;
    struct rap_step none;
    uint8_t byte;
    job->here = &byte;
    job->answer = rap_tree(job->text, job->length, 2024, job->entry, &none, 0, &byte, 0);
    return NULL;
}

/* How many bytes of the stack the job takes, or 0 if the system refuses something. */
static size_t taken(struct job *job) {
    size_t size = (rap_stack(job->length) + 4095) / 4096 * 4096;
    uint8_t *stack = mmap(NULL, size, PROT_READ | PROT_WRITE, MAP_PRIVATE | MAP_ANONYMOUS | MAP_NORESERVE, -1, 0);
    pthread_attr_t attributes;
    pthread_t thread;
    if (stack == MAP_FAILED || madvise(stack, size, MADV_NOHUGEPAGE) || pthread_attr_init(&attributes)) return 0;
    if (pthread_attr_setstack(&attributes, stack, size)) return 0;
    if (pthread_create(&thread, &attributes, parse, job) || pthread_join(thread, NULL)) return 0;
    uint8_t *lowest = stack;
    while (lowest < job->here && *lowest == 0) lowest++;
    return (size_t)(job->here - lowest);
}

int main(int count, char **words) {
    struct job job = {0};
    FILE *file = count == 3 ? fopen(words[2], "rb") : NULL;
    while (file && job.entry <= RAP_META_ITEM && strcmp(words[1], ENTRIES[job.entry])) job.entry++;
    if (!file || job.entry > RAP_META_ITEM || fseek(file, 0, SEEK_END)) return 2;
    job.length = (size_t)ftell(file);
    job.text = malloc(job.length + 1);
    rewind(file);
    if (!job.text || fread(job.text, 1, job.length, file) != job.length) return 2;
    size_t bytes = taken(&job);
    if (!bytes || job.answer.status != RAP_OK) return 2;
    printf("%zu\n", bytes);
    return fclose(file);
}
