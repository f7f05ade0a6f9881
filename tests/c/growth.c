/* Measures one call of rap_tree on a text that repeats a few bytes: growth ENTRY COUNT ROUNDS TEXT.
 *
 * The call counts its steps and fills no array. It runs on a stack of 2 GB; a text that nests more ends the program by
 * a signal. Memory that a call frees stays with the process, so that the time of getting pages from the system is not
 * measured; how much memory a call had is measured separately. Prints the bytes of the text, the least processor time
 * of ROUNDS calls in nanoseconds, the most bytes of memory that a call had at once, the bytes of stack that it used,
 * and the number of steps. */
#define _GNU_SOURCE
#include "rap.h"
#include <limits.h>
#include <malloc.h>
#include <pthread.h>
#include <stdio.h>
#include <stdlib.h>
#include <string.h>
#include <sys/mman.h>
#include <time.h>
#include <unistd.h>

#define STACK ((size_t)2 << 30)

static size_t held, most;

extern void *__libc_malloc(size_t size);
extern void *__libc_calloc(size_t count, size_t size);
extern void *__libc_realloc(void *block, size_t size);
extern void __libc_free(void *block);

/* Counts the bytes of a block. */
static void *counted(void *block)
{
    held += block ? malloc_usable_size(block) : 0;
    most = held > most ? held : most;
    return block;
}

void *malloc(size_t size) { return counted(__libc_malloc(size)); }

void *calloc(size_t count, size_t size) { return counted(__libc_calloc(count, size)); }

/* A block that is moved may exist twice for a time, which cannot be seen here: the larger of both is counted. */
void *realloc(void *block, size_t size)
{
    size_t before = block ? malloc_usable_size(block) : 0;
    void *moved = __libc_realloc(block, size);
    if (!moved)
        return NULL;
    held -= before;
    return counted(moved);
}

void free(void *block)
{
    held -= block ? malloc_usable_size(block) : 0;
    __libc_free(block);
}

/* What is measured, and what was. */
static uint8_t *text;
static size_t length;
static uint32_t entry;
static int rounds;
static unsigned long long least = ~0ull;
static struct rap_answer answer;

static unsigned long long processor_time(void)
{
    struct timespec t;
    clock_gettime(CLOCK_PROCESS_CPUTIME_ID, &t);
    return (unsigned long long)t.tv_sec * 1000000000ull + (unsigned long long)t.tv_nsec;
}

static void *measure(void *nothing)
{
    struct rap_step step;
    uint8_t byte;
    for (int i = 0; i <= rounds; i++) {
        unsigned long long begin = processor_time();
        answer = rap_tree(text, length, 2024, entry, &step, 0, &byte, 0);
        unsigned long long took = processor_time() - begin;
        /* The first call touches the pages of the stack and of the memory, and is not counted. */
        least = i && took < least ? took : least;
    }
    return nothing;
}

/* How many bytes of the stack were touched. */
static size_t touched(uint8_t *stack)
{
    size_t page = (size_t)sysconf(_SC_PAGESIZE), pages = STACK / page, count = 0;
    unsigned char *there = __libc_malloc(pages);
    if (!there || mincore(stack, STACK, there))
        exit(2);
    for (size_t i = 0; i < pages; i++)
        count += there[i] & 1;
    return count * page;
}

int main(int count, char **words)
{
    if (count != 5 || !mallopt(M_MMAP_MAX, 0) || !mallopt(M_TRIM_THRESHOLD, INT_MAX) || !mallopt(M_ARENA_MAX, 1))
        return 2;
    size_t repeats = strtoul(words[2], NULL, 10), unit = strlen(words[4]);
    entry = (uint32_t)atoi(words[1]);
    rounds = atoi(words[3]);
    length = repeats * unit;
    text = __libc_malloc(length + 1);
    uint8_t *stack = mmap(NULL, STACK, PROT_READ | PROT_WRITE, MAP_PRIVATE | MAP_ANONYMOUS | MAP_NORESERVE, -1, 0);
    if (!text || stack == MAP_FAILED)
        return 2;
    for (size_t i = 0; i < repeats; i++)
        memcpy(text + i * unit, words[4], unit);
    pthread_t thread;
    pthread_attr_t attributes;
    pthread_attr_init(&attributes);
    size_t before = held;
    most = held;
    if (pthread_attr_setstack(&attributes, stack, STACK) || pthread_create(&thread, &attributes, measure, NULL))
        return 2;
    pthread_join(thread, NULL);
    if (answer.status != RAP_OK)
        return 3;
    printf("%zu %llu %zu %zu %zu\n", length, least, most - before, touched(stack), answer.steps);
    return 0;
}
