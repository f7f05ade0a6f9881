/* Times the ways to a tree of a text, and walks over it: times FILE ROUNDS.
 *
 * Prints the least processor time of ROUNDS calls, in milliseconds and in megabytes of text a second: of
 * rap_tree_words without room, which hands out the steps and keeps none; of rap_tree_words, of rap_nodes, and of a walk
 * over all elements that counts the nodes of each kind, in millions of elements a second; of a walk that goes from each
 * node to its children and counts them; and of the search for the leaf at each of a million places drawn at random, and
 * for the smallest element that holds each of a million ranges of up to 64 bytes, in nanoseconds a place. The calls
 * take turns. The arrays are written once before anything is timed, and what memory a call gave back is kept for the
 * next one, so that none waits for the system's. It runs on a stack as large as rap_stack says. */
#define _GNU_SOURCE
#include "rap.h"
#include <limits.h>
#include <malloc.h>
#include <pthread.h>
#include <stdio.h>
#include <stdlib.h>
#include <time.h>

#define PLACES 1000000

static uint8_t *text;
static size_t length;
static int rounds;

static double now(void)
{
    struct timespec time;
    clock_gettime(CLOCK_THREAD_CPUTIME_ID, &time);
    return 1e3 * (double)time.tv_sec + 1e-6 * (double)time.tv_nsec;
}

static void *room(size_t count, size_t size)
{
    void *found = calloc(count + 1, size);
    if (!found) {
        fputs("times: out of memory\n", stderr);
        exit(2);
    }
    return found;
}

static void say(const char *name, double took)
{
    printf("%-10s %8.2f ms %8.1f MB/s\n", name, took, 1e-3 * (double)length / took);
}

/* Counts the nodes and leaves of each kind. */
static uint64_t count_kinds(const struct rap_element *e, size_t count)
{
    static uint32_t counts[RAP_LAST_KIND + 1];
    for (size_t i = 0; i < count; i++)
        counts[e[i].kind]++;
    return counts[RAP_IDENT];
}

/* Counts the children of all nodes, one node after another. */
static uint64_t count_children(const struct rap_element *e, size_t count)
{
    uint64_t children = 0;
    for (uint32_t i = 0; i < count; i++)
        for (uint32_t child = i + 1; child < e[i].after; child = e[child].after)
            children++;
    return children;
}

/* The leaf at a place: the last element that begins there or before. Both elements that may be asked for next are
 * fetched ahead. */
static size_t leaf_at(const struct rap_element *e, size_t count, uint32_t place)
{
    size_t low = 0;
    while (count > 1) {
        size_t half = count / 2, next = (count - half) / 2;
        __builtin_prefetch(&e[low + next].start);
        __builtin_prefetch(&e[low + half + next].start);
        low = e[low + half].start <= place ? low + half : low;
        count -= half;
    }
    return low;
}

/* The smallest element that holds a range: from the last one that begins early enough up to one that ends late enough. */
static size_t covering(const struct rap_element *e, size_t count, uint32_t start, uint32_t end)
{
    size_t found = leaf_at(e, count, start);
    while (e[found].end < end)
        found = e[found].parent;
    return found;
}

/* Times searches for what is at places drawn at random. */
static void time_places(const struct rap_element *e, size_t count)
{
    uint64_t kept = 0;
    double begun = now();
    for (uint32_t i = 0, place = 1; i < PLACES; i++, place = place * 1664525u + 1013904223u)
        kept += leaf_at(e, count, place % e[0].end);
    double took = now() - begun;
    printf("leaf_at    %8.1f ns a place (%d)\n", 1e6 * took / PLACES, (int)(kept % 10));
    begun = now();
    for (uint32_t i = 0, place = 1; i < PLACES; i++, place = place * 1664525u + 1013904223u) {
        uint32_t start = place % e[0].end, end = start + (place >> 26);
        kept += covering(e, count, start, end < e[0].end ? end : e[0].end);
    }
    took = now() - begun;
    printf("covering   %8.1f ns a range (%d)\n", 1e6 * took / PLACES, (int)(kept % 10));
}

static void time_walks(const struct rap_element *e, size_t count)
{
    double kinds = 1e9, children = 1e9, begun, took;
    uint64_t kept = 0;
    for (int i = 0; i <= rounds; i++) {
        begun = now();
        kept += count_kinds(e, count);
        took = now() - begun;
        kinds = i && took < kinds ? took : kinds;
        begun = now();
        kept += count_children(e, count);
        took = now() - begun;
        children = i && took < children ? took : children;
    }
    printf("kinds      %8.2f ms %8.1f million elements a second\n", kinds, 1e-3 * (double)count / kinds);
    printf("children   %8.2f ms %8.1f million elements a second\n", children, 1e-3 * (double)count / children);
    printf("kept       %d\n", (int)(kept % 10));
}

/* The arrays that the calls write. */
struct arrays {
    struct rap_answer words_room;
    struct rap_nodes_answer nodes_room;
    uint32_t *words;
    uint8_t *words_bytes;
    struct rap_element *elements;
    struct rap_message *messages;
    uint8_t *nodes_bytes;
};

static void call_counts(struct arrays *a)
{
    rap_tree_words(text, length, 2024, RAP_SOURCE_FILE, a->words, 0, a->words_bytes, 0);
}

static void call_words(struct arrays *a)
{
    rap_tree_words(text, length, 2024, RAP_SOURCE_FILE, a->words, a->words_room.steps, a->words_bytes,
                   a->words_room.message_bytes);
}

static void call_nodes(struct arrays *a)
{
    rap_nodes(text, length, 2024, RAP_SOURCE_FILE, a->elements, a->nodes_room.elements, a->messages,
              a->nodes_room.messages, a->nodes_bytes, a->nodes_room.message_bytes);
}

/* Arrays as long as the tree asks for. */
static struct arrays make_arrays(void)
{
    struct arrays a;
    struct rap_element element[1];
    struct rap_message message[1];
    uint32_t word[1];
    uint8_t byte[1];
    a.words_room = rap_tree_words(text, length, 2024, RAP_SOURCE_FILE, word, 0, byte, 0);
    a.nodes_room = rap_nodes(text, length, 2024, RAP_SOURCE_FILE, element, 0, message, 0, byte, 0);
    a.words = room(a.words_room.steps, sizeof *a.words);
    a.words_bytes = room(a.words_room.message_bytes, 1);
    a.elements = room(a.nodes_room.elements, sizeof *a.elements);
    a.messages = room(a.nodes_room.messages, sizeof *a.messages);
    a.nodes_bytes = room(a.nodes_room.message_bytes, 1);
    return a;
}

/* The time of each call, the calls by turns. */
static void time_calls(struct arrays *a)
{
    static void (*const calls[])(struct arrays *) = {call_counts, call_words, call_nodes};
    static const char *const names[] = {"counts", "words", "rap_nodes"};
    double least[] = {1e9, 1e9, 1e9};
    for (int i = 0; i <= rounds; i++)
        for (int call = 0; call < 3; call++) {
            double begun = now();
            calls[call](a);
            double took = now() - begun;
            least[call] = i && took < least[call] ? took : least[call];
        }
    for (int call = 0; call < 3; call++)
        say(names[call], least[call]);
}

static void *run(void *none)
{
    struct arrays a = make_arrays();
    size_t count = a.nodes_room.elements;
    time_calls(&a);
    printf("elements   %zu of %zu bytes\n", count, sizeof *a.elements);
    if (count)
        time_walks(a.elements, count);
    if (count && a.elements[0].end)
        time_places(a.elements, count);
    return none;
}

int main(int count, char **arguments)
{
    FILE *file = count == 3 ? fopen(arguments[1], "rb") : NULL;
    if (!file) {
        fputs("usage: times FILE ROUNDS\n", stderr);
        return 2;
    }
    mallopt(M_ARENA_MAX, 1);
    mallopt(M_MMAP_MAX, 0);
    mallopt(M_TRIM_THRESHOLD, INT_MAX);
    fseek(file, 0, SEEK_END);
    length = (size_t)ftell(file);
    rewind(file);
    text = room(length, 1);
    if (fread(text, 1, length, file) != length)
        return 2;
    rounds = atoi(arguments[2]);
    pthread_attr_t attributes;
    pthread_t thread;
    pthread_attr_init(&attributes);
    if (pthread_attr_setstacksize(&attributes, rap_stack(length)) || pthread_create(&thread, &attributes, run, NULL))
        return 2;
    pthread_join(thread, NULL);
    return 0;
}
