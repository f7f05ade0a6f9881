/* Makes calls of the static library with texts and arrays next to memory that must not be accessed.
 *
 * Standard input has a call in each line, as exports.h says. Each is made on its text at the end of a page after which,
 * and at the start of one before which, memory must not be read; with all arrays at such places, and with room for
 * all their steps and messages, for one of each and for none. The call must return and write the same as for its text
 * elsewhere, and must not change the bytes beside an array. An array of length 0 is at any address: at one that must
 * not be read, at one that no step may have, and at NULL; a text of length 0 too. The same holds for rap_kind_name.
 *
 * Prints what is wrong, how many calls there were, and how many lines passed and failed. */
#define _GNU_SOURCE
#include "exports.h"
#include <sys/mman.h>
#include <unistd.h>

/* Memory between two pages that may not be read or written. */
struct fenced {
    uint8_t *begin, *end;
};

static unsigned long calls, wrong;

static void check(int holds, unsigned long line, const char *what)
{
    if (!holds) {
        wrong++;
        printf("line %lu: %s\n", line, what);
    }
}

/* At least so many bytes between two such pages. */
static struct fenced fence(size_t length)
{
    size_t page = (size_t)sysconf(_SC_PAGESIZE), inner = (length / page + 1) * page;
    uint8_t *at = mmap(NULL, inner + 2 * page, PROT_NONE, MAP_PRIVATE | MAP_ANONYMOUS, -1, 0);
    if (at == MAP_FAILED || mprotect(at + page, inner, PROT_READ | PROT_WRITE))
        exit(2);
    struct fenced f = {at + page, at + page + inner};
    return f;
}

static void open_fence(struct fenced f)
{
    size_t page = (size_t)sysconf(_SC_PAGESIZE);
    munmap(f.begin - page, (size_t)(f.end - f.begin) + 2 * page);
}

/* What a call leaves on its text elsewhere: its answer, its steps and its messages, all of them. */
struct wanted {
    struct numbers answer;
    struct room room;
};

static struct wanted plain(const struct call *c)
{
    struct rap_step step;
    struct rap_message note;
    uint8_t byte;
    struct room none = {&step, 0, &note, 0, &byte, 0};
    struct wanted w;
    w.answer = answer_at(c, c->text, none);
    struct room all = {calloc(w.answer.steps + 1, size_of_step(c)), w.answer.steps,
                       calloc(w.answer.notes + 1, sizeof note), w.answer.notes,
                       calloc(w.answer.message_bytes + 1, 1), w.answer.message_bytes};
    w.room = all;
    struct numbers again = answer_at(c, c->text, all);
    calls += 2;
    check(are_same(w.answer, again), 0, "another answer with room than without");
    return w;
}

/* Whether all these bytes are the one that was there before. */
static int are_blank(const uint8_t *from, const uint8_t *to)
{
    while (from < to && *from == 0xa5)
        from++;
    return from >= to;
}

/* An array at the end of fenced memory or at its start: so many of a size, of which a call is to write so many. */
struct array {
    struct fenced fence;
    uint8_t *at;
    size_t size, room, written;
};

static struct array array_of(size_t size, size_t room, size_t all, int at_end)
{
    struct array a = {fence(size * room), NULL, size, room, room < all ? room : all};
    a.at = at_end ? a.fence.end - size * room : a.fence.begin;
    memset(a.fence.begin, 0xa5, (size_t)(a.fence.end - a.fence.begin));
    return a;
}

/* Checks that an array begins as this one does, as far as it has room, and that nothing beside that is written. */
static void check_array(struct array a, const void *wanted, unsigned long line, const char *others, const char *beside)
{
    const uint8_t *end = a.at + a.size * a.written;
    check(memcmp(a.at, wanted, a.size * a.written) == 0, line, others);
    check(are_blank(a.fence.begin, a.at) && are_blank(end, a.fence.end), line, beside);
    open_fence(a.fence);
}

/* Makes a call with this room, all arrays at the ends of fenced memory or at its starts. */
static void call_at(const struct call *c, const uint8_t *text, const struct wanted *w, size_t steps, size_t notes,
                    size_t messages, int at_end, unsigned long line)
{
    struct array s = array_of(size_of_step(c), steps, w->answer.steps, at_end);
    struct array n = array_of(sizeof(struct rap_message), notes, w->answer.notes, at_end);
    struct array m = array_of(1, messages, w->answer.message_bytes, at_end);
    struct room r = {s.at, steps, (struct rap_message *)(void *)n.at, notes, m.at, messages};
    calls++;
    check(are_same(answer_at(c, text, r), w->answer), line, "another answer at an edge");
    check_array(s, w->room.steps, line, "other steps at an edge", "bytes beside steps");
    check_array(n, w->room.notes, line, "other messages at an edge", "bytes beside messages");
    check_array(m, w->room.messages, line, "other bytes of messages at an edge", "bytes beside those of messages");
}

/* Makes a call on a text with arrays of no length at this address. */
static void call_empty(const struct call *c, const uint8_t *text, const struct wanted *w, void *address,
                       unsigned long line)
{
    struct room none = {address, 0, address, 0, address, 0};
    calls++;
    check(are_same(answer_at(c, text, none), w->answer), line, "another answer with arrays of no length");
}

/* Makes a call on a text at this address, at all edges of its arrays. */
static void call_on(const struct call *c, const uint8_t *text, const struct wanted *w, unsigned long line)
{
    struct fenced nowhere = fence(1);
    for (int at_end = 0; at_end < 2; at_end++) {
        call_at(c, text, w, w->answer.steps, w->answer.notes, w->answer.message_bytes, at_end, line);
        call_at(c, text, w, w->answer.steps + 1, w->answer.notes + 1, w->answer.message_bytes + 1, at_end, line);
        call_at(c, text, w, 1, 1, 1, at_end, line);
        call_at(c, text, w, 1, 0, 0, at_end, line);
        call_at(c, text, w, 0, 1, 0, at_end, line);
        call_at(c, text, w, 0, 0, 1, at_end, line);
    }
    call_empty(c, text, w, nowhere.end, line);
    call_empty(c, text, w, (void *)1, line);
    call_empty(c, text, w, NULL, line);
    open_fence(nowhere);
}

/* Makes a call on its text at both edges, and on a text of no length anywhere. */
static void call_everywhere(const struct call *c, unsigned long line)
{
    struct wanted w = plain(c);
    struct fenced t = fence(c->length);
    memcpy(t.end - c->length, c->text, c->length);
    call_on(c, t.end - c->length, &w, line);
    memcpy(t.begin, c->text, c->length);
    call_on(c, t.begin, &w, line);
    if (c->length == 0) {
        call_on(c, t.end, &w, line);
        call_on(c, (const uint8_t *)1, &w, line);
        call_on(c, NULL, &w, line);
    }
    open_fence(t);
    free(w.room.steps);
    free(w.room.notes);
    free(w.room.messages);
}

/* Writes each kind's name at the edges, with room for all of it, for a byte less, for one and for none. */
static void name_kinds(void)
{
    struct fenced f = fence(64);
    for (uint32_t kind = 0; kind <= RAP_NO_KIND; kind++) {
        uint8_t name[64];
        size_t length = rap_kind_name(kind, name, sizeof name);
        size_t rooms[] = {length, length ? length - 1 : 0, 1, 0};
        for (int i = 0; i < 4; i++) {
            size_t count = rooms[i] < length ? rooms[i] : length;
            uint8_t *at = f.end - rooms[i];
            memset(f.begin, 0xa5, (size_t)(f.end - f.begin));
            calls++;
            check(rap_kind_name(kind, at, rooms[i]) == length, kind, "another length of a kind's name");
            check(memcmp(at, name, count) == 0, kind, "another name of a kind");
            check(are_blank(f.begin, at) && are_blank(at + count, f.end), kind, "bytes beside a name");
        }
        check(rap_kind_name(kind, NULL, 0) == length, kind, "a name at no address");
        check(rap_kind_name(kind, (uint8_t *)1, 0) == length, kind, "a name at an odd address");
    }
    check(rap_kind_name(UINT32_MAX, NULL, 0) == 0, 0, "a kind with no name");
    open_fence(f);
}

int main(void)
{
    char *text = NULL;
    size_t room = 0;
    unsigned long line = 0, passed = 0, failed = 0;
    name_kinds();
    *(wrong ? &failed : &passed) += 1;
    while (getline(&text, &room, stdin) > 0) {
        struct call c = read_call(text);
        unsigned long before = wrong;
        call_everywhere(&c, ++line);
        free(c.text);
        *(wrong == before ? &passed : &failed) += 1;
    }
    free(text);
    printf("%lu calls\n%lu passed, %lu failed\n", calls, passed, failed + (line == 0));
    return wrong > 0 || line == 0;
}
