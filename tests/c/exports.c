/* Makes calls of the static library with each growth of memory refused in turn, in one process.
 *
 * Standard input has a call in each line, as exports.h says. Each is made with ample memory, with room for all its
 * steps and messages, for half of them and for none; and then, for each of these, with the N-th growth refused, N from
 * 1 up to the first call that has no such growth. A call with a refused growth must return RAP_NO_MEMORY, with the
 * other numbers 0 and all arrays unchanged; or the same result as with ample memory, and the same contents of all
 * arrays. It must free what it allocated. A call that must allocate memory and allocates none is wrong too.
 *
 * Prints what is wrong, how many calls there were, and how many lines passed and failed. */
#define _GNU_SOURCE
#include "exports.h"
#include <errno.h>

static unsigned long growths, refused;
static long live;
static int met;

extern void *__libc_malloc(size_t size);
extern void *__libc_calloc(size_t count, size_t size);
extern void *__libc_realloc(void *block, size_t size);
extern void __libc_free(void *block);

/* Counts a growth, and returns whether it is to be refused. */
static int fails(void)
{
    if (++growths != refused)
        return 0;
    met = 1;
    errno = ENOMEM;
    return 1;
}

/* Counts a block, if it is one. */
static void *counted(void *block)
{
    live += block != NULL;
    return block;
}

void *malloc(size_t size) { return fails() ? NULL : counted(__libc_malloc(size)); }

void *calloc(size_t count, size_t size) { return fails() ? NULL : counted(__libc_calloc(count, size)); }

void *realloc(void *block, size_t size)
{
    if (fails())
        return NULL;
    void *moved = __libc_realloc(block, size);
    live += !block && moved;
    return moved;
}

void free(void *block)
{
    live -= block != NULL;
    __libc_free(block);
}

/* How many calls there were, and how many were wrong. */
static unsigned long calls, wrong;

static void check(int holds, unsigned long line, unsigned long number, const char *what)
{
    if (!holds) {
        wrong++;
        printf("line %lu, growth %lu: %s\n", line, number, what);
    }
}

/* Fills the arrays with what no call writes. */
static void blank(const struct call *c, struct room r)
{
    memset(r.steps, 0xa5, r.step_room * size_of_step(c));
    memset(r.notes, 0x3c, r.note_room * sizeof *r.notes);
    memset(r.messages, 0x5a, r.message_room);
}

/* Makes a call whose growth of this number is refused, and none where it is 0. Its memory must be free again. */
static struct numbers make(const struct call *c, struct room r, unsigned long line, unsigned long number)
{
    long before = live;
    blank(c, r);
    met = 0;
    growths = 0;
    refused = number;
    struct numbers answer = answer_at(c, c->text, r);
    refused = 0;
    calls++;
    check(live == before, line, number, "memory is not free again");
    return answer;
}

static int are_alike(const struct call *c, struct room a, struct room b)
{
    return memcmp(a.steps, b.steps, a.step_room * size_of_step(c)) == 0
        && memcmp(a.notes, b.notes, a.note_room * sizeof *a.notes) == 0
        && memcmp(a.messages, b.messages, a.message_room) == 0;
}

static struct room room_for(const struct call *c, size_t steps, size_t notes, size_t messages)
{
    struct room r = {malloc((steps + 1) * size_of_step(c)), steps, malloc((notes + 1) * sizeof *r.notes), notes,
                     malloc(messages + 1), messages};
    return r;
}

static void give_back(struct room r)
{
    free(r.steps);
    free(r.notes);
    free(r.messages);
}

/* Makes a call with each growth refused in turn, in this room. Returns how many growths were refused. */
static unsigned long sweep(const struct call *c, size_t steps, size_t notes, size_t messages, unsigned long line)
{
    struct room ample = room_for(c, steps, notes, messages), other = room_for(c, steps, notes, messages);
    struct room none = room_for(c, steps, notes, messages);
    const struct numbers refusal = {RAP_NO_MEMORY, 0, 0, 0, 0, 0};
    struct numbers all = make(c, ample, line, 0);
    unsigned long number = 0;
    blank(c, none);
    do {
        struct numbers answer = make(c, other, line, ++number);
        if (answer.status == RAP_NO_MEMORY) {
            check(met, line, number, "there is no memory, and none was refused");
            check(are_same(answer, refusal), line, number, "numbers beside the status of a fault");
            check(are_alike(c, other, none), line, number, "an array has changed at a fault");
        } else {
            check(are_same(answer, all), line, number, "another answer than with ample memory");
            check(are_alike(c, other, ample), line, number, "other steps or messages than with ample memory");
        }
    } while (met);
    give_back(ample);
    give_back(other);
    give_back(none);
    return number - 1;
}

int main(void)
{
    char *text = NULL;
    size_t room = 0;
    unsigned long line = 0, passed = 0, failed = 0, all = 0;
    while (getline(&text, &room, stdin) > 0) {
        struct call c = read_call(text);
        unsigned long before = wrong;
        struct rap_step step;
        struct rap_message note;
        uint8_t byte;
        struct room nothing = {&step, 0, &note, 0, &byte, 0};
        struct numbers size = make(&c, nothing, ++line, 0);
        unsigned long count = sweep(&c, size.steps, size.notes, size.message_bytes, line);
        count += sweep(&c, size.steps / 2, size.notes / 2, size.message_bytes / 2, line);
        count += sweep(&c, 0, 0, 0, line);
        int takes_none = c.which == SHEBANG || c.which == BLANK || (c.which == SCRIPT && size.status == RAP_OK)
            || (c.which == NUMBER_VALUE && c.node != RAP_KIND_FLOAT_NUMBER)
            || (c.which == STRING_VALUE && (c.node < RAP_KIND_STRING || c.node > RAP_KIND_C_STRING));
        int may_take_none = (size.status > RAP_NO_TREE && size.status < RAP_NO_SCRIPT && size.status != RAP_NO_MEMORY)
            || size.status == RAP_NO_LITERAL;
        check(count == 0 || !takes_none, line, 0, "a growth where none is needed");
        check(count > 0 || takes_none || may_take_none, line, 0, "no growth was refused");
        all += count;
        free(c.text);
        *(wrong == before ? &passed : &failed) += 1;
    }
    free(text);
    check(all > 0, 0, 0, "no growth was refused at all");
    printf("%lu calls\n%lu passed, %lu failed\n", calls, passed, failed);
    return wrong > 0;
}
