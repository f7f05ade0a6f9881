/* Fails one call of a program. Built as a shared library, and loaded before the C library by LD_PRELOAD.
 *
 * REFUSE_KIND   which calls are counted from the start of `main` on: growth (malloc, realloc, calloc), write, read or
 *               open
 * REFUSE_AT     the number of the call that fails, from 1 on
 * REFUSE_COUNT  a file, which gets the number of these calls when the program ends by itself
 * REFUSE_SWEEP  instead of REFUSE_AT, a file: the program is run for each number from 0 on, each time in a process of
 *               its own, until a run meets no call that fails. The file gets a line for each run:
 *
 *     NUMBER MET END STATUS OUT LENGTH ERR TEXT
 *
 * MET is 1 if a call failed. END is `exit` or `signal`, with the status or the signal. OUT compares the standard
 * output with that of run 0: `same`, `front` (a prefix of it, or empty) or `other`; in run 0 OUT is `first`. LENGTH is
 * the number of bytes written to it. After it follow, in hexadecimal digits or `-` for none, the bytes written to the
 * standard error and, if OUT is `first` or `other`, to the standard output. A run that takes ten seconds is ended by a
 * signal. */
#define _GNU_SOURCE
#include <errno.h>
#include <fcntl.h>
#include <signal.h>
#include <stdarg.h>
#include <stdio.h>
#include <stdlib.h>
#include <string.h>
#include <sys/mman.h>
#include <sys/syscall.h>
#include <sys/uio.h>
#include <sys/wait.h>
#include <unistd.h>

enum kind { NONE, GROWTH, WRITE, READ, OPEN };

/* What is counted, how many calls there have been, which one fails, and whether it came. */
static enum kind counted = NONE;
static unsigned long calls, refused;
static unsigned long *met;

extern void *__libc_malloc(size_t size);
extern void *__libc_calloc(size_t count, size_t size);
extern void *__libc_realloc(void *block, size_t size);

/* Counts a call, and returns whether it is to fail. */
static int fails(enum kind kind, int error)
{
    if (kind != counted || ++calls != refused)
        return 0;
    if (met)
        *met = 1;
    errno = error;
    return 1;
}

void *malloc(size_t size) { return fails(GROWTH, ENOMEM) ? NULL : __libc_malloc(size); }

void *calloc(size_t count, size_t size) { return fails(GROWTH, ENOMEM) ? NULL : __libc_calloc(count, size); }

void *realloc(void *block, size_t size) { return fails(GROWTH, ENOMEM) ? NULL : __libc_realloc(block, size); }

ssize_t write(int file, const void *bytes, size_t count)
{
    return fails(WRITE, ENOSPC) ? -1 : syscall(SYS_write, file, bytes, count);
}

ssize_t writev(int file, const struct iovec *parts, int count)
{
    return fails(WRITE, ENOSPC) ? -1 : syscall(SYS_writev, file, parts, count);
}

ssize_t read(int file, void *bytes, size_t count)
{
    return fails(READ, EIO) ? -1 : syscall(SYS_read, file, bytes, count);
}

static int opened(int folder, const char *path, int flags, va_list rest)
{
    int mode = (flags & (O_CREAT | O_TMPFILE)) ? va_arg(rest, int) : 0;
    return fails(OPEN, EACCES) ? -1 : (int)syscall(SYS_openat, folder, path, flags, mode);
}

#define OPENS(name, flag)                                \
    int name(const char *path, int flags, ...)           \
    {                                                    \
        va_list rest;                                    \
        va_start(rest, flags);                           \
        int file = opened(AT_FDCWD, path, flags | flag, rest); \
        va_end(rest);                                    \
        return file;                                     \
    }

#define OPENS_AT(name, flag)                             \
    int name(int folder, const char *path, int flags, ...) \
    {                                                    \
        va_list rest;                                    \
        va_start(rest, flags);                           \
        int file = opened(folder, path, flags | flag, rest); \
        va_end(rest);                                    \
        return file;                                     \
    }

OPENS(open, 0)
OPENS(open64, O_LARGEFILE)
OPENS_AT(openat, 0)
OPENS_AT(openat64, O_LARGEFILE)

static enum kind kind_named(const char *word)
{
    static const char *const names[] = {"none", "growth", "write", "read", "open"};
    for (int i = 0; i < 5; i++)
        if (strcmp(word, names[i]) == 0)
            return i;
    fprintf(stderr, "refuse: no such kind of calls\n");
    _exit(125);
}

/* The bytes of a file in memory. */
static char *bytes_of(int file, size_t *count)
{
    *count = (size_t)lseek(file, 0, SEEK_END);
    char *bytes = __libc_malloc(*count + 1);
    if (!bytes || pread(file, bytes, *count, 0) != (ssize_t)*count)
        _exit(125);
    return bytes;
}

static void put_hex(FILE *file, const char *bytes, size_t count)
{
    fputs(count ? " " : " -", file);
    for (size_t i = 0; i < count; i++)
        fprintf(file, "%02x", (unsigned char)bytes[i]);
}

/* Starts a run whose call of this number fails. Returns in the run alone, and where it is not the run, how it ended. */
static int run(unsigned long number, int out, int err, int *status)
{
    *met = 0;
    if (ftruncate(out, 0) || ftruncate(err, 0))
        _exit(125);
    pid_t child = fork();
    if (child < 0)
        _exit(125);
    if (child == 0) {
        lseek(out, 0, SEEK_SET);
        lseek(err, 0, SEEK_SET);
        dup2(out, 1);
        dup2(err, 2);
        alarm(10);
        refused = number;
        return 0;
    }
    while (waitpid(child, status, 0) < 0)
        if (errno != EINTR)
            _exit(125);
    return 1;
}

/* Runs the program for each number. Returns in the runs alone. */
static void sweep(const char *path, enum kind kind)
{
    FILE *report = fopen(path, "w");
    int out = memfd_create("out", 0), err = memfd_create("err", 0);
    met = mmap(NULL, sizeof *met, PROT_READ | PROT_WRITE, MAP_SHARED | MAP_ANONYMOUS, -1, 0);
    if (!report || out < 0 || err < 0 || met == MAP_FAILED)
        _exit(125);
    char *first = NULL;
    size_t first_count = 0;
    for (unsigned long number = 0;; number++) {
        int status;
        fflush(report);
        if (!run(number, out, err, &status)) {
            counted = kind;
            return;
        }
        size_t out_count, err_count;
        char *out_bytes = bytes_of(out, &out_count), *err_bytes = bytes_of(err, &err_count);
        int is_front = number && out_count <= first_count && memcmp(out_bytes, first, out_count) == 0;
        const char *as = !number ? "first" : !is_front ? "other" : out_count == first_count ? "same" : "front";
        int is_exit = WIFEXITED(status);
        fprintf(report, "%lu %lu %s %d %s %zu", number, *met, is_exit ? "exit" : "signal",
                is_exit ? WEXITSTATUS(status) : WTERMSIG(status), as, out_count);
        put_hex(report, err_bytes, err_count);
        put_hex(report, out_bytes, is_front ? 0 : out_count);
        fputc('\n', report);
        free(err_bytes);
        if (number)
            free(out_bytes);
        else
            first = out_bytes, first_count = out_count;
        if (number && !*met)
            break;
    }
    fclose(report);
    _exit(0);
}

__attribute__((constructor)) static void start(void)
{
    const char *kind = getenv("REFUSE_KIND"), *at = getenv("REFUSE_AT"), *path = getenv("REFUSE_SWEEP");
    if (!kind)
        return;
    enum kind which = kind_named(kind);
    if (path) {
        sweep(path, which);
    } else if (at || getenv("REFUSE_COUNT")) {
        refused = at ? strtoul(at, NULL, 10) : 0;
        counted = which;
    }
}

__attribute__((destructor)) static void end(void)
{
    const char *path = getenv("REFUSE_COUNT");
    if (!path)
        return;
    counted = NONE;
    FILE *file = fopen(path, "w");
    if (!file || fprintf(file, "%lu\n", calls) < 0 || fclose(file))
        _exit(125);
}
