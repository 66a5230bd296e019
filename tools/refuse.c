/*
 * Has calls of a program fail: a library for LD_PRELOAD, made by tools/refused_memory and tools/refusals.
 *
 * REFUSE=N lets the N-th call fail, counted from 1; REFUSE=N.. lets it and every later one. REFUSE_KIND says of
 * which calls, and is `memory` where it isn't set:
 *
 *   memory   malloc, realloc, aligned_alloc and posix_memalign, which give no memory
 *   open     open
 *   read     read, of a file
 *   input    read, of the standard input
 *   put      write, to the standard output
 *   write    write, to a file
 *   seek     lseek
 *   close    close
 *
 * All but the first fail with EIO, or with the error whose number is REFUSE_ERRNO; a close that fails closes all the
 * same. REFUSE_SHORT=1 has each read and write take one byte at most. REFUSE_LIMIT=KB limits the address space to so
 * many kilobytes once 1 MB of stack is in use, so that the system refuses allocations and never stack. At the end of the
 * program the number of calls of that kind is written to the file REFUSE_COUNT, if it is set.
 */
#define _GNU_SOURCE
#include <dlfcn.h>
#include <errno.h>
#include <fcntl.h>
#include <stdarg.h>
#include <stdio.h>
#include <stdlib.h>
#include <string.h>
#include <sys/resource.h>
#include <sys/types.h>
#include <unistd.h>

static long calls;
static long first;
static int is_open_ended;
static int is_short;
static int error = EIO;
static const char *kind;
static int is_over;

static void learn(void)
{
    const char *text = getenv("REFUSE");

    kind = getenv("REFUSE_KIND");
    if (kind == NULL)
        kind = "memory";
    if (text != NULL) {
        first = atol(text);
        is_open_ended = strstr(text, "..") != NULL;
    }
    text = getenv("REFUSE_ERRNO");
    if (text != NULL)
        error = atoi(text);
    is_short = getenv("REFUSE_SHORT") != NULL;
}

/* Whether this call, which is of that kind, is one that is to fail. */
static int is_refused(const char *of)
{
    if (kind == NULL)
        learn();
    if (is_over || strcmp(kind, of) != 0)
        return 0;
    calls++;
    return first > 0 && (is_open_ended ? calls >= first : calls == first);
}

static int fails(const char *of)
{
    if (!is_refused(of))
        return 0;
    errno = error;
    return 1;
}

void *malloc(size_t size)
{
    static void *(*next)(size_t);

    if (next == NULL)
        next = (void *(*)(size_t))dlsym(RTLD_NEXT, "malloc");
    return is_refused("memory") ? NULL : next(size);
}

void *realloc(void *old, size_t size)
{
    static void *(*next)(void *, size_t);

    if (next == NULL)
        next = (void *(*)(void *, size_t))dlsym(RTLD_NEXT, "realloc");
    return is_refused("memory") ? NULL : next(old, size);
}

void *aligned_alloc(size_t alignment, size_t size)
{
    static void *(*next)(size_t, size_t);

    if (next == NULL)
        next = (void *(*)(size_t, size_t))dlsym(RTLD_NEXT, "aligned_alloc");
    return is_refused("memory") ? NULL : next(alignment, size);
}

int posix_memalign(void **to, size_t alignment, size_t size)
{
    static int (*next)(void **, size_t, size_t);

    if (next == NULL)
        next = (int (*)(void **, size_t, size_t))dlsym(RTLD_NEXT, "posix_memalign");
    return is_refused("memory") ? ENOMEM : next(to, alignment, size);
}

int open(const char *name, int flags, ...)
{
    static int (*next)(const char *, int, ...);
    mode_t mode = 0;

    if (next == NULL)
        next = (int (*)(const char *, int, ...))dlsym(RTLD_NEXT, "open");
    if ((flags & O_CREAT) != 0) {
        va_list rest;

        va_start(rest, flags);
        mode = va_arg(rest, mode_t);
        va_end(rest);
    }
    return fails("open") ? -1 : next(name, flags, mode);
}

ssize_t read(int file, void *to, size_t size)
{
    static ssize_t (*next)(int, void *, size_t);

    if (next == NULL)
        next = (ssize_t(*)(int, void *, size_t))dlsym(RTLD_NEXT, "read");
    return fails(file == 0 ? "input" : "read") ? -1 : next(file, to, is_short && size > 1 ? 1 : size);
}

ssize_t write(int file, const void *from, size_t size)
{
    static ssize_t (*next)(int, const void *, size_t);

    if (next == NULL)
        next = (ssize_t(*)(int, const void *, size_t))dlsym(RTLD_NEXT, "write");
    return fails(file == 1 ? "put" : "write") ? -1 : next(file, from, is_short && size > 1 ? 1 : size);
}

off_t lseek(int file, off_t to, int from)
{
    static off_t (*next)(int, off_t, int);

    if (next == NULL)
        next = (off_t(*)(int, off_t, int))dlsym(RTLD_NEXT, "lseek");
    return fails("seek") ? -1 : next(file, to, from);
}

int close(int file)
{
    static int (*next)(int);
    int answer;

    if (next == NULL)
        next = (int (*)(int))dlsym(RTLD_NEXT, "close");
    answer = next(file);
    return fails("close") ? -1 : answer;
}

__attribute__((constructor)) static void limit(void)
{
    const char *text = getenv("REFUSE_LIMIT");
    volatile char stack[1 << 20];
    struct rlimit space;
    size_t at;

    if (text == NULL)
        return;
    for (at = 0; at < sizeof stack; at += 1024)
        stack[at] = 1;
    space.rlim_cur = space.rlim_max = (rlim_t)atol(text) * 1024;
    setrlimit(RLIMIT_AS, &space);
}

__attribute__((destructor)) static void tell(void)
{
    const char *name = getenv("REFUSE_COUNT");
    FILE *file;

    is_over = 1;
    if (name == NULL || (file = fopen(name, "w")) == NULL)
        return;
    fprintf(file, "%ld\n", calls);
    fclose(file);
}
