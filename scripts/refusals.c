/* Stands before the calls of the C library by which the program takes memory, opens files, reads and writes, counts them, and lets
   some of them fail. It is built by refusals.sh and put before the C library by the loader (LD_PRELOAD).
   REFUSED    memory, open, read or write: which calls fail
   FIRST      the first of them that fails, counted from 0
   LAST       the last of them that fails
   WAY        how: the name of an error (EIO, EINTR, ENOMEM), `one` (of one byte only), `none` (nothing is taken), `half` (half of the
              bytes, and then EIO)
   ACCOUNT    a file for what came of it: how many calls there were of each kind, and the name of the file whose call failed last */
#define _GNU_SOURCE
#include <errno.h>
#include <fcntl.h>
#include <stdarg.h>
#include <stdio.h>
#include <stdlib.h>
#include <string.h>
#include <sys/syscall.h>
#include <unistd.h>

enum kind { MEMORY, OPEN, READ, WRITE, KINDS };

static const char *const names[KINDS] = {"memory", "open", "read", "write"};
static unsigned long counts[KINDS];
static int refused = -1;
static unsigned long first, last;
static const char *way = "";
static char opened[64][256];
static char failed[256] = "-";

extern void *__libc_malloc(size_t size);
extern void *__libc_calloc(size_t count, size_t size);
extern void *__libc_realloc(void *old, size_t size);
extern void *__libc_memalign(size_t alignment, size_t size);

__attribute__((constructor)) static void begin(void)
{
    const char *kind = getenv("REFUSED");
    for (int i = 0; kind && i < KINDS; i++)
        if (!strcmp(kind, names[i]))
            refused = i;
    if (refused >= 0) {
        first = strtoul(getenv("FIRST"), NULL, 10);
        last = strtoul(getenv("LAST"), NULL, 10);
        way = getenv("WAY");
    }
    memset(counts, 0, sizeof counts);
}

__attribute__((destructor)) static void end(void)
{
    const char *account = getenv("ACCOUNT");
    if (!account)
        return;
    char text[512];
    int length = snprintf(text, sizeof text, "%lu %lu %lu %lu %s\n", counts[MEMORY], counts[OPEN], counts[READ], counts[WRITE], failed);
    int file = syscall(SYS_openat, AT_FDCWD, account, O_WRONLY | O_CREAT | O_TRUNC, 0600);
    syscall(SYS_write, file, text, (size_t)length);
    syscall(SYS_close, file);
}

/* Counts a call, and says whether it fails. */
static int fails(enum kind kind)
{
    unsigned long number = counts[kind]++;
    return (int)kind == refused && first <= number && number <= last;
}

static int error(void)
{
    return !strcmp(way, "EINTR") ? EINTR : !strcmp(way, "ENOMEM") ? ENOMEM : EIO;
}

static void *no_memory(void)
{
    errno = ENOMEM;
    return NULL;
}

void *malloc(size_t size)
{
    return fails(MEMORY) ? no_memory() : __libc_malloc(size);
}

void *calloc(size_t count, size_t size)
{
    return fails(MEMORY) ? no_memory() : __libc_calloc(count, size);
}

void *realloc(void *old, size_t size)
{
    return fails(MEMORY) ? no_memory() : __libc_realloc(old, size);
}

void *aligned_alloc(size_t alignment, size_t size)
{
    return fails(MEMORY) ? no_memory() : __libc_memalign(alignment, size);
}

int posix_memalign(void **place, size_t alignment, size_t size)
{
    void *taken = fails(MEMORY) ? NULL : __libc_memalign(alignment, size);
    if (!taken)
        return ENOMEM;
    *place = taken;
    return 0;
}

static void note(int file)
{
    if (file >= 0 && file < 64)
        strcpy(failed, opened[file]);
}

int open(const char *name, int flags, ...)
{
    mode_t mode = 0;
    if (flags & O_CREAT) {
        va_list rest;
        va_start(rest, flags);
        mode = va_arg(rest, mode_t);
        va_end(rest);
    }
    if (fails(OPEN)) {
        snprintf(failed, sizeof failed, "%s", name);
        errno = error();
        return -1;
    }
    int file = syscall(SYS_openat, AT_FDCWD, name, flags, mode);
    if (file >= 0 && file < 64)
        snprintf(opened[file], sizeof opened[file], "%s", name);
    return file;
}

int open64(const char *name, int flags, ...) __attribute__((alias("open")));

ssize_t read(int file, void *bytes, size_t size)
{
    if (fails(READ)) {
        note(file);
        if (!strcmp(way, "one"))
            return syscall(SYS_read, file, bytes, size ? 1 : 0);
        errno = error();
        return -1;
    }
    return syscall(SYS_read, file, bytes, size);
}

ssize_t write(int file, const void *bytes, size_t size)
{
    if (fails(WRITE)) {
        if (!strcmp(way, "one"))
            return syscall(SYS_write, file, bytes, size ? 1 : 0);
        if (!strcmp(way, "none"))
            return 0;
        if (!strcmp(way, "half") && size > 1) {
            last = counts[WRITE];
            way = "EIO";
            return syscall(SYS_write, file, bytes, size / 2);
        }
        errno = error();
        return -1;
    }
    return syscall(SYS_write, file, bytes, size);
}
