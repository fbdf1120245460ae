/* Makes calls of the C library fail, for tools/fail-in-turn. That tool alone compiles it, and loads it before the C library into a program that it tests.

   The environment says which calls:
     FAIL_CALL   memory, source (reads of the standard input), sink (writes to the standard output), open, file (reads of files) or close
     FAIL_AT     the number of the first of them, from 1 on
     FAIL_COUNT  how many of them there are, one after another
     FAIL_HOW    fail: they fail; short: they move one byte; none: they move no byte
     FAIL_MOST   the most bytes that a read or a write moves, where it is set
   What was done by then is told on the standard error: at the fault how many bytes were read and written, at the end how many calls there were. */

#define _GNU_SOURCE
#include <errno.h>
#include <fcntl.h>
#include <stdarg.h>
#include <stdio.h>
#include <stdlib.h>
#include <string.h>
#include <sys/syscall.h>
#include <unistd.h>

extern void *__libc_malloc(size_t size);
extern void *__libc_calloc(size_t count, size_t size);
extern void *__libc_realloc(void *block, size_t size);
extern void *__libc_memalign(size_t alignment, size_t size);

enum call { MEMORY, SOURCE, SINK, OPEN, READ_FILE, CLOSE, CALLS };
enum how { FAIL, SHORT, NONE };

static const char *const names[CALLS] = {"memory", "source", "sink", "open", "file", "close"};
static const char *const hows[] = {"fail", "short", "none"};

static unsigned long calls[CALLS], at, count, most, bytes_read, bytes_written;
static int failing = -1, how, told, started;

static void tell(const char *line, int length) {
    syscall(SYS_write, 2, line, (size_t)length);
}

static int place(const char *word, const char *const *words, int length) {
    for (int i = 0; word && i < length; i++)
        if (strcmp(word, words[i]) == 0) return i;
    return -1;
}

static unsigned long number(const char *name) {
    const char *word = getenv(name);
    return word ? strtoul(word, NULL, 10) : 0;
}

__attribute__((constructor)) static void start(void) {
    failing = place(getenv("FAIL_CALL"), names, CALLS);
    how = place(getenv("FAIL_HOW"), hows, 3);
    at = number("FAIL_AT");
    count = number("FAIL_COUNT");
    most = number("FAIL_MOST");
    started = 1;
}

__attribute__((destructor)) static void end(void) {
    char line[200];
    started = 0;
    int length = snprintf(line, sizeof line, "calls");
    for (int i = 0; i < CALLS; i++) length += snprintf(line + length, sizeof line - length, " %s=%lu", names[i], calls[i]);
    length += snprintf(line + length, sizeof line - length, "\n");
    tell(line, length);
}

/* A program that may start threads ends by this call, behind which no destructor runs. */
__attribute__((noreturn)) void _exit(int status) {
    if (started) end();
    syscall(SYS_exit_group, status);
    __builtin_unreachable();
}

/* Counts a call, whichever thread makes it, and says whether it is one that is to go wrong. */
static int is_hit(enum call call) {
    if (!started) return 0;
    unsigned long nth = __atomic_add_fetch(&calls[call], 1, __ATOMIC_RELAXED);
    if ((int)call != failing || nth < at || nth - at >= count) return 0;
    if (!__atomic_exchange_n(&told, 1, __ATOMIC_RELAXED)) {
        char line[100];
        tell(line, snprintf(line, sizeof line, "fault %lu %lu\n", bytes_read, bytes_written));
    }
    return 1;
}

static int has_no_memory(void) {
    if (!is_hit(MEMORY)) return 0;
    errno = ENOMEM;
    return 1;
}

void *malloc(size_t size) { return has_no_memory() ? NULL : __libc_malloc(size); }
void *calloc(size_t items, size_t size) { return has_no_memory() ? NULL : __libc_calloc(items, size); }
void *realloc(void *block, size_t size) { return has_no_memory() ? NULL : __libc_realloc(block, size); }
void *aligned_alloc(size_t alignment, size_t size) { return has_no_memory() ? NULL : __libc_memalign(alignment, size); }

int posix_memalign(void **block, size_t alignment, size_t size) {
    if (is_hit(MEMORY)) return ENOMEM;
    *block = __libc_memalign(alignment, size);
    return *block ? 0 : ENOMEM;
}

/* Moves bytes, or fewer than are asked for, or none. */
static ssize_t move(enum call call, long system_call, int file, void *block, size_t size) {
    size_t asked = most && size > most ? most : size;
    if (is_hit(call)) {
        if (how == NONE) return 0;
        if (how == FAIL) {
            errno = EIO;
            return -1;
        }
        asked = size > 1 ? 1 : size;
    }
    ssize_t moved = syscall(system_call, file, block, asked);
    if (moved > 0 && call == SOURCE) bytes_read += (unsigned long)moved;
    if (moved > 0 && call == SINK) bytes_written += (unsigned long)moved;
    return moved;
}

ssize_t read(int file, void *block, size_t size) { return move(file == 0 ? SOURCE : READ_FILE, SYS_read, file, block, size); }
ssize_t write(int file, const void *block, size_t size) { return file == 2 ? syscall(SYS_write, file, block, size) : move(SINK, SYS_write, file, (void *)block, size); }
ssize_t __write(int file, const void *block, size_t size) { return write(file, block, size); }

int open(const char *path, int flags, ...) {
    int mode = 0;
    if (flags & O_CREAT) {
        va_list rest;
        va_start(rest, flags);
        mode = va_arg(rest, int);
        va_end(rest);
    }
    if (is_hit(OPEN)) {
        errno = EIO;
        return -1;
    }
    return (int)syscall(SYS_openat, AT_FDCWD, path, flags, mode);
}

int close(int file) {
    if (is_hit(CLOSE)) {
        syscall(SYS_close, file);
        errno = EIO;
        return -1;
    }
    return (int)syscall(SYS_close, file);
}
