/* Makes calls on files fail; loaded before the C library by tools/faults, and no part of the program.

   FAIL_IO is `NUMBER COUNT HOW`. Of the calls below, counted from 1 in the order of the run, the one of that number
   fails, and so do the next ones of the same name (of `write`, to the same file), COUNT in all. HOW is an errno's
   number, `short` (one byte at most is read or written) or `none` (none is).

   FAIL_IO_TRACE names a file. Each call appends a line to it: name, file descriptor, result, and the name of a file
   that was opened. */
#define _GNU_SOURCE
#include <dlfcn.h>
#include <errno.h>
#include <fcntl.h>
#include <signal.h>
#include <stdarg.h>
#include <stdio.h>
#include <stdlib.h>
#include <string.h>
#include <sys/syscall.h>
#include <unistd.h>

enum how { AS_EVER, FAIL, SHORT, NONE };

static unsigned long number, wanted, count;
static enum how how;
static int failure, failing_file;
static const char *failing_call;

static void read_wish(void) {
    static int done;
    const char *wish = getenv("FAIL_IO");
    char word[16];
    if (done++ || !wish || sscanf(wish, "%lu %lu %15s", &wanted, &count, word) != 3) return;
    how = !strcmp(word, "short") ? SHORT : !strcmp(word, "none") ? NONE : FAIL;
    failure = atoi(word);
}

/* How the call that is made now ends. */
static enum how fate(const char *call, int file) {
    read_wish();
    if (++number == wanted) {
        failing_call = call;
        failing_file = file;
    }
    if (!failing_call || strcmp(failing_call, call) || count == 0) return AS_EVER;
    if (!strcmp(call, "write") && file != failing_file) return AS_EVER;
    count--;
    return how;
}

/* The result of a call, which is written to the trace. `errno` stays as it is. */
static long traced(const char *call, int file, long result, const char *name) {
    const char *to = getenv("FAIL_IO_TRACE");
    int before = errno;
    char line[512];
    if (to) {
        long out = syscall(SYS_openat, AT_FDCWD, to, O_WRONLY | O_CREAT | O_APPEND, 0600);
        int length = snprintf(line, sizeof line, "%s %d %ld %.400s\n", call, file, result, name);
        if (out < 0 || syscall(SYS_write, out, line, length) != length) abort();
        syscall(SYS_close, out);
    }
    errno = before;
    return result;
}

static long failed(void) {
    errno = failure;
    return -1;
}

int openat(int folder, const char *name, int flags, ...) {
    va_list more;
    va_start(more, flags);
    int mode = va_arg(more, int);
    va_end(more);
    long file = fate("open", -1) == FAIL ? failed() : syscall(SYS_openat, folder, name, flags, mode);
    return (int)traced("open", -1, file, name);
}

int open(const char *name, int flags, ...) {
    va_list more;
    va_start(more, flags);
    int mode = va_arg(more, int);
    va_end(more);
    return openat(AT_FDCWD, name, flags, mode);
}

/* The number of bytes to read or write in place of that number. */
static size_t cut(enum how fated, size_t asked) { return fated == SHORT && asked > 1 ? 1 : asked; }

ssize_t read(int file, void *to, size_t asked) {
    enum how fated = fate("read", file);
    long got = fated == FAIL ? failed() : fated == NONE ? 0 : syscall(SYS_read, file, to, cut(fated, asked));
    return traced("read", file, got, "");
}

ssize_t write(int file, const void *from, size_t asked) {
    enum how fated = fate("write", file);
    long put = fated == FAIL ? failed() : fated == NONE ? 0 : syscall(SYS_write, file, from, cut(fated, asked));
    return traced("write", file, put, "");
}

/* The file is closed also where the call says that it failed, as Linux does. */
int close(int file) {
    enum how fated = fate("close", file);
    long done = syscall(SYS_close, file);
    return (int)traced("close", file, fated == FAIL ? failed() : done, "");
}

/* The program asks once that a pipe without a reader is an error and no signal. */
__sighandler_t __sysv_signal(int which, __sighandler_t handler) {
    static __sighandler_t (*next)(int, __sighandler_t);
    if (!next) next = (__sighandler_t(*)(int, __sighandler_t))dlsym(RTLD_NEXT, "__sysv_signal");
    __sighandler_t before = fate("signal", -1) == FAIL ? (__sighandler_t)failed() : next(which, handler);
    traced("signal", -1, before == SIG_ERR ? -1 : 0, "");
    return before;
}
