/* Makes one call of a program's devices fail, and all of them short.

   cc -shared -fPIC -O1 -o failing.so failing.c
   LD_PRELOAD=./failing.so FAIL_CALL=read FAIL_AT=3 FAIL_WITH=5 FAIL_PIECE=2 fixd run f.bundle < rows.csv

   FAIL_CALL is `read` (of descriptor 0), `write` (of 1), `note` (a write of 2), `open`, or `pread`; the call of the number FAIL_AT fails with
   the errno FAIL_WITH, or, where that is 0, gives no byte. No read, write or pread gives or takes more than FAIL_PIECE bytes, where
   that is set. FAIL_REPORT names a file for the counts of the five calls. For Linux with the GNU C library. A read, write
   or pread that the program brings itself is turned to the one here (turn.h). */
#define _GNU_SOURCE
#include "turn.h"

#include <errno.h>
#include <fcntl.h>
#include <stdarg.h>
#include <stdlib.h>
#include <sys/syscall.h>

enum { READ, WRITE, NOTE, OPEN, PREAD, KINDS };

static const char *names[KINDS] = {"read", "write", "note", "open", "pread"};
static unsigned long counts[KINDS], at;
static int failing = -1, with;
static size_t piece = (size_t)-1;

__attribute__((destructor)) static void tell(void) {
    const char *report = getenv("FAIL_REPORT");
    char text[200];
    if (!report) return;
    int length = snprintf(text, sizeof text, "%lu %lu %lu %lu %lu\n", counts[READ], counts[WRITE], counts[NOTE], counts[OPEN], counts[PREAD]);
    long file = syscall(SYS_openat, AT_FDCWD, report, O_WRONLY | O_CREAT | O_TRUNC, 0600);
    syscall(SYS_write, file, text, length);
    syscall(SYS_close, file);
}

/* whether this call fails; its errno is set */
static int fails(int kind) {
    if (++counts[kind] != at || kind != failing) return 0;
    errno = with;
    return 1;
}

static size_t least(size_t size) { return size < piece ? size : piece; }

static ssize_t our_read(int file, void *block, size_t size) {
    if (file == 0 && fails(READ)) return with ? -1 : 0;
    return syscall(SYS_read, file, block, file == 0 ? least(size) : size);
}

static ssize_t our_write(int file, const void *block, size_t size) {
    if ((file == 1 && fails(WRITE)) || (file == 2 && fails(NOTE))) return with ? -1 : 0;
    return syscall(SYS_write, file, block, least(size));
}

static ssize_t our_pread(int file, void *block, size_t size, off_t place) {
    if (fails(PREAD)) return with ? -1 : 0;
    return syscall(SYS_pread64, file, block, least(size), place);
}

ssize_t read(int file, void *block, size_t size) { return our_read(file, block, size); }

ssize_t write(int file, const void *block, size_t size) { return our_write(file, block, size); }

ssize_t pread(int file, void *block, size_t size, off_t place) { return our_pread(file, block, size, place); }

ssize_t pread64(int file, void *block, size_t size, off64_t place) { return our_pread(file, block, size, place); }

static int opened(int folder, const char *name, int flags, int mode) {
    if (fails(OPEN)) return -1;
    return (int)syscall(SYS_openat, folder, name, flags, mode);
}

/* the mode behind the flags, where a file may be made */
#define MODE(flags) \
    int mode = 0; \
    if ((flags) & (O_CREAT | O_TMPFILE)) { \
        va_list more; \
        va_start(more, flags); \
        mode = va_arg(more, int); \
        va_end(more); \
    }

int open(const char *name, int flags, ...) {
    MODE(flags)
    return opened(AT_FDCWD, name, flags, mode);
}

int open64(const char *name, int flags, ...) {
    MODE(flags)
    return opened(AT_FDCWD, name, flags, mode);
}

int openat(int folder, const char *name, int flags, ...) {
    MODE(flags)
    return opened(folder, name, flags, mode);
}

__attribute__((constructor)) static void begin(void) {
    const char *call = getenv("FAIL_CALL"), *text;
    for (int k = 0; call && k < KINDS; k++)
        if (strcmp(call, names[k]) == 0) failing = k;
    if ((text = getenv("FAIL_AT"))) at = strtoul(text, NULL, 10);
    if ((text = getenv("FAIL_WITH"))) with = atoi(text);
    if ((text = getenv("FAIL_PIECE"))) piece = strtoul(text, NULL, 10);
    if (!is_brought("read", &piece)) return;
    unsigned char *stubs = stubs_near("read");
    turned("read", our_read, stubs);
    turned("write", our_write, stubs + 32);
    turned("pread", our_pread, stubs + 64);
}
