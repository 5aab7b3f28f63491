/* Counts a program's requests for memory from `main` on and refuses those that it is told to.

   cc -shared -fPIC -O1 -o refuse.so refuse.c
   LD_PRELOAD=./refuse.so REFUSE_AT=17 fixd check f.bundle                  the 17th request is refused
   LD_PRELOAD=./refuse.so REFUSE_AT=17 REFUSE_ALL=1 fixd check f.bundle     the 17th and all behind it
   LD_PRELOAD=./refuse.so REFUSE_REPORT=count fixd check f.bundle           writes how many there were into the file `count`

   A request is a call of malloc, calloc, realloc, reallocarray, memalign, aligned_alloc, posix_memalign, valloc or pvalloc; a block
   that is to be made smaller is one too. A refused one answers NULL with ENOMEM, or ENOMEM. For Linux with the GNU C library. A
   program with the address sanitizer brings its own malloc, which no library comes before: its entries are turned to the
   functions here once `main` begins (on x86-64), so that its allocator still serves what isn't refused. */
#define _GNU_SOURCE
#include "turn.h"

#include <errno.h>
#include <fcntl.h>
#include <stdlib.h>

void *__libc_malloc(size_t size);
void *__libc_calloc(size_t count, size_t size);
void *__libc_realloc(void *block, size_t size);
void *__libc_memalign(size_t alignment, size_t size);

static int counting, all_behind;
static unsigned long requests, refused_at;
static const char *report;
static int (*first_main)(int, char **, char **);
static void *(*next_malloc)(size_t) = __libc_malloc;
static void *(*next_calloc)(size_t, size_t) = __libc_calloc;
static void *(*next_realloc)(void *, size_t) = __libc_realloc;
static void *(*next_memalign)(size_t, size_t) = __libc_memalign;

/* whether the request that is made now is refused */
static int is_refused(void) {
    if (!counting) return 0;
    requests++;
    if (refused_at == 0 || requests < refused_at || (requests > refused_at && !all_behind)) return 0;
    errno = ENOMEM;
    return 1;
}

static void *our_malloc(size_t size) { return is_refused() ? NULL : next_malloc(size); }

static void *our_realloc(void *block, size_t size) { return is_refused() ? NULL : next_realloc(block, size); }

void *malloc(size_t size) { return our_malloc(size); }

void *calloc(size_t count, size_t size) { return is_refused() ? NULL : next_calloc(count, size); }

void *realloc(void *block, size_t size) { return our_realloc(block, size); }

void *reallocarray(void *block, size_t count, size_t size) {
    size_t bytes;
    if (!__builtin_mul_overflow(count, size, &bytes)) return our_realloc(block, bytes);
    errno = ENOMEM;
    return NULL;
}

void *memalign(size_t alignment, size_t size) { return is_refused() ? NULL : next_memalign(alignment, size); }

void *aligned_alloc(size_t alignment, size_t size) { return memalign(alignment, size); }

void *valloc(size_t size) { return memalign((size_t)sysconf(_SC_PAGESIZE), size); }

void *pvalloc(size_t size) {
    size_t page = (size_t)sysconf(_SC_PAGESIZE);
    return memalign(page, (size + page - 1) / page * page);
}

int posix_memalign(void **block, size_t alignment, size_t size) {
    if (alignment < sizeof(void *) || (alignment & (alignment - 1))) return EINVAL;
    void *got = memalign(alignment, size);
    if (!got) return ENOMEM;
    *block = got;
    return 0;
}

/* turns malloc and realloc, which are all that `fixd` calls, where the program brings its own */
static void turn_own(void) {
    if (!is_brought("malloc", &report)) return;
    unsigned char *stubs = stubs_near("malloc");
    next_malloc = (void *(*)(size_t))turned("malloc", our_malloc, stubs);
    next_realloc = (void *(*)(void *, size_t))turned("realloc", our_realloc, stubs + 32);
}

/* writes the count once, where it is asked for */
__attribute__((destructor)) static void tell(void) {
    char line[32];
    counting = 0;
    if (!report) return;
    int file = open(report, O_WRONLY | O_CREAT | O_TRUNC, 0600);
    int length = snprintf(line, sizeof line, "%lu\n", requests);
    if (file < 0 || write(file, line, (size_t)length) != length) _exit(99);
    close(file);
    report = NULL;
}

static int counted_main(int count, char **words, char **environment) {
    const char *at = getenv("REFUSE_AT");
    refused_at = at ? strtoul(at, NULL, 10) : 0;
    all_behind = getenv("REFUSE_ALL") != NULL;
    report = getenv("REFUSE_REPORT");
    turn_own();
    counting = 1;
    int status = first_main(count, words, environment);
    tell();
    return status;
}

int __libc_start_main(int (*main)(int, char **, char **), int count, char **words, void (*init)(void), void (*fini)(void),
                      void (*last)(void), void *stack) {
    int (*start)(int (*)(int, char **, char **), int, char **, void (*)(void), void (*)(void), void (*)(void), void *);
    *(void **)&start = dlsym(RTLD_NEXT, "__libc_start_main");
    first_main = main;
    return start(counted_main, count, words, init, fini, last, stack);
}
