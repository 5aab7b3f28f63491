/* Turns the entries of a program that brings its own malloc or read, as one with the address sanitizer does, to functions of a library. No library for
   LD_PRELOAD comes before such an entry. It is one jump, which is changed here (on x86-64). */
#include <dlfcn.h>
#include <stdint.h>
#include <stdio.h>
#include <string.h>
#include <sys/mman.h>
#include <unistd.h>

/* whether this name is the program's own, and not the library's that asks */
static int is_brought(const char *name, void *ours) {
    Dl_info found, library;
    return dladdr(dlsym(RTLD_DEFAULT, name), &found) && dladdr(ours, &library) && found.dli_fbase != library.dli_fbase;
}

/* room for stubs that such an entry can jump to */
static unsigned char *stubs_near(const char *name) {
    void *near = (void *)(((uintptr_t)dlsym(RTLD_DEFAULT, name) & ~(uintptr_t)4095) + (64 << 20));
    void *stubs = mmap(near, 4096, PROT_READ | PROT_WRITE | PROT_EXEC, MAP_PRIVATE | MAP_ANONYMOUS, -1, 0);
    return stubs == MAP_FAILED ? NULL : stubs;
}

/* turns an entry to `mine`, by way of a stub of 16 bytes, and answers where it jumped before; ends the program where it isn't one jump */
static void *turned(const char *name, void *mine, unsigned char *stub) {
    unsigned char *entry = dlsym(RTLD_DEFAULT, name);
    uintptr_t page = (uintptr_t)entry & ~(uintptr_t)4095;
    intptr_t there = stub - (entry + 5);
    int32_t away = (int32_t)there, before;
    if (!stub || entry[0] != 0xe9 || away != there || mprotect((void *)page, 8192, PROT_READ | PROT_WRITE | PROT_EXEC)) {
        fprintf(stderr, "the program's own %s can't be turned\n", name);
        _exit(99);
    }
    memcpy(stub, "\xff\x25\0\0\0\0", 6);
    memcpy(stub + 6, &mine, 8);
    memcpy(&before, entry + 1, 4);
    memcpy(entry + 1, &away, 4);
    return entry + 5 + before;
}
