// Refuses a request for memory, a read or a write of a program that it is loaded before. bench/refusals builds it.
//
// REFUSE_MEMORY, REFUSE_READS and REFUSE_WRITES name, by number from 1, the call that fails, once each. With
// REFUSE_ON set every later call of that kind fails too. With REFUSE_SHORT set each read and write moves at most one
// byte. At the end the numbers of calls are written to the file that REFUSE_TOLD names.
#define _GNU_SOURCE
#include <errno.h>
#include <fcntl.h>
#include <stddef.h>
#include <stdio.h>
#include <stdlib.h>
#include <sys/syscall.h>
#include <unistd.h>

extern void *__libc_malloc(size_t);
extern void *__libc_calloc(size_t, size_t);
extern void *__libc_realloc(void *, size_t);
extern void *__libc_memalign(size_t, size_t);

enum { MEMORY, READS, WRITES, KINDS };

static const char *const names[KINDS] = {"REFUSE_MEMORY", "REFUSE_READS", "REFUSE_WRITES"};
static unsigned long calls[KINDS], refused[KINDS];
static int on, is_short;

// Only calls from here on count; what the loader asked before is its own.
__attribute__((constructor)) static void begin(void) {
    for (int kind = 0; kind < KINDS; kind++) {
        const char *number = getenv(names[kind]);
        refused[kind] = number ? strtoul(number, NULL, 10) : 0;
        calls[kind] = 0;
    }
    on = getenv("REFUSE_ON") != NULL;
    is_short = getenv("REFUSE_SHORT") != NULL;
}

__attribute__((destructor)) static void tell(void) {
    const char *path = getenv("REFUSE_TOLD");
    if (!path)
        return;
    char text[80];
    int length = snprintf(text, sizeof text, "%lu %lu %lu\n", calls[MEMORY], calls[READS], calls[WRITES]);
    int file = (int)syscall(SYS_openat, AT_FDCWD, path, O_WRONLY | O_CREAT | O_TRUNC, 0600);
    syscall(SYS_write, file, text, (size_t)length);
    syscall(SYS_close, file);
}

static int fails(int kind) {
    calls[kind]++;
    return refused[kind] != 0 && (calls[kind] == refused[kind] || (on && calls[kind] > refused[kind]));
}

static int memory_fails(void) {
    if (!fails(MEMORY))
        return 0;
    errno = ENOMEM;
    return 1;
}

void *malloc(size_t bytes) { return memory_fails() ? NULL : __libc_malloc(bytes); }

void *calloc(size_t count, size_t bytes) { return memory_fails() ? NULL : __libc_calloc(count, bytes); }

void *realloc(void *kept, size_t bytes) { return memory_fails() ? NULL : __libc_realloc(kept, bytes); }

void *aligned_alloc(size_t bound, size_t bytes) { return memory_fails() ? NULL : __libc_memalign(bound, bytes); }

void *memalign(size_t bound, size_t bytes) { return memory_fails() ? NULL : __libc_memalign(bound, bytes); }

int posix_memalign(void **made, size_t bound, size_t bytes) {
    if (memory_fails() || !(*made = __libc_memalign(bound, bytes)))
        return ENOMEM;
    return 0;
}

static ssize_t moves(int kind, long number, int file, void *bytes, size_t count) {
    if (fails(kind)) {
        errno = EIO;
        return -1;
    }
    return syscall(number, file, bytes, is_short && count > 1 ? 1 : count);
}

ssize_t read(int file, void *bytes, size_t count) { return moves(READS, SYS_read, file, bytes, count); }

ssize_t write(int file, const void *bytes, size_t count) {
    return moves(WRITES, SYS_write, file, (void *)bytes, count);
}

ssize_t __write(int file, const void *bytes, size_t count) { return write(file, bytes, count); }
