// The calls of the C library by which the program takes memory, reads and writes, counted by kind. One call of a kind
// fails, or moves a single byte, where an environment variable has its number; `MEMORY_ENDS` has that of the first of
// the allocations that all fail. `bench/failing` compiles this and has it loaded before the C library; at the end of
// the program the counts are written to a descriptor of its own.
#include <errno.h>
#include <stddef.h>
#include <stdlib.h>
#include <sys/syscall.h>
#include <unistd.h>

extern void *__libc_malloc(size_t);
extern void *__libc_realloc(void *, size_t);

enum { ALLOCATION, READ, WRITE, TOLD, KINDS };

static long calls[KINDS];

// The number in a variable, 0 where there is none.
static long number_in(const char *variable) {
    const char *text = getenv(variable);
    return text ? atol(text) : 0;
}

static void *take(void *old, size_t size) {
    long call = ++calls[ALLOCATION], end = number_in("MEMORY_ENDS");
    if (call == number_in("FAILED_ALLOCATION") || (end && call >= end)) {
        errno = ENOMEM;
        return NULL;
    }
    return old ? __libc_realloc(old, size) : __libc_malloc(size);
}

void *malloc(size_t size) { return take(NULL, size); }

void *realloc(void *old, size_t size) { return take(old, size); }

ssize_t read(int file, void *into, size_t size) {
    long call = ++calls[READ];
    if (call == number_in("FAILED_READ")) {
        errno = EIO;
        return -1;
    }
    if (size > 1 && call == number_in("SHORT_READ"))
        size = 1;
    return syscall(SYS_read, file, into, size);
}

ssize_t write(int file, const void *from, size_t size) {
    int told = file == STDERR_FILENO;
    long call = ++calls[told ? TOLD : WRITE];
    if (call == number_in(told ? "FAILED_TOLD" : "FAILED_WRITE")) {
        errno = EIO;
        return -1;
    }
    if (size > 1 && call == number_in(told ? "SHORT_TOLD" : "SHORT_WRITE"))
        size = 1;
    return syscall(SYS_write, file, from, size);
}

ssize_t __write(int file, const void *from, size_t size) { return write(file, from, size); }

__attribute__((destructor)) static void tell_counts(void) {
    long file = number_in("COUNTS");
    if (file)
        syscall(SYS_write, file, calls, sizeof calls);
}
