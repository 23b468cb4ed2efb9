// Withholds memory and devices from a program: LD_PRELOAD it. What is withheld is a word:
//   mN  the N-th request for memory (malloc, realloc) is refused
//   eN  the N-th read or write fails, with EIO; iN: with EINTR
//   b   each read and write moves one byte
//   cN  a read or write that would go past the N-th byte ends there; h: each ends anywhere, as hash32 says
// and N is 0 where only their number is to be known.
//
// The word stands in WITHHELD, and then it holds from the start to the end. Or the program writes it to standard error,
// and `.` where it ends to hold: then the shim writes the number of requests, or of reads and writes, or under c and h
// of the bytes that they moved, and a space to standard output. Nothing that goes to standard error is withheld,
// counted or shown.
#define _GNU_SOURCE
#include <dlfcn.h>
#include <errno.h>
#include <stdint.h>
#include <stdio.h>
#include <stdlib.h>
#include <unistd.h>

static char kind = 0;
static long at = 0, seen = 0;

static void hold(const char *word, size_t size) {
    kind = size ? word[0] : 0;
    at = seen = 0;
    for (size_t i = 1; i < size && word[i] >= '0' && word[i] <= '9'; i++) at = at * 10 + (word[i] - '0');
}

__attribute__((constructor)) static void hold_from_the_start(void) {
    const char *word = getenv("WITHHELD");
    if (word) {
        size_t size = 0;
        while (word[size]) size++;
        hold(word, size);
    }
}

static int refuses_memory(void) { return kind == 'm' && ++seen == at; }

// A number that looks random, as the original crate's own test of long streams makes it.
static uint32_t hash32(uint32_t x) {
    x *= 0xa4d94a4f;
    x ^= (x >> 16) >> (x >> 30);
    return x * 0xa4d94a4f;
}

// How many bytes a read or write of so many may move.
static size_t most(size_t size) {
    if (kind == 'b' && size > 1) return 1;
    if (kind == 'c' && seen < at && size > (size_t)(at - seen)) return (size_t)(at - seen);
    if (kind == 'h' && size > 1) return hash32((uint32_t)seen + (uint32_t)size) % size + 1;
    return size;
}

// Whether this read or write fails, with its errno; if it does not, it is counted.
static int fails_call(void) {
    if (kind == 'b') seen++;
    if ((kind != 'e' && kind != 'i') || ++seen != at) return 0;
    errno = kind == 'e' ? EIO : EINTR;
    return 1;
}

// Counts the bytes that a read or write moved, where those are counted.
static ssize_t moved(ssize_t count) {
    if ((kind == 'c' || kind == 'h') && count > 0) seen += count;
    return count;
}

void *malloc(size_t size) {
    static void *(*next)(size_t);
    if (!next) next = (void *(*)(size_t))dlsym(RTLD_NEXT, "malloc");
    return refuses_memory() ? NULL : next(size);
}

void *realloc(void *old, size_t size) {
    static void *(*next)(void *, size_t);
    if (!next) next = (void *(*)(void *, size_t))dlsym(RTLD_NEXT, "realloc");
    return refuses_memory() ? NULL : next(old, size);
}

ssize_t read(int file, void *bytes, size_t size) {
    static ssize_t (*next)(int, void *, size_t);
    if (!next) next = (ssize_t (*)(int, void *, size_t))dlsym(RTLD_NEXT, "read");
    return fails_call() ? -1 : moved(next(file, bytes, most(size)));
}

ssize_t write(int file, const void *bytes, size_t size) {
    static ssize_t (*next)(int, const void *, size_t);
    if (!next) next = (ssize_t (*)(int, const void *, size_t))dlsym(RTLD_NEXT, "write");
    if (file != STDERR_FILENO) return fails_call() ? -1 : moved(next(file, bytes, most(size)));
    const char *word = bytes;
    if (size == 1 && word[0] == '.') {
        char said[32];
        kind = 0;
        next(STDOUT_FILENO, said, (size_t)snprintf(said, sizeof said, "%ld ", seen));
    } else {
        hold(word, size);
    }
    return (ssize_t)size;
}
