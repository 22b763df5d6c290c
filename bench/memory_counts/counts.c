/* Counts the requests of a program for memory and the bytes that it holds.

   On standard error, before each write to standard output and at the end, it prints how many requests came so far, how many bytes
   are held, and how many were held at most since it printed last.
   It is loaded before the C library (LD_PRELOAD), for a program of one thread. */
#define _GNU_SOURCE
#include <dlfcn.h>
#include <malloc.h>
#include <stddef.h>
#include <stdio.h>
#include <sys/types.h>

static size_t requests, held, most;

static void take(void *block) {
    requests += 1;
    if (block) held += malloc_usable_size(block);
    if (held > most) most = held;
}

static void give(void *block) {
    if (block) held -= malloc_usable_size(block);
}

void *malloc(size_t size) {
    static void *(*real)(size_t);
    if (!real) real = dlsym(RTLD_NEXT, "malloc");
    void *block = real(size);
    take(block);
    return block;
}

void *realloc(void *old, size_t size) {
    static void *(*real)(void *, size_t);
    if (!real) real = dlsym(RTLD_NEXT, "realloc");
    size_t before = old ? malloc_usable_size(old) : 0;
    void *block = real(old, size);
    if (block || size == 0) held -= before;
    take(block);
    return block;
}

void free(void *block) {
    static void (*real)(void *);
    if (!real) real = dlsym(RTLD_NEXT, "free");
    give(block);
    real(block);
}

static void tell(void) {
    fprintf(stderr, "%zu %zu %zu\n", requests, held, most);
    most = held;
}

ssize_t write(int file, const void *bytes, size_t count) {
    static ssize_t (*real)(int, const void *, size_t);
    if (!real) real = dlsym(RTLD_NEXT, "write");
    if (file == 1) tell();
    return real(file, bytes, count);
}
