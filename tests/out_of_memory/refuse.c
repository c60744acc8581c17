/* Loaded before a program, this refuses its Nth allocation, N being the value of REFUSE, or each one if that is `all`.
   If REFUSE_COUNT is set, it writes the number of allocations to descriptor 9. */
#define _GNU_SOURCE
#include <dlfcn.h>
#include <stdio.h>
#include <stdlib.h>
#include <string.h>
#include <unistd.h>

static long calls, refuse = -1;
static int refuses_all;
static void *(*real_malloc)(size_t);
static void *(*real_realloc)(void *, size_t);

static int refused(void) {
    if (refuse < 0) {
        const char *word = getenv("REFUSE");
        refuse = word ? atol(word) : 0;
        refuses_all = word && !strcmp(word, "all");
    }
    return ++calls == refuse || refuses_all;
}

void *malloc(size_t size) {
    if (!real_malloc) real_malloc = (void *(*)(size_t))dlsym(RTLD_NEXT, "malloc");
    return refused() ? NULL : real_malloc(size);
}

void *realloc(void *block, size_t size) {
    if (!real_realloc) real_realloc = (void *(*)(void *, size_t))dlsym(RTLD_NEXT, "realloc");
    return refused() ? NULL : real_realloc(block, size);
}

__attribute__((destructor)) static void report(void) {
    char line[32];
    if (!getenv("REFUSE_COUNT")) return;
    int length = snprintf(line, sizeof line, "%ld\n", calls);
    if (write(9, line, length) != length) _exit(5);
}
