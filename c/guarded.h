/* What the tests in C share: bytes between pages that may not be used, and files in them. */
#ifndef GUARDED_H
#define GUARDED_H

#include <stdint.h>
#include <stdio.h>
#include <stdlib.h>
#include <sys/mman.h>
#include <unistd.h>

static void stop(const char *text) {
    fprintf(stderr, "error: %s\n", text);
    exit(3);
}

/* Bytes that end at the end of a page; the next page may not be read. */
typedef struct guarded {
    uint8_t *at;
    size_t len;
    uint8_t *pages;
    size_t room;
} guarded;

static guarded guard(size_t len) {
    size_t page = (size_t)sysconf(_SC_PAGESIZE), room = (len + page - 1) / page * page;
    uint8_t *pages = mmap(NULL, room + page, PROT_READ | PROT_WRITE, MAP_PRIVATE | MAP_ANONYMOUS, -1, 0);
    if (pages == MAP_FAILED || mprotect(pages + room, page, PROT_NONE) != 0) stop("no memory");
    return (guarded){pages + room - len, len, pages, room + page};
}

static guarded read_file(const char *path) {
    FILE *file = fopen(path, "rb");
    if (file == NULL || fseek(file, 0, SEEK_END) != 0) stop("cannot read the file");
    long len = ftell(file);
    if (len < 0) stop("cannot read the file");
    rewind(file);
    guarded read = guard((size_t)len);
    if (fread(read.at, 1, read.len, file) != read.len) stop("cannot read the file");
    fclose(file);
    return read;
}

#endif
