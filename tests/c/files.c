/*
 * Areas in files that are mapped, as AREAS IN FILES of the header says: they grow by appended
 * zeros, slots first, and are mapped anew; room that is given back changes no byte; and a file that
 * is shortened while it is mapped ends the call by a signal, here in a process of its own.
 */
#define _GNU_SOURCE 1 /* for fallocate */
#include "check.h"

#include <fcntl.h>
#include <signal.h>
#include <stdio.h>
#include <stdlib.h>
#include <string.h>
#include <sys/mman.h>
#include <sys/wait.h>
#include <unistd.h>

/* A file that is gone when it is closed, and its mapping. */
typedef struct {
    FILE *file;
    uint8_t *bytes;
    size_t length;
} mapping;

static mapping patch, full;
static uint8_t fives[8192], seven[8192], zeros[8192], page[8192];

/* What the tests stand on, and the library has no part in. */
static void must(int holds, const char *what) {
    if (!holds) {
        perror(what);
        exit(2);
    }
}

/* The file made as long as this, and mapped anew. */
static void map_anew(mapping *area, size_t length) {
    if (area->bytes != NULL) {
        must(munmap(area->bytes, area->length) == 0, "munmap");
    }
    must(ftruncate(fileno(area->file), (off_t)length) == 0, "ftruncate");
    area->bytes = (uint8_t *)mmap(NULL, length, PROT_READ | PROT_WRITE, MAP_SHARED,
                                  fileno(area->file), 0);
    must(area->bytes != (uint8_t *)MAP_FAILED, "mmap");
    area->length = length;
}

static void open_areas(size_t n, size_t m) {
    patch.file = tmpfile();
    full.file = tmpfile();
    must(patch.file != NULL && full.file != NULL, "tmpfile");
    map_anew(&patch, 512 + 512 * n);
    map_anew(&full, 4096 + 8192 * m);
    CHECK(thx_format(patch.bytes, patch.length, full.bytes, full.length).number == THX_DONE);
}

static void close_area(mapping *area) {
    must(munmap(area->bytes, area->length) == 0 && fclose(area->file) == 0, "close");
    area->bytes = NULL;
}

static thx_written put(uint64_t block, const uint8_t *as) {
    store to = {patch.bytes, patch.length, full.bytes, full.length, NULL, 0};
    return write_by_pair(&to, block, NULL, 0, as, 8192);
}

static void reads_as(uint64_t block, uint32_t kind, const uint8_t *as) {
    thx_reading r;
    memset(page, 0xEE, sizeof page);
    r = thx_read(patch.bytes, patch.length, full.bytes, full.length, block, NULL, 0, page, 8192);
    CHECK(r.number == THX_DONE && r.kind == kind && memcmp(page, as, 8192) == 0);
}

static uint32_t build(void) {
    uint8_t map[2];
    return thx_build(patch.bytes, patch.length, full.bytes, full.length, map, sizeof map).number;
}

/* A full page and a patch; then more slots, then more places, and they are written to. */
static void growing(void) {
    uint64_t block;
    open_areas(2, 1);
    CHECK(put(0, fives).kind == THX_KIND_FULL && put(1, seven).kind == THX_KIND_PATCH);
    CHECK(put(5, seven).number == THX_BAD_BLOCK);
    map_anew(&patch, 512 + 512 * 7);
    CHECK(build() == THX_DONE);
    CHECK(put(5, seven).number == THX_DONE && put(4, fives).number == THX_NO_FULL_PAGE);
    map_anew(&full, 4096 + 8192 * 7);
    CHECK(build() == THX_DONE);
    CHECK(put(4, fives).number == THX_DONE);
    for (block = 0; block < 7; block++) {
        if (block == 0 || block == 4) {
            reads_as(block, THX_KIND_FULL, fives);
        } else if (block == 1 || block == 5) {
            reads_as(block, THX_KIND_PATCH, seven);
        } else {
            reads_as(block, THX_KIND_EMPTY, zeros);
        }
    }
    CHECK(build() == THX_DONE);
}

/* The room of a place that was cleared, given back: a hole reads as the zeros that it was. */
static void giving_back(void) {
    CHECK(put(0, zeros).kind == THX_KIND_EMPTY);
    /* A file system may have no holes. */
    if (fallocate(fileno(full.file), FALLOC_FL_PUNCH_HOLE | FALLOC_FL_KEEP_SIZE, 4096, 8192) == 0) {
        CHECK(memcmp(full.bytes + 4096, zeros, 8192) == 0);
    }
    CHECK(build() == THX_DONE);
    reads_as(0, THX_KIND_EMPTY, zeros);
    reads_as(4, THX_KIND_FULL, fives);
    CHECK(put(0, fives).number == THX_DONE);
    reads_as(0, THX_KIND_FULL, fives);
}

/* A process of its own reads a block whose page was cut off under its mapping. */
static void shortening(void) {
    int status = 0;
    pid_t reader;
    fflush(stdout);
    must(ftruncate(fileno(full.file), 4096) == 0, "ftruncate");
    reader = fork();
    must(reader >= 0, "fork");
    if (reader == 0) {
        thx_reading r = thx_read(patch.bytes, patch.length, full.bytes, full.length, 4, NULL, 0,
                                 page, 8192);
        _exit(r.number == THX_DONE ? 1 : 2);
    }
    must(waitpid(reader, &status, 0) == reader, "waitpid");
    CHECK(WIFSIGNALED(status) && WTERMSIG(status) == SIGBUS);
    /* Opened again it is told by its length. */
    map_anew(&full, 4096);
    CHECK(build() == THX_NO_FULL_PAGE);
    reads_as(5, THX_KIND_PATCH, seven);
}

void every_file(void) {
    memset(fives, 5, sizeof fives);
    seven[0] = 7;
    growing();
    giving_back();
    shortening();
    close_area(&patch);
    close_area(&full);
}
