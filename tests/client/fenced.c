#include "fenced.h"

#include <stdio.h>
#include <stdlib.h>
#include <sys/mman.h>
#include <unistd.h>

/* So many words beyond the buffer's open end are looked at. */
#define MARKED 64u
#define MARK 0xa5c3e197u

static void give_up(const char *said) {
    perror(said);
    exit(2);
}

static size_t smaller(size_t a, size_t b) { return a < b ? a : b; }

/* The marked words: behind a buffer at the lower fence, before any other. */
static uint32_t *marked_words(const struct fenced *fenced, size_t *count) {
    *count = smaller(MARKED, fenced->most - fenced->words);
    if (fenced->stand == AT_LOWER_FENCE) {
        return fenced->room + fenced->words;
    }
    return fenced->room + (fenced->most - fenced->words - *count);
}

static void mark(const struct fenced *fenced) {
    size_t count;
    uint32_t *words = marked_words(fenced, &count);
    for (size_t i = 0; i < count; i++) {
        words[i] = MARK;
    }
}

struct fenced fenced_room(size_t most) {
    size_t page = (size_t)sysconf(_SC_PAGESIZE);
    size_t bytes = (most * sizeof(uint32_t) + page - 1) / page * page;
    char *pages = mmap(NULL, bytes + 2 * page, PROT_NONE, MAP_PRIVATE | MAP_ANONYMOUS, -1, 0);
    if (pages == MAP_FAILED) {
        give_up("fenced_room");
    }
    struct fenced fenced = {(uint32_t *)(void *)(pages + page), bytes / sizeof(uint32_t), NULL, 0, NOWHERE};
    fenced_protect(&fenced, false);
    fenced_lend(&fenced, NOWHERE, 0);
    return fenced;
}

uint32_t *fenced_lend(struct fenced *fenced, enum stand stand, size_t words) {
    if (words > fenced->most || (stand == NOWHERE && words > 0)) {
        fprintf(stderr, "fenced_lend: no room for %zu words\n", words);
        exit(2);
    }
    fenced->stand = stand;
    fenced->words = words;
    fenced->buffer = stand == NOWHERE          ? NULL
                     : stand == AT_LOWER_FENCE ? fenced->room
                                               : fenced->room + (fenced->most - words);
    for (size_t i = 0; i < words; i++) {
        fenced->buffer[i] = 0;
    }
    mark(fenced);
    return fenced->buffer;
}

void fenced_protect(const struct fenced *fenced, bool read_only) {
    int how = read_only ? PROT_READ : PROT_READ | PROT_WRITE;
    if (mprotect(fenced->room, fenced->most * sizeof(uint32_t), how) != 0) {
        give_up("fenced_protect");
    }
}

bool fenced_whole(struct fenced *fenced) {
    size_t count;
    const uint32_t *words = marked_words(fenced, &count);
    bool whole = true;
    for (size_t i = 0; i < count; i++) {
        whole = whole && words[i] == MARK;
    }
    mark(fenced);
    return whole;
}
