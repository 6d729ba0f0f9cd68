/*
 * Makes calls of the library for another program, which holds what comes of them to the rules (tests/outside, `client`).
 *
 * All words are 32 bits, in the machine's order. A request is: the call (1 make, 2 step, 3 run); five numbers (make: servers, places,
 * slots, 0, 0; step: kind, a, b, c, d; run: zeros); then table, steps and answers, each as where it stands (0 at the upper fence, 1 at the
 * lower one, 2 nowhere: a null pointer), how many words it has, and the words. The reply is the code that was returned, then the words of
 * table and answers.
 *
 * It ends with status 0 after the last request. A word outside of the buffers that was altered, or a request that is none, ends it with a
 * message and status 2.
 */
#include "fenced.h"
#include "yittomere.h"

#include <stdio.h>
#include <stdlib.h>

enum { MAKE = 1, STEP = 2, RUN = 3 };

/* Room for the largest table and more, and for as long a list of steps. */
#define ROOM 131072u

static void give_up(const char *said) {
    fprintf(stderr, "bridge: %s\n", said);
    exit(2);
}

static void read_words(uint32_t *words, size_t count) {
    if (count > 0 && fread(words, sizeof(uint32_t), count, stdin) != count) {
        give_up("the request ends too soon");
    }
}

static void write_words(const uint32_t *words, size_t count) {
    if (count > 0 && fwrite(words, sizeof(uint32_t), count, stdout) != count) {
        give_up("the reply can't be written");
    }
}

static void read_buffer(struct fenced *fenced) {
    uint32_t head[2];
    read_words(head, 2);
    if (head[0] > NOWHERE) {
        give_up("a buffer stands nowhere that is known");
    }
    read_words(fenced_lend(fenced, (enum stand)head[0], head[1]), head[1]);
}

int main(void) {
    struct fenced table = fenced_room(ROOM);
    struct fenced steps = fenced_room(ROOM);
    struct fenced answers = fenced_room(ROOM);
    uint32_t asked[6];
    size_t got;
    while ((got = fread(asked, sizeof(uint32_t), 6, stdin)) == 6) {
        const uint32_t *n = asked + 1;
        uint32_t code = 0;
        read_buffer(&table);
        read_buffer(&steps);
        read_buffer(&answers);
        switch (asked[0]) {
        case MAKE:
            code = yittomere_make(table.buffer, table.words, n[0], n[1], n[2]);
            break;
        case STEP:
            code = yittomere_step(table.buffer, table.words, n[0], n[1], n[2], n[3], n[4], answers.buffer, answers.words);
            break;
        case RUN:
            fenced_protect(&steps, true);
            code = yittomere_run(table.buffer, table.words, steps.buffer, steps.words, answers.buffer, answers.words);
            fenced_protect(&steps, false);
            break;
        default:
            give_up("no such call");
        }
        if (!fenced_whole(&table) || !fenced_whole(&steps) || !fenced_whole(&answers)) {
            give_up("a word outside of the buffers was altered");
        }
        write_words(&code, 1);
        write_words(table.buffer, table.words);
        write_words(answers.buffer, answers.words);
        if (fflush(stdout) != 0) {
            give_up("the reply can't be written");
        }
    }
    if (got != 0) {
        give_up("the request ends too soon");
    }
    return 0;
}
