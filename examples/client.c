/*
 * A client to start from. Two servers copy case notes from each other now and then; an agent writes a note at one of them and wants to
 * read it at the other.
 *
 *     tools/library.sh
 *     cc -I include examples/client.c target/staticlib/libyittomere.a -o target/client-example
 *     target/client-example
 *
 * It prints what examples/client.out has.
 */
#include "yittomere.h"

#include <inttypes.h>
#include <stdio.h>
#include <stdlib.h>

/* Bits of a reach: which servers the agent can reach at this moment. */
#define SERVER_0 1u
#define SERVER_1 2u

#define SLOT 0u  /* the agent's session */
#define CASE 7u  /* the item that the notes are on */

/* Why a call or a step was refused, in words for the agent. */
static const char *why(uint32_t code) {
    switch (code) {
    case YITTOMERE_UNSOUND:
        return "the table is damaged";
    case YITTOMERE_OUT_OF_RANGE:
        return "a number is out of range";
    case YITTOMERE_WRONG_SLOT:
        return "the slot is already open, or it is closed";
    case YITTOMERE_TO_ITSELF:
        return "a server can't exchange with itself";
    case YITTOMERE_NONE_REACHABLE:
        return "no server is reachable";
    case YITTOMERE_BEHIND:
        return "no reachable server has all that this session has to see";
    case YITTOMERE_FULL:
        return "the servers that would do have no free place";
    case YITTOMERE_WRONG_LENGTH:
        return "a buffer's length doesn't fit";
    default:
        return "done";
    }
}

/* A table in memory of ours. */
struct desk {
    uint32_t *table;
    size_t words;
};

/* Takes a step and says what came of it. */
static uint32_t take(struct desk desk, const char *what, uint32_t kind, uint32_t a, uint32_t b, uint32_t c, uint32_t d) {
    uint32_t answer[YITTOMERE_ANSWER_WORDS];
    uint32_t code = yittomere_step(desk.table, desk.words, kind, a, b, c, d, answer, YITTOMERE_ANSWER_WORDS);
    if (code != YITTOMERE_DONE) {
        printf("%s: refused (%" PRIu32 "), %s\n", what, code, why(code));
        return code;
    }
    uint32_t server = answer[YITTOMERE_ANSWER_SERVER], origin = answer[YITTOMERE_ANSWER_ORIGIN];
    uint32_t clock = answer[YITTOMERE_ANSWER_CLOCK], value = answer[YITTOMERE_ANSWER_VALUE];
    switch (kind) {
    case YITTOMERE_READ:
        if (clock == 0) {
            printf("%s: no note yet, says server %" PRIu32 "\n", what, server);
        } else {
            printf("%s: note %" PRIu32 ", says server %" PRIu32 "; written at server %" PRIu32 " with clock %" PRIu32 "\n", what, value,
                   server, origin, clock);
        }
        break;
    case YITTOMERE_WRITE:
        printf("%s: taken by server %" PRIu32 ", clock %" PRIu32 "\n", what, server, clock);
        break;
    case YITTOMERE_EXCHANGE:
        printf("%s: %" PRIu32 " went over\n", what, value);
        break;
    default:
        printf("%s: done\n", what);
    }
    return code;
}

int main(void) {
    const uint32_t servers = 2, places = 2, slots = 1;
    struct desk desk = {NULL, YITTOMERE_TABLE_WORDS(servers, places, slots)};
    desk.table = malloc(desk.words * sizeof *desk.table);
    if (desk.table == NULL) {
        perror("client");
        return EXIT_FAILURE;
    }
    uint32_t code = yittomere_make(desk.table, desk.words, servers, places, slots);
    if (code != YITTOMERE_DONE) {
        fprintf(stderr, "client: no table: %s\n", why(code));
        free(desk.table);
        return EXIT_FAILURE;
    }
    take(desk, "open a session", YITTOMERE_OPEN, SLOT, YITTOMERE_READ_YOUR_WRITES | YITTOMERE_MONOTONIC_READS, 0, 0);
    take(desk, "read at server 0 or 1", YITTOMERE_READ, SLOT, CASE, SERVER_0 | SERVER_1, 0);
    take(desk, "write 50 at server 0", YITTOMERE_WRITE, SLOT, CASE, 50, SERVER_0);
    if (take(desk, "read at server 1", YITTOMERE_READ, SLOT, CASE, SERVER_1, 0) == YITTOMERE_BEHIND) {
        take(desk, "exchange from server 0 to server 1", YITTOMERE_EXCHANGE, 0, 1, 100, 0);
        take(desk, "read at server 1", YITTOMERE_READ, SLOT, CASE, SERVER_1, 0);
    }
    take(desk, "write 60 at server 1", YITTOMERE_WRITE, SLOT, CASE, 60, SERVER_1);
    take(desk, "write 70 at server 1", YITTOMERE_WRITE, SLOT, CASE, 70, SERVER_1);
    take(desk, "read with nothing in reach", YITTOMERE_READ, SLOT, CASE, 0, 0);
    take(desk, "close the session", YITTOMERE_CLOSE, SLOT, 0, 0, 0);
    take(desk, "read after closing", YITTOMERE_READ, SLOT, CASE, SERVER_0 | SERVER_1, 0);
    free(desk.table);
    return EXIT_SUCCESS;
}
