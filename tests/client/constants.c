/*
 * Every constant of yittomere.h is what the library goes by: what a name stands for is brought about, and the library has to answer
 * with that number, or to take it and no greater one. (tests/client/run looks that each name of the header is in this file.)
 */
#include "check.h"
#include "yittomere.h"

#include <string.h>

#define NONE 0u
#define FIRST 1u  /* reach: server 0 alone */
#define SECOND 2u /* reach: server 1 alone */
#define BOTH 3u

static uint32_t table[YITTOMERE_MOST_TABLE_WORDS];
static size_t words;
static uint32_t answer[YITTOMERE_ANSWER_WORDS];

/* A fresh table to take steps on. */
static void begin(uint32_t servers, uint32_t places, uint32_t slots) {
    words = YITTOMERE_TABLE_WORDS(servers, places, slots);
    CHECK(yittomere_make(table, words, servers, places, slots) == YITTOMERE_DONE, words);
}

static uint32_t step(uint32_t kind, uint32_t a, uint32_t b, uint32_t c, uint32_t d) {
    return yittomere_step(table, words, kind, a, b, c, d, answer, YITTOMERE_ANSWER_WORDS);
}

static uint32_t make(uint32_t servers, uint32_t places, uint32_t slots, size_t length) {
    return yittomere_make(table, length, servers, places, slots);
}

/* Each size is taken up to its limit, and no further. */
static void limits(void) {
    CHECK(make(YITTOMERE_MOST_SERVERS, YITTOMERE_MOST_PLACES, YITTOMERE_MOST_SLOTS, YITTOMERE_MOST_TABLE_WORDS) == YITTOMERE_DONE, 0);
    CHECK(make(YITTOMERE_MOST_SERVERS + 1, 1, 1, YITTOMERE_TABLE_WORDS(YITTOMERE_MOST_SERVERS + 1, 1, 1)) == YITTOMERE_OUT_OF_RANGE, 0);
    CHECK(make(1, YITTOMERE_MOST_PLACES + 1, 1, YITTOMERE_TABLE_WORDS(1, YITTOMERE_MOST_PLACES + 1, 1)) == YITTOMERE_OUT_OF_RANGE, 0);
    CHECK(make(1, 1, YITTOMERE_MOST_SLOTS + 1, YITTOMERE_TABLE_WORDS(1, 1, YITTOMERE_MOST_SLOTS + 1)) == YITTOMERE_OUT_OF_RANGE, 0);
    CHECK(make(0, 1, 1, YITTOMERE_TABLE_WORDS(0, 1, 1)) == YITTOMERE_OUT_OF_RANGE, 0);
    CHECK(make(1, 0, 1, YITTOMERE_TABLE_WORDS(1, 0, 1)) == YITTOMERE_OUT_OF_RANGE, 0);
    CHECK(make(1, 1, 0, YITTOMERE_TABLE_WORDS(1, 1, 0)) == YITTOMERE_OUT_OF_RANGE, 0);
}

/* The length of a table is what the header says, for all servers and slots, and for places small, middling and most. */
static void lengths(void) {
    static const uint32_t places[] = {1, 2, 3, 4, 5, 7, 8, 16, 100, 127, 128, 129, 1000, 1023, YITTOMERE_MOST_PLACES};
    for (uint32_t n = 1; n <= YITTOMERE_MOST_SERVERS; n++) {
        for (uint32_t p = 1; p <= YITTOMERE_MOST_SLOTS; p++) {
            for (size_t i = 0; i < sizeof places / sizeof places[0]; i++) {
                size_t fitting = YITTOMERE_TABLE_WORDS(n, places[i], p);
                CHECK(make(n, places[i], p, fitting) == YITTOMERE_DONE, fitting);
                CHECK(make(n, places[i], p, fitting - 1) == YITTOMERE_WRONG_LENGTH, fitting);
                if (fitting < YITTOMERE_MOST_TABLE_WORDS) {
                    CHECK(make(n, places[i], p, fitting + 1) == YITTOMERE_WRONG_LENGTH, fitting);
                }
            }
        }
    }
}

/* A step's kinds, slots, servers and items, each up to its limit and no further. */
static void ranges(void) {
    begin(YITTOMERE_MOST_SERVERS, 1, YITTOMERE_MOST_SLOTS);
    CHECK(step(YITTOMERE_OPEN, YITTOMERE_MOST_SLOTS - 1, YITTOMERE_GREATEST_GUARANTEES, 0, 0) == YITTOMERE_DONE, 0);
    CHECK(step(YITTOMERE_OPEN, 0, YITTOMERE_GREATEST_GUARANTEES + 1, 0, 0) == YITTOMERE_OUT_OF_RANGE, 0);
    CHECK(step(YITTOMERE_OPEN, YITTOMERE_MOST_SLOTS, 0, 0, 0) == YITTOMERE_OUT_OF_RANGE, 0);
    CHECK(step(YITTOMERE_READ, YITTOMERE_MOST_SLOTS - 1, YITTOMERE_GREATEST_ITEM, FIRST, 0) == YITTOMERE_DONE, 0);
    CHECK(step(YITTOMERE_READ, YITTOMERE_MOST_SLOTS - 1, YITTOMERE_GREATEST_ITEM + 1, FIRST, 0) == YITTOMERE_OUT_OF_RANGE, 0);
    CHECK(step(YITTOMERE_WRITE, YITTOMERE_MOST_SLOTS - 1, YITTOMERE_GREATEST_ITEM + 1, 9, FIRST) == YITTOMERE_OUT_OF_RANGE, 0);
    CHECK(step(YITTOMERE_WRITE, YITTOMERE_MOST_SLOTS - 1, YITTOMERE_GREATEST_ITEM, 9, FIRST) == YITTOMERE_DONE, 0);
    CHECK(step(YITTOMERE_EXCHANGE, 0, YITTOMERE_MOST_SERVERS - 1, 1, 0) == YITTOMERE_DONE, 0);
    CHECK(step(YITTOMERE_EXCHANGE, 0, YITTOMERE_MOST_SERVERS, 1, 0) == YITTOMERE_OUT_OF_RANGE, 0);
    CHECK(step(YITTOMERE_OPEN - 1, 0, 0, 0, 0) == YITTOMERE_OUT_OF_RANGE, 0);
    CHECK(step(YITTOMERE_EXCHANGE + 1, 0, 0, 0, 0) == YITTOMERE_OUT_OF_RANGE, 0);
}

/* Each kind does what its name says, and the answer's words stand where the names say. */
static void kinds_and_answers(void) {
    begin(3, 4, 1);
    CHECK(step(YITTOMERE_CLOSE, 0, 0, 0, 0) == YITTOMERE_WRONG_SLOT, 0);
    CHECK(step(YITTOMERE_OPEN, 0, 0, 0, 0) == YITTOMERE_DONE, 0);
    CHECK(step(YITTOMERE_WRITE, 0, 7, 70, SECOND) == YITTOMERE_DONE, 0);
    CHECK(step(YITTOMERE_WRITE, 0, 7, 71, SECOND) == YITTOMERE_DONE, 0);
    CHECK(step(YITTOMERE_WRITE, 0, 7, 72, SECOND) == YITTOMERE_DONE, 0);
    CHECK(answer[YITTOMERE_ANSWER_CODE] == YITTOMERE_DONE, 0);
    CHECK(answer[YITTOMERE_ANSWER_SERVER] == 1 && answer[YITTOMERE_ANSWER_ORIGIN] == 1, 0);
    CHECK(answer[YITTOMERE_ANSWER_CLOCK] == 3 && answer[YITTOMERE_ANSWER_VALUE] == 72, 0);
    CHECK(step(YITTOMERE_EXCHANGE, 1, 2, 9, 0) == YITTOMERE_DONE, 0);
    CHECK(answer[YITTOMERE_ANSWER_SERVER] == 2 && answer[YITTOMERE_ANSWER_ORIGIN] == 1, 0);
    CHECK(answer[YITTOMERE_ANSWER_CLOCK] == 0 && answer[YITTOMERE_ANSWER_VALUE] == 3, 0);
    CHECK(step(YITTOMERE_READ, 0, 7, 4, 0) == YITTOMERE_DONE, 0);
    CHECK(answer[YITTOMERE_ANSWER_SERVER] == 2 && answer[YITTOMERE_ANSWER_ORIGIN] == 1, 0);
    CHECK(answer[YITTOMERE_ANSWER_CLOCK] == 3 && answer[YITTOMERE_ANSWER_VALUE] == 72, 0);
    CHECK(step(YITTOMERE_CLOSE, 0, 0, 0, 0) == YITTOMERE_DONE, 0);
    CHECK(step(YITTOMERE_READ, 0, 7, 4, 0) == YITTOMERE_WRONG_SLOT, 0);
    CHECK(answer[YITTOMERE_ANSWER_CODE] == YITTOMERE_WRONG_SLOT, 0);
}

/* What a code's name says is brought about. */
static void codes(void) {
    begin(2, 1, 1);
    CHECK(step(YITTOMERE_OPEN, 0, YITTOMERE_READ_YOUR_WRITES, 0, 0) == YITTOMERE_DONE, 0);
    CHECK(step(YITTOMERE_OPEN, 0, 0, 0, 0) == YITTOMERE_WRONG_SLOT, 0);
    CHECK(step(YITTOMERE_EXCHANGE, 1, 1, 9, 0) == YITTOMERE_TO_ITSELF, 0);
    CHECK(step(YITTOMERE_READ, 0, 7, NONE, 0) == YITTOMERE_NONE_REACHABLE, 0);
    CHECK(step(YITTOMERE_WRITE, 0, 7, 50, FIRST) == YITTOMERE_DONE, 0);
    CHECK(step(YITTOMERE_READ, 0, 7, SECOND, 0) == YITTOMERE_BEHIND, 0);
    CHECK(step(YITTOMERE_WRITE, 0, 7, 60, FIRST) == YITTOMERE_FULL, 0);
    CHECK(step(YITTOMERE_READ, 0, 7, BOTH + 1, 0) == YITTOMERE_OUT_OF_RANGE, 0);
    CHECK(yittomere_step(table, words, YITTOMERE_CLOSE, 0, 0, 0, 0, answer, 4) == YITTOMERE_WRONG_LENGTH, 0);
    table[3] = 1;
    CHECK(step(YITTOMERE_CLOSE, 0, 0, 0, 0) == YITTOMERE_UNSOUND, 0);
}

/* A step is STEP_WORDS of a list, an answer ANSWER_WORDS of a buffer. */
static void fives(void) {
    uint32_t steps[2 * YITTOMERE_STEP_WORDS] = {YITTOMERE_OPEN, 0, 0, 0, 0, YITTOMERE_CLOSE, 0, 0, 0, 0};
    uint32_t answers[2 * YITTOMERE_ANSWER_WORDS];
    uint32_t longer[3 * YITTOMERE_ANSWER_WORDS];
    begin(1, 1, 1);
    memset(answers, 9, sizeof answers);
    CHECK(yittomere_run(table, words, steps, 2 * YITTOMERE_STEP_WORDS, answers, 2 * YITTOMERE_ANSWER_WORDS) == YITTOMERE_DONE, 0);
    CHECK(answers[0] == YITTOMERE_DONE && answers[YITTOMERE_ANSWER_WORDS] == YITTOMERE_DONE, 0);
    for (size_t length = 0; length < 2 * YITTOMERE_STEP_WORDS; length++) {
        uint32_t code = length % YITTOMERE_STEP_WORDS == 0 ? YITTOMERE_DONE : YITTOMERE_WRONG_LENGTH;
        CHECK(yittomere_run(table, words, steps, length, answers, length) == code, length);
    }
    for (size_t length = 0; length <= 3 * YITTOMERE_ANSWER_WORDS; length++) {
        uint32_t code = length == YITTOMERE_ANSWER_WORDS ? YITTOMERE_OUT_OF_RANGE : YITTOMERE_WRONG_LENGTH;
        CHECK(yittomere_step(table, words, 0, 0, 0, 0, 0, longer, length) == code, length);
    }
}

/*
 * Each guarantee by what it alone asks for: slot 0 has the guarantees that are tried, slot 1 none. A read or write by slot 0 at server 0
 * goes before a read or write by slot 0 at server 1, which has nothing of what server 0 holds.
 */
static void guarantee(uint32_t chosen, uint32_t before, uint32_t then, uint32_t asks) {
    begin(2, 4, 2);
    CHECK(step(YITTOMERE_OPEN, 0, chosen, 0, 0) == YITTOMERE_DONE, chosen);
    CHECK(step(YITTOMERE_OPEN, 1, 0, 0, 0) == YITTOMERE_DONE, chosen);
    CHECK(step(YITTOMERE_WRITE, 1, 7, 50, FIRST) == YITTOMERE_DONE, chosen);
    if (before == YITTOMERE_READ) {
        CHECK(step(YITTOMERE_READ, 0, 7, FIRST, 0) == YITTOMERE_DONE, chosen);
    } else {
        CHECK(step(YITTOMERE_WRITE, 0, 7, 60, FIRST) == YITTOMERE_DONE, chosen);
    }
    uint32_t code = then == YITTOMERE_READ ? step(YITTOMERE_READ, 0, 7, SECOND, 0) : step(YITTOMERE_WRITE, 0, 7, 70, SECOND);
    CHECK(code == ((chosen & asks) != 0 ? YITTOMERE_BEHIND : YITTOMERE_DONE), chosen);
}

static void guarantees(void) {
    CHECK(YITTOMERE_GREATEST_GUARANTEES ==
              (YITTOMERE_READ_YOUR_WRITES | YITTOMERE_MONOTONIC_READS | YITTOMERE_WRITES_FOLLOW_READS | YITTOMERE_MONOTONIC_WRITES),
          0);
    for (uint32_t chosen = 0; chosen <= YITTOMERE_GREATEST_GUARANTEES; chosen++) {
        guarantee(chosen, YITTOMERE_WRITE, YITTOMERE_READ, YITTOMERE_READ_YOUR_WRITES);
        guarantee(chosen, YITTOMERE_READ, YITTOMERE_READ, YITTOMERE_MONOTONIC_READS);
        guarantee(chosen, YITTOMERE_READ, YITTOMERE_WRITE, YITTOMERE_WRITES_FOLLOW_READS);
        guarantee(chosen, YITTOMERE_WRITE, YITTOMERE_WRITE, YITTOMERE_MONOTONIC_WRITES);
    }
}

int main(void) {
    limits();
    lengths();
    ranges();
    kinds_and_answers();
    codes();
    fives();
    guarantees();
    return closing();
}
