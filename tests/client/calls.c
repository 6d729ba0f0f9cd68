/*
 * The three calls from C, on buffers between fences: answers that the scope paper gives, refusals that alter nothing, and buffers of every
 * kind that C allows: null, empty, too short, too long, touching, read-only. What the calls answer on many good and damaged tables is
 * compared by tests/outside, through bridge.c.
 */
#include "check.h"
#include "fenced.h"
#include "yittomere.h"

#include <string.h>

#define ROOM YITTOMERE_MOST_TABLE_WORDS

static struct fenced tables;
static struct fenced lists;
static struct fenced buffers;

static const enum stand stands[] = {AT_UPPER_FENCE, AT_LOWER_FENCE};

/* The ten rows of the paper, and their answers. A constant list: a call that wrote to it would end the program. */
static const uint32_t rows[] = {
    1, 0, 1, 0, 0, 4, 0, 7, 50, 1, 3, 0, 7, 2, 0, 5, 0, 1, 9, 0, 3, 0, 7, 2, 0,
    4, 0, 7, 60, 2, 4, 0, 7, 70, 1, 3, 0, 7, 1, 0, 5, 1, 0, 9, 0, 3, 0, 7, 3, 0,
};
static const uint32_t row_answers[] = {
    0, 0, 0, 0, 0, 0, 0, 0, 1, 50, 6, 0, 0, 0, 0, 0, 1, 0, 0, 1, 0, 1, 0, 1, 50,
    0, 1, 1, 2, 60, 0, 0, 0, 2, 70, 6, 0, 0, 0, 0, 0, 0, 1, 0, 1, 0, 0, 1, 2, 60,
};
#define ROWS 10u
#define ROW_WORDS (ROWS * YITTOMERE_STEP_WORDS)

/* The table that the rows leave. */
static const uint32_t after_rows[] = {
    2, 4, 1, 0, 2, 2, 3, 1, 2, 2, 0, 1, 7, 50, 0, 2, 7, 70, 1, 2, 7, 60, 0, 0,
    0, 0, 0, 1, 7, 50, 1, 2, 7, 60, 0, 0, 0, 0, 0, 0, 0, 0, 2, 1, 2, 2, 2, 2,
};
#define TABLE_WORDS YITTOMERE_TABLE_WORDS(2, 4, 1)

static bool same(const uint32_t *left, const uint32_t *right, size_t words) {
    return words == 0 || memcmp(left, right, words * sizeof(uint32_t)) == 0;
}

static bool whole(void) { return fenced_whole(&tables) && fenced_whole(&lists) && fenced_whole(&buffers); }

/* So many words, each of which holds something. */
static void fill(uint32_t *words, size_t count, uint32_t seed) {
    for (size_t i = 0; i < count; i++) {
        seed = seed * 1664525u + 1013904223u;
        words[i] = seed >> (seed >> 28);
    }
}

/* A lent table that holds these words. */
static uint32_t *table_of(const uint32_t *words, size_t count, enum stand stand) {
    uint32_t *table = fenced_lend(&tables, stand, count);
    memcpy(table, words, count * sizeof(uint32_t));
    return table;
}

/* The rows one by one and as a run, at both fences: the paper's answers, and the same table. */
static void ten_rows(void) {
    for (size_t i = 0; i < 2; i++) {
        uint32_t *table = fenced_lend(&tables, stands[i], TABLE_WORDS);
        uint32_t *answer = fenced_lend(&buffers, stands[i], YITTOMERE_ANSWER_WORDS);
        fill(table, TABLE_WORDS, 1);
        CHECK(yittomere_make(table, TABLE_WORDS, 2, 4, 1) == YITTOMERE_DONE, i);
        for (size_t row = 0; row < ROWS; row++) {
            const uint32_t *s = rows + row * YITTOMERE_STEP_WORDS;
            const uint32_t *wanted = row_answers + row * YITTOMERE_ANSWER_WORDS;
            fill(answer, YITTOMERE_ANSWER_WORDS, 2);
            CHECK(yittomere_step(table, TABLE_WORDS, s[0], s[1], s[2], s[3], s[4], answer, YITTOMERE_ANSWER_WORDS) == wanted[0], row);
            CHECK(same(answer, wanted, YITTOMERE_ANSWER_WORDS), row);
        }
        CHECK(same(table, after_rows, TABLE_WORDS), i);
        CHECK(whole(), i);
        uint32_t *answers = fenced_lend(&buffers, stands[i], ROW_WORDS);
        CHECK(yittomere_make(table, TABLE_WORDS, 2, 4, 1) == YITTOMERE_DONE, i);
        CHECK(yittomere_run(table, TABLE_WORDS, rows, ROW_WORDS, answers, ROW_WORDS) == YITTOMERE_DONE, i);
        CHECK(same(answers, row_answers, ROW_WORDS) && same(table, after_rows, TABLE_WORDS), i);
        CHECK(whole(), i);
    }
}

/* A step that must be refused with this code, and leave every word of the table. */
static void refused(const uint32_t *words, size_t count, const uint32_t *s, uint32_t code, unsigned long number) {
    static const uint32_t zeros[YITTOMERE_ANSWER_WORDS];
    for (size_t i = 0; i < 2; i++) {
        uint32_t *table = table_of(words, count, stands[i]);
        uint32_t *answer = fenced_lend(&buffers, stands[i], YITTOMERE_ANSWER_WORDS);
        fill(answer, YITTOMERE_ANSWER_WORDS, 3);
        CHECK(yittomere_step(table, count, s[0], s[1], s[2], s[3], s[4], answer, YITTOMERE_ANSWER_WORDS) == code, number);
        CHECK(answer[0] == code && same(answer + 1, zeros, YITTOMERE_ANSWER_WORDS - 1), number);
        CHECK(same(table, words, count), number);
        CHECK(whole(), number);
    }
}

/* Steps that a good table refuses. */
static void refusals(void) {
    static const uint32_t cases[][6] = {
        {2, 0, 0, 0, 0, 0},           {2, 6, 0, 0, 0, 0},
        {2, UINT32_MAX, UINT32_MAX, UINT32_MAX, UINT32_MAX, UINT32_MAX},
        {2, 1, 1, 0, 0, 0},           {2, 1, 0, 16, 0, 0},
        {2, 1, 0, 0, 1, 0},           {2, 1, 0, 0, 0, 1},
        {2, 2, 0, 1, 0, 0},           {2, 2, 0, 0, 0, 1},
        {2, 3, 0, 256, 1, 0},         {2, 3, 0, 7, 4, 0},
        {2, 3, 0, 7, UINT32_MAX, 0},  {2, 3, 0, 7, 1, 1},
        {2, 4, 1, 7, 9, 1},           {2, 4, 0, 7, 9, 4},
        {2, 5, 2, 0, 9, 0},           {2, 5, 0, 2, 9, 0},
        {2, 5, 0, 1, 9, 1},           {3, 1, 0, 0, 0, 0},
        {4, 5, 1, 1, 9, 0},           {5, 3, 0, 7, 0, 0},
        {5, 4, 0, 7, 9, 0},           {6, 3, 0, 7, 2, 0},
    };
    for (size_t i = 0; i < sizeof cases / sizeof cases[0]; i++) {
        refused(after_rows, TABLE_WORDS, cases[i] + 1, cases[i][0], i);
    }
}

/* Words that are no table: each word of a sound one damaged, every length up to one more than it has, and words of chance. */
static void damaged_tables(void) {
    static const uint32_t read[] = {3, 0, 7, 3, 0};
    uint32_t words[TABLE_WORDS + 1];
    for (size_t i = 0; i < TABLE_WORDS; i++) {
        memcpy(words, after_rows, sizeof after_rows);
        words[i] = UINT32_MAX;
        /* The value of a write that no other log holds may be any number. */
        if (i != 17) {
            refused(words, TABLE_WORDS, read, YITTOMERE_UNSOUND, i);
        }
    }
    memcpy(words, after_rows, sizeof after_rows);
    words[TABLE_WORDS] = 0;
    for (size_t length = 0; length <= TABLE_WORDS + 1; length++) {
        if (length != TABLE_WORDS) {
            refused(words, length, read, YITTOMERE_UNSOUND, length);
        }
    }
    for (uint32_t seed = 0; seed < 200; seed++) {
        fill(words, TABLE_WORDS, seed);
        refused(words, TABLE_WORDS, read, YITTOMERE_UNSOUND, seed);
    }
}

/* Making refuses sizes and lengths, and then leaves every word. */
static void making(void) {
    static const uint32_t sizes[][4] = {
        {2, 0, 4, 1}, {2, 17, 4, 1}, {2, 2, 0, 1}, {2, 2, 1025, 1}, {2, 2, 4, 0}, {2, 2, 4, 17},
        {2, UINT32_MAX, UINT32_MAX, UINT32_MAX}, {2, 65536, 65536, 65536}, {8, 2, 4, 2}, {8, 1, 4, 1}, {8, 16, 1024, 16},
    };
    for (size_t i = 0; i < sizeof sizes / sizeof sizes[0]; i++) {
        uint32_t *table = table_of(after_rows, TABLE_WORDS, stands[i % 2]);
        CHECK(yittomere_make(table, TABLE_WORDS, sizes[i][1], sizes[i][2], sizes[i][3]) == sizes[i][0], i);
        CHECK(same(table, after_rows, TABLE_WORDS) && whole(), i);
    }
    CHECK(yittomere_make(NULL, 0, 2, 4, 1) == YITTOMERE_WRONG_LENGTH, 0);
    CHECK(yittomere_make(NULL, 0, 0, 4, 1) == YITTOMERE_OUT_OF_RANGE, 0);
}

/* A wrong answer buffer is told before anything else, even over words that are no table; a null pointer is an empty buffer. */
static void answer_lengths(void) {
    for (size_t length = 0; length <= 64; length++) {
        if (length == YITTOMERE_ANSWER_WORDS) {
            continue;
        }
        uint32_t kept[64];
        uint32_t *table = table_of(after_rows, TABLE_WORDS, stands[length % 2]);
        uint32_t *answer = fenced_lend(&buffers, stands[length % 2], length);
        fill(answer, length, 4);
        fill(kept, length, 4);
        CHECK(yittomere_step(table, TABLE_WORDS, 2, 0, 0, 0, 0, answer, length) == YITTOMERE_WRONG_LENGTH, length);
        CHECK(yittomere_step(table, TABLE_WORDS - 1, 9, 9, 9, 9, 9, answer, length) == YITTOMERE_WRONG_LENGTH, length);
        CHECK(yittomere_step(NULL, 0, 2, 0, 0, 0, 0, answer, length) == YITTOMERE_WRONG_LENGTH, length);
        CHECK(same(table, after_rows, TABLE_WORDS) && same(answer, kept, length) && whole(), length);
    }
}

/* Null pointers with length 0, one by one and all together. */
static void null_pointers(void) {
    static const uint32_t unsound[YITTOMERE_ANSWER_WORDS] = {YITTOMERE_UNSOUND};
    uint32_t *table = table_of(after_rows, TABLE_WORDS, AT_UPPER_FENCE);
    uint32_t *answer = fenced_lend(&buffers, AT_UPPER_FENCE, YITTOMERE_ANSWER_WORDS);
    CHECK(yittomere_step(table, TABLE_WORDS, 2, 0, 0, 0, 0, NULL, 0) == YITTOMERE_WRONG_LENGTH, 0);
    CHECK(yittomere_step(NULL, 0, 2, 0, 0, 0, 0, NULL, 0) == YITTOMERE_WRONG_LENGTH, 0);
    CHECK(yittomere_step(NULL, 0, 2, 0, 0, 0, 0, answer, YITTOMERE_ANSWER_WORDS) == YITTOMERE_UNSOUND, 0);
    CHECK(same(answer, unsound, YITTOMERE_ANSWER_WORDS), 0);
    CHECK(yittomere_run(table, TABLE_WORDS, NULL, 0, NULL, 0) == YITTOMERE_DONE, 0);
    CHECK(yittomere_run(NULL, 0, NULL, 0, NULL, 0) == YITTOMERE_DONE, 0);
    CHECK(yittomere_run(table, TABLE_WORDS, NULL, 0, answer, YITTOMERE_ANSWER_WORDS) == YITTOMERE_WRONG_LENGTH, 0);
    CHECK(yittomere_run(table, TABLE_WORDS, rows, YITTOMERE_STEP_WORDS, NULL, 0) == YITTOMERE_WRONG_LENGTH, 0);
    CHECK(same(table, after_rows, TABLE_WORDS) && same(answer, unsound, YITTOMERE_ANSWER_WORDS), 0);
    CHECK(yittomere_run(NULL, 0, rows, YITTOMERE_STEP_WORDS, answer, YITTOMERE_ANSWER_WORDS) == YITTOMERE_DONE, 0);
    CHECK(same(answer, unsound, YITTOMERE_ANSWER_WORDS) && whole(), 0);
}

/* Every pair of lengths of a list and its answers: done exactly if they are the same multiple of five. */
static void run_lengths(void) {
    for (size_t steps = 0; steps <= 21; steps++) {
        for (size_t answers = 0; answers <= 21; answers++) {
            uint32_t kept[21];
            unsigned long number = steps * 100 + answers;
            uint32_t *table = table_of(after_rows, TABLE_WORDS, stands[steps % 2]);
            uint32_t *list = fenced_lend(&lists, stands[answers % 2], steps);
            uint32_t *buffer = fenced_lend(&buffers, stands[answers % 2], answers);
            fill(list, steps, 5);
            fill(buffer, answers, 6);
            fill(kept, answers, 6);
            fenced_protect(&lists, true);
            uint32_t code = yittomere_run(table, TABLE_WORDS, list, steps, buffer, answers);
            fenced_protect(&lists, false);
            if (steps == answers && steps % YITTOMERE_STEP_WORDS == 0) {
                CHECK(code == YITTOMERE_DONE, number);
                CHECK(steps == 0 || buffer[0] == YITTOMERE_OUT_OF_RANGE, number);
            } else {
                CHECK(code == YITTOMERE_WRONG_LENGTH && same(buffer, kept, answers), number);
            }
            CHECK(same(table, after_rows, TABLE_WORDS) && whole(), number);
        }
    }
}

/* Buffers that touch, in all six orders, as parts of one array. */
static void touching(void) {
    static const int orders[][3] = {{0, 1, 2}, {0, 2, 1}, {1, 0, 2}, {1, 2, 0}, {2, 0, 1}, {2, 1, 0}};
    static const size_t lengths[] = {TABLE_WORDS, ROW_WORDS, ROW_WORDS};
    for (size_t i = 0; i < sizeof orders / sizeof orders[0]; i++) {
        uint32_t *part[3];
        uint32_t *next = fenced_lend(&tables, stands[i % 2], TABLE_WORDS + 2 * ROW_WORDS);
        for (size_t j = 0; j < 3; j++) {
            part[orders[i][j]] = next;
            next += lengths[orders[i][j]];
        }
        memcpy(part[1], rows, sizeof rows);
        CHECK(yittomere_make(part[0], TABLE_WORDS, 2, 4, 1) == YITTOMERE_DONE, i);
        CHECK(yittomere_run(part[0], TABLE_WORDS, part[1], ROW_WORDS, part[2], ROW_WORDS) == YITTOMERE_DONE, i);
        CHECK(same(part[0], after_rows, TABLE_WORDS) && same(part[1], rows, ROW_WORDS), i);
        CHECK(same(part[2], row_answers, ROW_WORDS) && whole(), i);
    }
    /* Empty buffers inside of the table overlap nothing. */
    uint32_t *table = table_of(after_rows, TABLE_WORDS, AT_UPPER_FENCE);
    CHECK(yittomere_run(table, TABLE_WORDS, table + 3, 0, table + 5, 0) == YITTOMERE_DONE, 0);
    CHECK(same(table, after_rows, TABLE_WORDS) && whole(), 0);
}

/*
 * Overlapping buffers: nothing is promised of the words in them. As built, the calls return all the same and stay inside: the fences and
 * the marked words would tell.
 */
static void overlapping(void) {
    for (size_t at = 0; at + YITTOMERE_ANSWER_WORDS <= TABLE_WORDS; at++) {
        uint32_t *table = table_of(after_rows, TABLE_WORDS, stands[at % 2]);
        CHECK(yittomere_step(table, TABLE_WORDS, 4, 0, 7, 80, 3, table + at, YITTOMERE_ANSWER_WORDS) == YITTOMERE_DONE, at);
        CHECK(whole(), at);
    }
    for (size_t at = 0; at <= ROW_WORDS; at++) {
        uint32_t *list = fenced_lend(&buffers, stands[at % 2], 2 * ROW_WORDS);
        uint32_t *table = table_of(after_rows, TABLE_WORDS, stands[at % 2]);
        memcpy(list, rows, sizeof rows);
        CHECK(yittomere_run(table, TABLE_WORDS, list, ROW_WORDS, list + at, ROW_WORDS) == YITTOMERE_DONE, at);
        CHECK(whole(), at);
    }
    for (size_t at = 0; at + 40 <= TABLE_WORDS; at++) {
        uint32_t *table = table_of(after_rows, TABLE_WORDS, stands[at % 2]);
        CHECK(yittomere_run(table, TABLE_WORDS, rows, 40, table + at, 40) == YITTOMERE_DONE, at);
        CHECK(yittomere_run(table, TABLE_WORDS, table + at, 40, table, 40) == YITTOMERE_DONE, at);
        CHECK(whole(), at);
    }
}

int main(void) {
    tables = fenced_room(ROOM);
    lists = fenced_room(ROOM);
    buffers = fenced_room(ROOM);
    ten_rows();
    refusals();
    damaged_tables();
    making();
    answer_lengths();
    null_pointers();
    run_lengths();
    touching();
    overlapping();
    return closing();
}
