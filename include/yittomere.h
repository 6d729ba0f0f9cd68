/*
 * Yittomere picks the server for each read and write of a helpdesk session, or says plainly that none will do.
 *
 * A table of 32-bit words, in memory of yours, holds some servers that copy case notes from each other now and then, each
 * with a log of notes, and some slots for the sessions of agents. Three calls work on it:
 *
 *     yittomere_make    makes a fresh table
 *     yittomere_step    takes one step: open or close a session, read, write, or exchange between two servers
 *     yittomere_run     takes a list of steps
 *
 * The words are all there is. The library allocates nothing, keeps no pointer and has no state of its own: a table may be
 * copied, stored and loaded as its words, and threads may work on different tables at once. A call uses about 17 kB of stack,
 * and what the C library's memcpy and memset want. Each step checks the whole table first, so its time grows with the table's
 * words and with the number of servers.
 *
 * This holds of all three calls:
 *
 *  - They take any numbers and any words, check everything themselves, and return. A damaged table is refused; no check is left
 *    to you.
 *  - They return a code: YITTOMERE_DONE, or one that says why not. A call that returns any other code than YITTOMERE_DONE leaves
 *    every word of the table as it was, and so does a step of a run that is refused. Of several faults the smallest code is
 *    given, except that yittomere_step and yittomere_run look at the lengths of the buffers for answers first.
 *  - A buffer is a pointer and its length: how many words of 32 bits there are, not bytes. They must be memory of yours; the
 *    library can't see how much there really is.
 *  - With length 0 the pointer may be null, or any other. This is an empty buffer, whose length is judged like any other length:
 *    it is no table, but it can be a list of no steps. A null pointer with another length is not memory of yours.
 *  - The buffers of one call must not overlap: no word may belong to two of them. Of a call whose buffers overlap nothing is
 *    promised, since what the calls do is proved of separate buffers. They may touch, as parts of one array. An empty buffer
 *    overlaps none.
 *
 * Build with:  tools/library.sh
 * Link with:   cc -I include client.c target/staticlib/libyittomere.a     (Linux on x86-64)
 */
#ifndef YITTOMERE_H
#define YITTOMERE_H

#include <stddef.h>
#include <stdint.h>

#ifdef __cplusplus
extern "C" {
#endif

/* Codes: what a call returns, and the first word of each answer. */

#define YITTOMERE_DONE 0u            /* done */
#define YITTOMERE_UNSOUND 1u         /* the words are no table, or a damaged one */
#define YITTOMERE_OUT_OF_RANGE 2u    /* kind, slot, server, item, guarantees, reach or unused word out of range; when making, a size */
#define YITTOMERE_WRONG_SLOT 3u      /* open of an open slot; close, read or write on a closed one */
#define YITTOMERE_TO_ITSELF 4u       /* exchange from a server to itself */
#define YITTOMERE_NONE_REACHABLE 5u  /* reach is 0 */
#define YITTOMERE_BEHIND 6u          /* no reachable server is up to date for this session */
#define YITTOMERE_FULL 7u            /* some reachable server is up to date, but none such has a free place */
#define YITTOMERE_WRONG_LENGTH 8u    /* a buffer's length doesn't fit */

/* Limits: a table has 1 to so many servers, places in each server's log, and slots; the others count from 0. */

#define YITTOMERE_MOST_SERVERS 16u
#define YITTOMERE_MOST_PLACES 1024u
#define YITTOMERE_MOST_SLOTS 16u
#define YITTOMERE_GREATEST_ITEM 255u
#define YITTOMERE_GREATEST_GUARANTEES 15u

/* The words of a table of these sizes; a number that means nothing if one of them is out of its limits. */
#define YITTOMERE_TABLE_WORDS(servers, places, slots)                                                                       \
    ((size_t)4 + (size_t)(servers) * ((size_t)(servers) + 1) + (size_t)4 * (size_t)(servers) * (size_t)(places) +           \
     (size_t)(slots) * ((size_t)2 * (size_t)(servers) + 2))

/* The words of the largest table: 66,356. */
#define YITTOMERE_MOST_TABLE_WORDS YITTOMERE_TABLE_WORDS(YITTOMERE_MOST_SERVERS, YITTOMERE_MOST_PLACES, YITTOMERE_MOST_SLOTS)

/* Kinds of steps. */

#define YITTOMERE_OPEN 1u
#define YITTOMERE_CLOSE 2u
#define YITTOMERE_READ 3u
#define YITTOMERE_WRITE 4u
#define YITTOMERE_EXCHANGE 5u

/* Guarantees: a session chooses any sum of them, or 0 for none. */

#define YITTOMERE_READ_YOUR_WRITES 1u
#define YITTOMERE_MONOTONIC_READS 2u
#define YITTOMERE_WRITES_FOLLOW_READS 4u
#define YITTOMERE_MONOTONIC_WRITES 8u

/* A step is five words in a list: its kind and four arguments. An answer is five words too, in this order. */

#define YITTOMERE_STEP_WORDS 5u
#define YITTOMERE_ANSWER_WORDS 5u
#define YITTOMERE_ANSWER_CODE 0u
#define YITTOMERE_ANSWER_SERVER 1u
#define YITTOMERE_ANSWER_ORIGIN 2u
#define YITTOMERE_ANSWER_CLOCK 3u
#define YITTOMERE_ANSWER_VALUE 4u

/*
 * Makes a fresh table in `table`: no writes, all slots closed. `table_words` must be exactly
 * YITTOMERE_TABLE_WORDS(servers, places, slots).
 *
 *     servers    1 to YITTOMERE_MOST_SERVERS; they are then called 0, 1, ..
 *     places     1 to YITTOMERE_MOST_PLACES: how many writes each server's log can hold
 *     slots      1 to YITTOMERE_MOST_SLOTS: how many sessions can be open at a time; they are then called 0, 1, ..
 *
 * Returns YITTOMERE_DONE; or YITTOMERE_OUT_OF_RANGE if a size is out of its limits, or else YITTOMERE_WRONG_LENGTH, and then
 * no word of `table` is altered. What `table` held before does not matter.
 */
uint32_t yittomere_make(uint32_t *table, size_t table_words, uint32_t servers, uint32_t places, uint32_t slots);

/*
 * Takes one step on a table, and puts its answer into `answer`, whose length `answer_words` must be YITTOMERE_ANSWER_WORDS.
 * `kind` says what is asked, `a` to `d` are its arguments; those not used must be 0.
 *
 *     kind                  a       b             c        d
 *     YITTOMERE_OPEN        slot    guarantees    0        0        opens a closed slot for a new session
 *     YITTOMERE_CLOSE       slot    0             0        0        ends the session of a slot
 *     YITTOMERE_READ        slot    item          reach    0        finds the last write on an item, at a server that is up to date
 *     YITTOMERE_WRITE       slot    item          value    reach    writes any value on an item, at a server that is up to date
 *     YITTOMERE_EXCHANGE    from    to            most     0        copies at most so many writes from one server to another
 *
 * Items are 0 to YITTOMERE_GREATEST_ITEM. `reach` says which servers can be reached at this moment: add 1 for server 0, 2 for
 * server 1, 4 for server 2, and so on; a bit for a server that there isn't is out of range.
 *
 * A server is up to date for a session if it has all that the chosen guarantees ask for: for a read, the session's own writes
 * (YITTOMERE_READ_YOUR_WRITES) and all that was there at its reads (YITTOMERE_MONOTONIC_READS); for a write, all that was there
 * at its reads (YITTOMERE_WRITES_FOLLOW_READS) and its own writes (YITTOMERE_MONOTONIC_WRITES). The search begins at the server
 * that the session used last, or 0, goes up by one, and from the last server to 0; the first reachable one that will do is
 * taken. For a write it must have a free place.
 *
 * The answer of a step that is done is YITTOMERE_DONE and
 *
 *                           server        origin        clock        value
 *     open, close           0             0             0            0
 *     read                  the server    origin        clock        value of the write found; zeros if there is none
 *     write                 the server    the server    new clock    the value
 *     exchange              to            from          0            how many writes went over
 *
 * A write is known by its origin, the server that took it from a session, and its clock there, which is never 0.
 * The answer of a refused step is its code and four zeros, and the table keeps every word.
 *
 * Returns the step's code, the same as answer[YITTOMERE_ANSWER_CODE]: YITTOMERE_DONE, or the smallest that holds of
 * YITTOMERE_UNSOUND to YITTOMERE_FULL. With a wrong `answer_words` it returns YITTOMERE_WRONG_LENGTH, before anything else is
 * looked at: no step is taken, and no word of `table` or `answer` is altered. No step has that code, so the two can't be taken
 * for each other.
 */
uint32_t yittomere_step(uint32_t *table, size_t table_words, uint32_t kind, uint32_t a, uint32_t b, uint32_t c, uint32_t d,
                        uint32_t *answer, size_t answer_words);

/*
 * Takes a list of steps one after another, and puts their answers into `answers` in the same order. `steps` has five words for
 * each step: kind, a, b, c, d, as for yittomere_step; `answers` has as many words as `steps`. A step that is refused doesn't
 * stop the run. The table and the answers are the same as if yittomere_step were called for one step after another.
 *
 * Returns YITTOMERE_DONE, also if steps were refused: each answer has its own code, and over a damaged table all of them are
 * YITTOMERE_UNSOUND. An empty list with empty answers is done too. If the two lengths differ, or are no multiple of five, it
 * returns YITTOMERE_WRONG_LENGTH: no step is taken, and no word of `table` or `answers` is altered.
 */
uint32_t yittomere_run(uint32_t *table, size_t table_words, const uint32_t *steps, size_t steps_words, uint32_t *answers,
                       size_t answers_words);

#ifdef __cplusplus
}
#endif

#endif
