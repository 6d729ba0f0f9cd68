/*
 * Buffers between two fences: pages that can be neither read nor written. A call that leaves its buffer ends the program at once.
 * Of the two ends of a buffer one stands at a fence, and a few marked words lie beyond the other.
 */
#ifndef FENCED_H
#define FENCED_H

#include <stdbool.h>
#include <stddef.h>
#include <stdint.h>

/* Where a buffer stands: its last word before the upper fence, its first behind the lower one, or nowhere, as a null pointer. */
enum stand { AT_UPPER_FENCE = 0, AT_LOWER_FENCE = 1, NOWHERE = 2 };

struct fenced {
    uint32_t *room;   /* the words between the fences */
    size_t most;      /* how many there are */
    uint32_t *buffer; /* what is lent of them */
    size_t words;
    enum stand stand;
};

/* Room for at least so many words between two fences; ends the program if there is none. */
struct fenced fenced_room(size_t most);

/* Lends so many words of the room, each 0; null if it stands nowhere. Ends the program if there is no room for them. */
uint32_t *fenced_lend(struct fenced *fenced, enum stand stand, size_t words);

/* Makes the room's words read-only, or writable again. */
void fenced_protect(const struct fenced *fenced, bool read_only);

/* Whether the marked words beyond the buffer are as they were; they are marked anew for the next one. */
bool fenced_whole(struct fenced *fenced);

#endif
