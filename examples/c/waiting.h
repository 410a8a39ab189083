/* The frames that the next office has not acknowledged, in the order in which they were written.
 *
 * Frames are numbered from 0 on, for ever. A number is sent only once its frame is in the file, so
 * it never means two frames.
 *
 * How many can wait: the ring makes at most 32 entries an office, ever. An entry is framed where
 * it is made, and again at each office that takes it from a session before its frame has come:
 * once at each office. Each of these frames crosses each line once, but for the one that leads to
 * where it began. So at most 32 * offices * (offices - 1) frames cross a line, ever: 1,792 in a
 * ring of eight, and a 32-bit number lasts. Only a neighbour that breaks the rules can fill the
 * row; then what needs more room is not kept, and the office goes on. */
#ifndef WAITING_H
#define WAITING_H

#include "burial_register.h"

#include <stdbool.h>

#define WAITING_FRAMES (BURIAL_MAX_SERIAL * BURIAL_MAX_OFFICES * (BURIAL_MAX_OFFICES - 1u))
#define WAITING_WORDS  (WAITING_FRAMES * BURIAL_FRAME_WORDS)

struct waiting {
    uint32_t offices;
    uint32_t first;              /* the number of the first one */
    uint32_t count;
    size_t words;
    uint32_t sent;               /* so many of them, from the first on, have gone out */
    size_t sent_words;
    uint32_t row[WAITING_WORDS]; /* one right after the other; a frame's head tells its length */
};

/* Adds frames that stand one right after the other; false, and nothing, where there is no room. */
bool waiting_add(struct waiting *waiting, const uint32_t *frames, size_t words);

/* Takes away what was added since there were so many frames, of so many words. */
void waiting_cut(struct waiting *waiting, uint32_t count, size_t words);

/* Drops what the next office has heard: all before this number. False, and nothing, where the
 * number is of frames that were never written. An old number drops nothing. */
bool waiting_drop(struct waiting *waiting, uint32_t heard);

/* The words of the frame that is to go out next, or 0 where all have gone. */
size_t waiting_next(const struct waiting *waiting);

/* That frame has gone out. */
void waiting_went(struct waiting *waiting);

/* All of them are to go out again. */
void waiting_again(struct waiting *waiting);

#endif
