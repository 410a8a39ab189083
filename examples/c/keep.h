/* A step of an office: a call changes memory, then the file. */
#ifndef KEEP_H
#define KEEP_H

#include "state.h"

enum how {
    KEPT,
    NOT_KEPT,
    PERHAPS_KEPT, /* see keep.c */
};

struct outcome {
    enum how how;
    int error;
};

/* From the file, or newly opened where there is none yet. Ends the program where it cannot. */
void keep_start(struct office *office, uint32_t offices, uint32_t own, const char *path);

/* Before a call: remembers the office as it is. */
void keep_before(const struct office *office);

/* After a call: keeps what it changed, and the frames that it wrote. Where that is NOT_KEPT the
 * office in memory is as before the call. */
struct outcome keep_after(struct office *office, const uint32_t *frames, size_t words,
                          bool writing);

/* After a reading: what it changed stays in memory, kept or not. */
struct outcome keep_reading(struct office *office);

/* Once more, where the office is unsure. */
void keep_again(struct office *office);

#endif
