/* Delivery: frames come from the office before and go to the next one, each once and in order,
 * whatever is killed.
 *
 * A frame crosses with its number. Only the next number is heard; then the office acknowledges how
 * many frames it has heard and kept. It does so too at its start, and whatever else comes, so an
 * acknowledgement that got lost mends itself. What is not acknowledged for a while is sent again.
 */
#ifndef DELIVERY_H
#define DELIVERY_H

#include "state.h"

#include <poll.h>

enum { DELIVERY_FILES = 3 };

struct delivery {
    int in, in_back;   /* frames from the office before, and acknowledgements to it */
    int out, out_back; /* frames to the next office, and acknowledgements from it */
    bool owes_answer;  /* an acknowledgement is due */
    int64_t since;     /* when the next office acknowledged last, or could first have */
    /* Trouble that was said already, so that it is not said again for each repeat. */
    bool said_refused, said_not_kept, said_unwritten;
    uint32_t refused;  /* the number of the frame that was refused */
};

void delivery_open(struct delivery *delivery, const struct office *office, const char *folder);

/* What to wait for, and how many milliseconds at most (-1: for ever). */
int delivery_watch(const struct delivery *delivery, const struct office *office,
                   struct pollfd files[DELIVERY_FILES]);

/* Does what can be done now. */
void delivery_serve(struct delivery *delivery, struct office *office,
                    const struct pollfd files[DELIVERY_FILES]);

#endif
