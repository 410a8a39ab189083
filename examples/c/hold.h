/* Points at which an office waits to be killed, for tests of what a crash there costs.
 *
 * hearing: a frame is taken from its line and not kept. renaming: a write is in the other file
 * only. sending: a write is kept and not sent. */
#ifndef HOLD_H
#define HOLD_H

/* The point of this process; any other word is none. */
void hold_set(const char *point);

/* Waits for ever, if this is the point. */
void hold_at(const char *here);

#endif
