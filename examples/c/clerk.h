/* The clerk: orders on standard input, a line each, and one line back for each.
 *
 *   write PLOT VALUE   wrote OFFICE.SERIAL
 *   read PLOT          VALUE by OFFICE.SERIAL, or none; as the clerk's session sees it
 *   present PLOT       the same, as someone sees it who comes in new
 *   new                a new session: for a clerk who comes in new, or whose session is full (7)
 *   heard              how many frames this office has heard and kept, ever
 *   waiting            how many frames wait for the next office's acknowledgement
 *
 * Or: refused N: TEXT. Or: not kept: REASON, and nothing has changed, so the order can be repeated
 * when there is room; with `, or perhaps kept` the clerk has to look first. A reading that cannot
 * be kept is answered, with ` (not kept)` behind it: after a crash the session may see less. */
#ifndef CLERK_H
#define CLERK_H

#include "state.h"

/* Obeys the orders that have come. False at their end. */
bool clerk_serve(struct office *office);

#endif
