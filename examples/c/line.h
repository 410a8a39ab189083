/* A line: a named pipe that carries pieces of one size, at most PIPE_BUF bytes. A pipe takes and
 * gives so short a piece as a whole, so a process that is killed leaves no half of one. */
#ifndef LINE_H
#define LINE_H

#include <stdbool.h>
#include <stddef.h>
#include <stdint.h>

/* The line NAME-NUMBER of a folder, made where it is not there. Ends the program on error. */
int line_open(const char *folder, const char *name, uint32_t number);

/* Neither ever waits: an office that waited for its neighbour could not answer its clerk, and two
 * that waited for each other would never go on. False where the line is full, or has no whole
 * piece; less than one is taken away, so that the next piece begins where it should. */
bool line_put(int line, const void *piece, size_t bytes);
bool line_take(int line, void *piece, size_t bytes);

#endif
