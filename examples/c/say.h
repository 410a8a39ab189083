/* What an office says: one line to its clerk, or one line about trouble. */
#ifndef SAY_H
#define SAY_H

#include <stdlib.h>

/* To the clerk, at once. */
void reply(const char *format, ...) __attribute__((format(printf, 1, 2)));

/* On standard error; the office goes on. */
void trouble(const char *format, ...) __attribute__((format(printf, 1, 2)));

/* The office cannot go on. What the file has stays. */
#define fail(...) (trouble(__VA_ARGS__), exit(1))

#endif
