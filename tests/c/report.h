/* One named behaviour at a time: how many inputs, and how many of them went wrong. */
#ifndef REPORT_H
#define REPORT_H

#include <stdbool.h>
#include <stdio.h>
#include <stdlib.h>
#include <string.h>

static unsigned inputs, wrong, behaviours, failed;

static void expect(bool holds)
{
    inputs++;
    wrong += !holds;
}

static void end(const char *name)
{
    behaviours++;
    failed += wrong > 0;
    if (wrong == 0)
        printf("ok c: %s (%u)\n", name, inputs);
    else
        printf("FAILED c: %s (%u of %u)\n", name, wrong, inputs);
    inputs = wrong = 0;
}

/* Says how many there were; the status of the program. */
static int finish(const char *program)
{
    printf("c %s: %u behaviours, %u failed\n", program, behaviours, failed);
    return failed ? 1 : 0;
}

/* A copy of exactly this length, so that a memory checker sees a step beyond it. */
static inline void *exact(const void *from, size_t bytes)
{
    void *copy = malloc(bytes ? bytes : 1);
    if (copy == NULL)
        exit(2);
    memcpy(copy, from, bytes);
    return copy;
}

#endif
