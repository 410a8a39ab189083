/* An office in memory, and how its file stands to it. */
#ifndef STATE_H
#define STATE_H

#include "disk.h"
#include "waiting.h"

enum { PLOTS = 64 };

struct office {
    uint32_t offices, own;

    /* What is kept, all in one step. */
    size_t store_len;
    uint32_t store[BURIAL_STORE_WORDS];
    struct burial_session session; /* the clerk's */
    uint32_t heard;                /* so many frames were heard from the office before, ever */
    struct waiting waiting;

    /* How it is kept. */
    struct disk disk;
    bool owed;           /* memory has something that the file may not have */
    bool unsure;         /* of two files, no one knows which a power cut would leave: see keep.c */
    uint32_t heard_kept; /* what `heard` was when all was surely kept */
};

#endif
