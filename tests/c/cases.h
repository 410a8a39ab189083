/* Frames A and B of document 01, and what a row is filled with before it is lent. */
#ifndef CASES_H
#define CASES_H

#include <stdint.h>

#define FILL 0xA5A5A5A5u

static const uint32_t frame_a[] = {
    0x10011300, 0x30000005, 0x400002C5, 0x50000001, 0x50000000, 0x50000000, 0xF00115CB,
};
static const uint32_t frame_b[] = {
    0x11011301, 0x30000006, 0x40000001, 0x50000001, 0x50000001, 0x50000000, 0x60000001, 0xF101130B,
};
enum { LEN_A = sizeof frame_a / 4, LEN_B = sizeof frame_b / 4 };

#endif
