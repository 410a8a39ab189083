/* An office as the words of its file. */
#ifndef IMAGE_H
#define IMAGE_H

#include "state.h"

enum {
    IMAGE_HEAD = 9,
    IMAGE_CHECK = 2,
    IMAGE_WORDS = IMAGE_HEAD + BURIAL_STORE_WORDS + BURIAL_TOKEN_WORDS + WAITING_WORDS
        + IMAGE_CHECK,
};

/* Writes the words of an office; how many. */
size_t image_write(const struct office *office, uint32_t words[IMAGE_WORDS]);

/* Reads an office whose settings are given. Ends the program where the words are not its own. */
void image_read(struct office *office, const uint32_t *words, size_t bytes);

#endif
