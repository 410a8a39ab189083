#include "waiting.h"

#include <string.h>

static size_t length_at(const struct waiting *waiting, size_t at)
{
    return burial_frame_length(waiting->row + at, waiting->words - at, waiting->offices);
}

bool waiting_add(struct waiting *waiting, const uint32_t *frames, size_t words)
{
    if (words > WAITING_WORDS - waiting->words)
        return false;
    size_t at = waiting->words, len;
    memcpy(waiting->row + at, frames, 4 * words);
    waiting->words += words;
    while ((len = length_at(waiting, at)) != 0) {
        waiting->count++;
        at += len;
    }
    return true;
}

void waiting_cut(struct waiting *waiting, uint32_t count, size_t words)
{
    waiting->count = count;
    waiting->words = words;
}

bool waiting_drop(struct waiting *waiting, uint32_t heard)
{
    if (heard <= waiting->first)
        return true;
    uint32_t gone = heard - waiting->first;
    if (gone > waiting->count)
        return false;
    size_t at = 0;
    for (uint32_t i = 0; i < gone; i++)
        at += length_at(waiting, at);
    memmove(waiting->row, waiting->row + at, 4 * (waiting->words - at));
    waiting->first = heard;
    waiting->count -= gone;
    waiting->words -= at;
    /* A frame may be acknowledged that is about to go out again. */
    waiting->sent -= waiting->sent < gone ? waiting->sent : gone;
    waiting->sent_words -= waiting->sent_words < at ? waiting->sent_words : at;
    return true;
}

size_t waiting_next(const struct waiting *waiting)
{
    return length_at(waiting, waiting->sent_words);
}

void waiting_went(struct waiting *waiting)
{
    waiting->sent_words += waiting_next(waiting);
    waiting->sent++;
}

void waiting_again(struct waiting *waiting)
{
    waiting->sent = 0;
    waiting->sent_words = 0;
}
