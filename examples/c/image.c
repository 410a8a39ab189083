#include "image.h"
#include "say.h"

#include <string.h>

/* The file: the head, the store, the session as a token, the frames that wait, and a check over
 * all words before it. Words are in the machine's own order; in another order the magic word is
 * wrong. */
struct head {
    uint32_t magic;
    uint32_t format;
    uint32_t version; /* of the library: another major version has other stores and tokens */
    uint32_t store_words, token_words;
    uint32_t heard;
    uint32_t waiting_first, waiting_count, waiting_words;
};

_Static_assert(sizeof(struct head) == 4 * IMAGE_HEAD, "a head has no gaps");

static const uint32_t magic = 0x59525542; /* BURY */
static const uint32_t format = 1;

/* Each step is one to one, so one changed word, or bit, always shows. */
static uint64_t check_of(const uint32_t *words, size_t count)
{
    uint64_t check = 0xCBF29CE484222325;
    for (size_t i = 0; i < count; i++)
        check = (check ^ words[i]) * 0x100000001B3;
    return check;
}

static size_t append(uint32_t *words, size_t at, const void *more, size_t count)
{
    memcpy(words + at, more, 4 * count);
    return at + count;
}

size_t image_write(const struct office *office, uint32_t words[IMAGE_WORDS])
{
    uint32_t token[BURIAL_TOKEN_WORDS];
    struct burial_written written = burial_write_token(office->session, token, BURIAL_TOKEN_WORDS);
    if (written.refusal != BURIAL_OK)
        fail("the session is no token: %u", written.refusal);
    const struct waiting *waiting = &office->waiting;
    const struct head head = {
        magic, format, BURIAL_VERSION, (uint32_t)office->store_len, (uint32_t)written.words,
        office->heard, waiting->first, waiting->count, (uint32_t)waiting->words,
    };
    size_t at = append(words, 0, &head, IMAGE_HEAD);
    at = append(words, at, office->store, office->store_len);
    at = append(words, at, token, written.words);
    at = append(words, at, waiting->row, waiting->words);
    uint64_t check = check_of(words, at);
    return append(words, at, &check, IMAGE_CHECK);
}

/* Whether the words are a whole image, unchanged since it was written. */
static bool is_whole(const struct head *head, const uint32_t *words, size_t bytes)
{
    if (head->magic != magic || head->format != format
        || head->version >> 16 != BURIAL_VERSION >> 16
        || head->store_words > BURIAL_STORE_WORDS || head->token_words > BURIAL_TOKEN_WORDS
        || head->waiting_words > WAITING_WORDS)
        return false;
    size_t count = IMAGE_HEAD + head->store_words + head->token_words + head->waiting_words;
    if (bytes != 4 * (count + IMAGE_CHECK))
        return false;
    uint64_t check;
    memcpy(&check, words + count, sizeof check);
    return check == check_of(words, count);
}

static void read_store(struct office *office, const uint32_t *words, size_t count)
{
    struct burial_settings settings = burial_store_settings(words, count);
    if (settings.refusal != BURIAL_OK)
        fail("the file is damaged");
    if (settings.offices != office->offices || settings.own != office->own)
        fail("the file is office %u's, of a ring of %u", settings.own, settings.offices);
    if (settings.plots != PLOTS || count != office->store_len)
        fail("the file is damaged");
    memcpy(office->store, words, 4 * count);
}

static void read_token(struct office *office, const uint32_t *words, size_t count)
{
    struct burial_token_read read = burial_read_token(words, count, office->offices, PLOTS);
    if (read.refusal != BURIAL_OK)
        fail("the file is damaged");
    office->session = read.session;
}

/* A frame that is not one would be refused by the next office for ever. */
static void read_waiting(struct waiting *waiting, const uint32_t *words, const struct head *head)
{
    uint32_t offices = waiting->offices;
    size_t len, at = 0, count = head->waiting_words;
    while ((len = burial_frame_length(words + at, count - at, offices)) != 0) {
        if (burial_read_frame(words + at, len, offices, PLOTS).refusal != BURIAL_OK)
            break;
        at += len;
    }
    if (at != count || !waiting_add(waiting, words, count) || waiting->count != head->waiting_count)
        fail("the file is damaged");
    waiting->first = head->waiting_first;
}

void image_read(struct office *office, const uint32_t *words, size_t bytes)
{
    struct head head;
    if (bytes < sizeof head)
        fail("the file is damaged");
    memcpy(&head, words, sizeof head);
    if (!is_whole(&head, words, bytes))
        fail("the file is damaged");
    words += IMAGE_HEAD;
    read_store(office, words, head.store_words);
    words += head.store_words;
    read_token(office, words, head.token_words);
    words += head.token_words;
    read_waiting(&office->waiting, words, &head);
    office->heard = head.heard;
}
