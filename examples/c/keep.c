#include "keep.h"
#include "hold.h"
#include "image.h"
#include "say.h"

#include <errno.h>
#include <string.h>

/* One word more than an image has, so that a file that is too long shows. */
static uint32_t image[IMAGE_WORDS + 1];

static struct {
    uint32_t store[BURIAL_STORE_WORDS];
    struct burial_session session;
    uint32_t heard, waiting_count;
    size_t waiting_words;
} before;

/* PERHAPS_KEPT. The new file has the name, but the directory is not surely on the disk: a process
 * that starts now finds the new file, and one that starts after a power cut the new or the old one.
 * To undo the call and say that nothing has changed would be wrong: after a mere crash the write is
 * there, and a clerk who repeats it has it twice. To go on as if all were kept would be wrong too:
 * a power cut could take back what others were told. So memory stays as the new file is, nothing
 * goes out on a line, and the clerk is told to look before he repeats. Then all is kept again until
 * that is sure. All, and not the fsync alone: after a failed one the next may say that all is well.
 */
static struct outcome perhaps(struct office *office, int error)
{
    if (!office->unsure)
        trouble("the directory cannot be written: %s; the lines stand still", strerror(error));
    office->owed = office->unsure = true;
    return (struct outcome){ PERHAPS_KEPT, error };
}

static struct outcome keep_all(struct office *office, bool writing)
{
    bool swapped;
    int error = disk_write_beside(&office->disk, image, 4 * image_write(office, image));
    if (error != 0)
        return (struct outcome){ NOT_KEPT, error };
    if (writing)
        hold_at("renaming");
    error = disk_swap(&office->disk, &swapped);
    if (error != 0)
        return swapped ? perhaps(office, error) : (struct outcome){ NOT_KEPT, error };
    office->owed = office->unsure = false;
    office->heard_kept = office->heard;
    if (writing)
        hold_at("sending");
    return (struct outcome){ KEPT, 0 };
}

void keep_before(const struct office *office)
{
    memcpy(before.store, office->store, sizeof before.store);
    before.session = office->session;
    before.heard = office->heard;
    before.waiting_count = office->waiting.count;
    before.waiting_words = office->waiting.words;
}

static void undo(struct office *office)
{
    memcpy(office->store, before.store, sizeof before.store);
    office->session = before.session;
    office->heard = before.heard;
    waiting_cut(&office->waiting, before.waiting_count, before.waiting_words);
}

/* Field by field: a session has padding, and own entries that mean nothing. */
static bool same_session(const struct burial_session *a, const struct burial_session *b)
{
    return a->offices == b->offices && a->count == b->count
        && memcmp(a->clock, b->clock, sizeof a->clock) == 0
        && memcmp(a->read, b->read, sizeof a->read) == 0
        && memcmp(a->own, b->own, a->count * sizeof a->own[0]) == 0;
}

static bool changed(const struct office *office)
{
    return memcmp(office->store, before.store, sizeof before.store) != 0
        || !same_session(&office->session, &before.session)
        || office->heard != before.heard || office->waiting.count != before.waiting_count;
}

static struct outcome keep_if_due(struct office *office, bool writing)
{
    if (!office->owed && !changed(office))
        return (struct outcome){ KEPT, 0 };
    return keep_all(office, writing);
}

struct outcome keep_after(struct office *office, const uint32_t *frames, size_t words,
                          bool writing)
{
    struct outcome outcome = { NOT_KEPT, ENOBUFS };
    if (waiting_add(&office->waiting, frames, words))
        outcome = keep_if_due(office, writing);
    if (outcome.how == NOT_KEPT)
        undo(office);
    return outcome;
}

struct outcome keep_reading(struct office *office)
{
    struct outcome outcome = keep_if_due(office, false);
    office->owed = outcome.how != KEPT;
    return outcome;
}

void keep_again(struct office *office)
{
    if (office->unsure)
        keep_all(office, false);
}

static void open_new(struct office *office)
{
    burial_open_office(office->offices, office->own, PLOTS, office->store, office->store_len);
    office->session = burial_fresh_session(office->offices).session;
    struct outcome outcome = keep_all(office, false);
    if (outcome.how == NOT_KEPT)
        fail("the file cannot be written: %s", strerror(outcome.error));
}

/* Whoever wrote the file may have been killed before its name was on the disk; nothing may go out
 * that a power cut could still take back. */
static void load(struct office *office, size_t bytes)
{
    image_read(office, image, bytes);
    office->heard_kept = office->heard;
    int error = disk_settle(&office->disk);
    if (error != 0)
        perhaps(office, error);
}

void keep_start(struct office *office, uint32_t offices, uint32_t own, const char *path)
{
    struct burial_need need = burial_store_need(offices, own, PLOTS);
    if (need.refusal != BURIAL_OK)
        fail("the office has no number of the ring");
    office->offices = office->waiting.offices = offices;
    office->own = own;
    office->store_len = need.words;
    int error = disk_open(&office->disk, path);
    if (error == EWOULDBLOCK)
        fail("another process has this office");
    size_t bytes = 0;
    bool there = false;
    if (error == 0)
        error = disk_read(&office->disk, image, sizeof image, &bytes, &there);
    if (error != 0)
        fail("the file cannot be read: %s", strerror(error));
    if (there)
        load(office, bytes);
    else
        open_new(office);
}
