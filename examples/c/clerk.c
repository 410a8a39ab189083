#include "clerk.h"
#include "keep.h"
#include "say.h"

#include <errno.h>
#include <string.h>
#include <unistd.h>

static void reply_refused(uint32_t refusal)
{
    reply("refused %u: %s", refusal, burial_refusal_text(refusal));
}

static void reply_not_kept(const struct outcome *outcome)
{
    reply("not kept: %s%s", strerror(outcome->error),
          outcome->how == PERHAPS_KEPT ? ", or perhaps kept" : "");
}

static void write_plot(struct office *office, uint32_t plot, uint32_t value)
{
    static uint32_t row[BURIAL_WRITE_WORDS];
    keep_before(office);
    struct burial_written written = burial_lent_write(
        office->store, office->store_len, &office->session, plot, value, row, BURIAL_WRITE_WORDS);
    if (written.refusal != BURIAL_OK) {
        reply_refused(written.refusal);
        return;
    }
    const struct burial_entry entry = office->session.own[office->session.count - 1];
    struct outcome outcome = keep_after(office, row, written.words, true);
    if (outcome.how == KEPT)
        reply("wrote %u.%u", entry.office, entry.serial);
    else
        reply_not_kept(&outcome);
}

static void reply_found(const struct burial_plot_found *found, bool kept)
{
    const char *mark = kept ? "" : " (not kept)";
    const struct burial_entry *entry = &found->entry;
    if (found->refusal != BURIAL_OK)
        reply_refused(found->refusal);
    else if (found->found)
        reply("%u by %u.%u%s", entry->value, entry->office, entry->serial, mark);
    else
        reply("none%s", mark);
}

/* What the clerk has seen is kept before he sees it, if it can be. */
static void read_plot(struct office *office, uint32_t plot)
{
    keep_before(office);
    struct burial_plot_found found =
        burial_lent_read_plot(office->store, office->store_len, &office->session, plot);
    reply_found(&found, keep_reading(office).how == KEPT);
}

/* A fresh session has read nothing, so its reading shows nothing new: there is nothing to keep. But
 * an unsure office may have shown what a power cut takes back. */
static void present(struct office *office, uint32_t plot)
{
    struct burial_session fresh = burial_fresh_session(office->offices).session;
    struct burial_plot_found found =
        burial_lent_read_plot(office->store, office->store_len, &fresh, plot);
    reply_found(&found, !office->unsure);
}

static void begin_session(struct office *office)
{
    const uint32_t no_frames[1] = { 0 };
    keep_before(office);
    office->session = burial_fresh_session(office->offices).session;
    struct outcome outcome = keep_after(office, no_frames, 0, false);
    if (outcome.how == KEPT)
        reply("a new session");
    else
        reply_not_kept(&outcome);
}

/* A word and then so many numbers, one space between; nothing else. */
static bool is_order(const char *order, const char *word, int count, uint32_t *numbers)
{
    size_t len = strlen(word);
    if (strncmp(order, word, len) != 0)
        return false;
    const char *at = order + len;
    for (int i = 0; i < count; i++) {
        if (at[0] != ' ' || at[1] < '0' || at[1] > '9')
            return false;
        char *end;
        unsigned long long number = strtoull(at + 1, &end, 10);
        if (number > UINT32_MAX)
            return false;
        numbers[i] = (uint32_t)number;
        at = end;
    }
    return *at == '\0';
}

static void obey(struct office *office, const char *order)
{
    uint32_t numbers[2];
    if (is_order(order, "write", 2, numbers))
        write_plot(office, numbers[0], numbers[1]);
    else if (is_order(order, "read", 1, numbers))
        read_plot(office, numbers[0]);
    else if (is_order(order, "present", 1, numbers))
        present(office, numbers[0]);
    else if (is_order(order, "new", 0, numbers))
        begin_session(office);
    else if (is_order(order, "heard", 0, numbers))
        reply("%u", office->heard_kept);
    else if (is_order(order, "waiting", 0, numbers))
        reply("%u", office->waiting.count);
    else
        reply("what?");
}

/* A line that is too long, or has a zero in it, is no order. Nor is one that the end cuts off: it
 * might have been another. */
static void take_byte(struct office *office, char byte)
{
    static char order[80];
    static size_t len;
    if (byte != '\n') {
        if (len < sizeof order)
            order[len++] = byte;
        return;
    }
    bool whole = len < sizeof order && memchr(order, '\0', len) == NULL;
    order[whole ? len : 0] = '\0';
    len = 0;
    obey(office, order);
}

bool clerk_serve(struct office *office)
{
    char bytes[512];
    ssize_t got = read(STDIN_FILENO, bytes, sizeof bytes);
    if (got < 0 && errno != EINTR && errno != EAGAIN)
        fail("the orders cannot be read: %s", strerror(errno));
    for (ssize_t i = 0; i < got; i++)
        take_byte(office, bytes[i]);
    return got != 0;
}
