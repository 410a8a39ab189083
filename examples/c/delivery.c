#include "delivery.h"
#include "hold.h"
#include "keep.h"
#include "line.h"
#include "say.h"

#include <limits.h>
#include <string.h>
#include <time.h>

/* A frame on a line. Words of a shorter one are followed by zeros. A frame shows when a word of it
 * is changed; so that a number does too, it goes with its complement. */
struct packet {
    uint32_t number, check;
    uint32_t length;
    uint32_t frame[BURIAL_FRAME_WORDS];
};

/* How many frames were heard and kept. */
struct answer {
    uint32_t heard, check;
};

_Static_assert(sizeof(struct packet) <= PIPE_BUF, "a packet crosses a pipe as a whole");

enum { PATIENCE = 200 }; /* milliseconds */

static int64_t now(void)
{
    struct timespec time;
    clock_gettime(CLOCK_MONOTONIC, &time);
    return 1000 * (int64_t)time.tv_sec + time.tv_nsec / 1000000;
}

void delivery_open(struct delivery *delivery, const struct office *office, const char *folder)
{
    uint32_t next = (office->own + 1) % office->offices;
    delivery->in = line_open(folder, "to", office->own);
    delivery->in_back = line_open(folder, "back", office->own);
    delivery->out = line_open(folder, "to", next);
    delivery->out_back = line_open(folder, "back", next);
    delivery->owes_answer = true;
}

/* False where the line is full. */
static bool put_answer(const struct delivery *delivery, const struct office *office)
{
    const struct answer answer = { office->heard, ~office->heard };
    return line_put(delivery->in_back, &answer, sizeof answer);
}

/* The packet has the next number, so the frame is the next one to hear. */
static struct burial_written call_receive(struct office *office, const struct packet *packet,
                                          uint32_t *out)
{
    if (packet->length > BURIAL_FRAME_WORDS)
        return (struct burial_written){ BURIAL_NOT_A_FRAME, 0 };
    return burial_receive(office->store, office->store_len, packet->frame, packet->length,
                          out, BURIAL_FRAME_WORDS);
}

static void say_refused(struct delivery *delivery, uint32_t number, uint32_t refusal)
{
    if (delivery->said_refused && delivery->refused == number)
        return;
    trouble("a frame is refused: %u: %s", refusal, burial_refusal_text(refusal));
    delivery->said_refused = true;
    delivery->refused = number;
}

/* A frame that is refused or not kept is not heard: it comes again, and those behind it have to
 * wait. To pass over it would be to lose it for good. */
static void hear(struct delivery *delivery, struct office *office, const struct packet *packet)
{
    uint32_t onward[BURIAL_FRAME_WORDS];
    hold_at("hearing");
    keep_before(office);
    struct burial_written written = call_receive(office, packet, onward);
    if (written.refusal != BURIAL_OK) {
        say_refused(delivery, packet->number, written.refusal);
        return;
    }
    office->heard++;
    struct outcome outcome = keep_after(office, onward, written.words, false);
    if (outcome.how == NOT_KEPT && !delivery->said_not_kept)
        trouble("a frame is not kept: %s", strerror(outcome.error));
    delivery->said_not_kept = outcome.how == NOT_KEPT;
}

static void take_packet(struct delivery *delivery, struct office *office)
{
    struct packet packet;
    delivery->owes_answer = true;
    if (line_take(delivery->in, &packet, sizeof packet) && packet.check == ~packet.number
        && packet.number == office->heard)
        hear(delivery, office, &packet);
}

static void take_answer(struct delivery *delivery, struct office *office)
{
    struct answer answer;
    uint32_t first = office->waiting.first;
    if (!line_take(delivery->out_back, &answer, sizeof answer) || answer.check != ~answer.heard)
        return;
    if (!waiting_drop(&office->waiting, answer.heard) && !delivery->said_unwritten) {
        trouble("the next office has heard frames that are not in the file: was it set back?");
        delivery->said_unwritten = true;
    }
    if (office->waiting.first != first)
        delivery->since = now();
}

/* As much as the line takes. */
static void send_frames(struct delivery *delivery, struct waiting *waiting)
{
    size_t len;
    if (waiting->sent > 0 && now() - delivery->since >= PATIENCE)
        waiting_again(waiting);
    while ((len = waiting_next(waiting)) != 0) {
        uint32_t number = waiting->first + waiting->sent;
        struct packet packet = { number, ~number, (uint32_t)len, { 0 } };
        memcpy(packet.frame, waiting->row + waiting->sent_words, 4 * len);
        if (!line_put(delivery->out, &packet, sizeof packet))
            return;
        if (waiting->sent == 0)
            delivery->since = now();
        waiting_went(waiting);
    }
}

int delivery_watch(const struct delivery *delivery, const struct office *office,
                   struct pollfd files[DELIVERY_FILES])
{
    /* Poll passes over -1. What is unsure must not be told, so the lines stand still. */
    bool sure = !office->unsure, more = waiting_next(&office->waiting) != 0;
    files[0] = (struct pollfd){ .fd = sure ? delivery->in : -1, .events = POLLIN };
    files[1] = (struct pollfd){ .fd = sure ? delivery->out_back : -1, .events = POLLIN };
    files[2] = (struct pollfd){ .fd = sure && more ? delivery->out : -1, .events = POLLOUT };
    if (!sure)
        return PATIENCE;
    if (office->waiting.sent == 0)
        return -1;
    int64_t left = delivery->since + PATIENCE - now();
    return left > 0 ? (int)left : 0;
}

void delivery_serve(struct delivery *delivery, struct office *office,
                    const struct pollfd files[DELIVERY_FILES])
{
    if (files[0].revents != 0)
        take_packet(delivery, office);
    if (files[1].revents != 0)
        take_answer(delivery, office);
    if (office->unsure)
        return;
    if (delivery->owes_answer)
        delivery->owes_answer = !put_answer(delivery, office);
    send_frames(delivery, &office->waiting);
}
