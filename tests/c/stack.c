/* Tests how much stack the calls need: less than the 16 KiB that the header names. Each call is made on a
 * stack of its own that is painted before; the lowest place that has lost its paint tells the need. */
#include "burial_register.h"
#include "report.h"

#include <ucontext.h>

enum { RING = 8, PLOTS = 64, STORE = BURIAL_STORE_WORDS, ROW = BURIAL_WRITE_WORDS, NAMED = 16 * 1024 };

/* Four times as much, so that a call that needs too much is seen and not a crash. */
static unsigned char stack[4 * NAMED];
static ucontext_t here, there;
static void (*called)(void);

static uint32_t store[STORE], row[ROW], token[BURIAL_TOKEN_WORDS], answer[BURIAL_ANSWER_WORDS], plots[BURIAL_JOINT];
static struct burial_session session, other;
static size_t token_words, frame_words;
static struct burial_frame frame;

static void make_call(void)
{
    called();
}

static size_t need_of(void (*call)(void))
{
    size_t free_bytes = 0;
    called = call;
    memset(stack, 0xA5, sizeof stack);
    expect(getcontext(&there) == 0);
    there.uc_stack.ss_sp = stack;
    there.uc_stack.ss_size = sizeof stack;
    there.uc_link = &here;
    makecontext(&there, make_call, 0);
    expect(swapcontext(&here, &there) == 0);
    while (free_bytes < sizeof stack && stack[free_bytes] == 0xA5)
        free_bytes++;
    return sizeof stack - free_bytes;
}

static void settings(void) { expect(burial_store_settings(store, STORE).refusal == BURIAL_OK); }
static void fresh(void) { expect(burial_fresh_session(RING).refusal == BURIAL_OK); }
static void join(void) { expect(burial_join_sessions(RING, PLOTS, session, session).refusal == BURIAL_OK); }
static void join_other(void) { expect(burial_join_sessions(RING, PLOTS, session, other).refusal == BURIAL_OK); }
static void write_lent(void) { expect(burial_lent_write(store, STORE, &session, 1, 1, row, ROW).refusal == BURIAL_OK); }
static void write_value(void) { expect(burial_write(store, STORE, session, 1, 1, row, ROW).refusal == BURIAL_OK); }
static void read_lent(void) { expect(burial_lent_read_plot(store, STORE, &session, 1).refusal == BURIAL_OK); }
static void read_value(void) { expect(burial_read_plot(store, STORE, session, 1).refusal == BURIAL_OK); }
static void joint_lent(void)
{
    expect(burial_lent_read_joint(store, STORE, &session, plots, BURIAL_JOINT, answer, BURIAL_ANSWER_WORDS) == BURIAL_OK);
}
static void joint_value(void)
{
    expect(burial_read_joint(store, STORE, session, plots, BURIAL_JOINT, answer, BURIAL_ANSWER_WORDS).refusal == BURIAL_OK);
}
static void hear(void)
{
    expect(burial_receive(store, STORE, row, frame_words, answer, BURIAL_ANSWER_WORDS).refusal == BURIAL_OK);
}
static void token_out(void)
{
    struct burial_written written = burial_write_token(session, token, BURIAL_TOKEN_WORDS);
    token_words = written.words;
    expect(written.refusal == BURIAL_OK);
}
static void token_in(void) { expect(burial_read_token(token, token_words, RING, PLOTS).refusal == BURIAL_OK); }
static void frame_in(void)
{
    struct burial_frame_read read = burial_read_frame(row, frame_words, RING, PLOTS);
    frame = read.frame;
    expect(read.refusal == BURIAL_OK);
}
static void frame_out(void) { expect(burial_write_frame(frame, row, ROW).refusal == BURIAL_OK); }
static void frame_bytes(void)
{
    expect(burial_check_frame((const uint8_t *)row, 4 * frame_words, RING, PLOTS) == BURIAL_OK);
}

/* A session that carries 14 entries of office 0; the frame of the first of them is heard at office 1. Its
 * joint reading hands back all of them. The other carries two of office 1. */
static void lay(void)
{
    burial_open_office(RING, 0, PLOTS, store, STORE);
    session = burial_fresh_session(RING).session;
    for (uint32_t i = 0; i < 14; i++)
        expect(burial_lent_write(store, STORE, &session, 2 + i, i, row, ROW).refusal == BURIAL_OK);
    burial_open_office(RING, 1, PLOTS, store, STORE);
    other = burial_fresh_session(RING).session;
    for (uint32_t i = 0; i < 2; i++)
        expect(burial_lent_write(store, STORE, &other, 2 + i, i, row, ROW).refusal == BURIAL_OK);
    burial_open_office(RING, 1, PLOTS, store, STORE);
    struct burial_session visitor = session;
    expect(burial_lent_write(store, STORE, &visitor, 60, 1, row, ROW).refusal == BURIAL_OK);
    burial_open_office(RING, 1, PLOTS, store, STORE);
    frame_words = burial_frame_length(row, ROW, RING);
    for (uint32_t i = 0; i < BURIAL_JOINT; i++)
        plots[i] = i;
}

int main(void)
{
    void (*const calls[])(void) = {
        settings, fresh, join, join_other, hear, frame_in, frame_bytes, frame_out, token_out, token_in, joint_lent, joint_value,
        read_lent, read_value, write_value, write_lent,
    };
    size_t most = 0;
    setvbuf(stdout, NULL, _IOLBF, 0);
    lay();
    for (size_t i = 0; i < sizeof calls / sizeof calls[0]; i++) {
        size_t need = need_of(calls[i]);
        expect(need < NAMED);
        most = need > most ? need : most;
    }
    printf("the most stack that a call took: %zu bytes\n", most);
    end("each call needs less than 16 KiB of stack");
    return finish("stack");
}
