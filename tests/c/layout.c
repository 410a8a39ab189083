/* Tests that each field of each struct crosses where the header says, both ways: the values are
 * told apart by their place alone, so two fields that change places are seen. Every call is made,
 * once accepted and once refused. */
#include "burial_register.h"
#include "cases.h"
#include "report.h"

enum { OFFICES = 4, OWN = 1, PLOTS = 64, STORE = 19 + 576 * OFFICES, ROW = 64 };

/* Two entries of other offices: `later` depends on `early`. */
static const struct burial_entry early = { .serial = 3, .plot = 2, .value = 21, .clock = { 3 } };
static const struct burial_entry later = {
    .office = 2, .serial = 5, .plot = 6, .value = 9, .clock = { 4, 7, 5, 8 }, .deps = { 0x4 },
};

/* `early` on its last way, and `later` with 2, 1 and none still to hear. */
static const uint32_t early_words[] = {
    0x10030400, 0x30000002, 0x40000015, 0x50000003, 0x50000000, 0x50000000, 0x50000000, 0xF003041A,
};
static const uint32_t later_words[3][9] = {
    { 0x12052401, 0x30000006, 0x40000009, 0x50000004, 0x50000007, 0x50000005, 0x50000008, 0x60000003, 0xF205242B },
    { 0x12051401, 0x30000006, 0x40000009, 0x50000004, 0x50000007, 0x50000005, 0x50000008, 0x60000003, 0xF205142B },
    { 0x12050401, 0x30000006, 0x40000009, 0x50000004, 0x50000007, 0x50000005, 0x50000008, 0x60000003, 0xF205042B },
};
enum { EARLY = sizeof early_words / 4, LATER = sizeof later_words[0] / 4 };

/* A session with two entries of its own, and its token. */
static const struct burial_session carried = {
    .offices = OFFICES,
    .clock = { 4, 7, 5, 8 },
    .read = { 0x4, 0, 0x10 },
    .count = 2,
    .own = {
        { .office = 1, .serial = 2, .plot = 11, .value = 13, .clock = { 4, 2, 5, 8 }, .deps = { 0x4, 0, 0x10 } },
        { .office = 3, .serial = 6, .plot = 17, .value = 19, .clock = { 4, 7, 5, 6 }, .deps = { 0x4, 0x2, 0x10 } },
    },
};
static const uint32_t token[] = {
    0x84020002, 0x50000004, 0x50000007, 0x50000005, 0x50000008, 0x60000003, 0x60000205,
    0x11020402, 0x3000000B, 0x4000000D, 0x50000004, 0x50000002, 0x50000005, 0x50000008,
    0x60000003, 0x60000205, 0xF1020635,
    0x13060403, 0x30000011, 0x40000013, 0x50000004, 0x50000007, 0x50000005, 0x50000006,
    0x60000003, 0x60000102, 0x60000205, 0xF3060747,
    0xFC121D1A,
};
enum { TOKEN = sizeof token / 4 };

/* A session with one entry of its own, and what is joined of the two. */
static const struct burial_session other = {
    .offices = OFFICES,
    .clock = { 9, 1, 10, 2 },
    .read = { 0x8, 0x40, 0x10, 0x20 },
    .count = 1,
    .own = {
        { .office = 0, .serial = 9, .plot = 23, .value = 29, .clock = { 9, 1, 3, 2 }, .deps = { 0x8, 0x40 } },
    },
};
static const struct burial_session both = {
    .offices = OFFICES,
    .clock = { 9, 7, 10, 8 },
    .read = { 0xC, 0x40, 0x10, 0x20 },
    .count = 3,
    .own = {
        { .office = 1, .serial = 2, .plot = 11, .value = 13, .clock = { 4, 2, 5, 8 }, .deps = { 0x4, 0, 0x10 } },
        { .office = 3, .serial = 6, .plot = 17, .value = 19, .clock = { 4, 7, 5, 6 }, .deps = { 0x4, 0x2, 0x10 } },
        { .office = 0, .serial = 9, .plot = 23, .value = 29, .clock = { 9, 1, 3, 2 }, .deps = { 0x8, 0x40 } },
    },
};

static const struct burial_entry no_entry;
static const struct burial_session no_session;

static bool same_entry(const struct burial_entry *a, const struct burial_entry *b)
{
    return a->office == b->office && a->serial == b->serial && a->plot == b->plot && a->value == b->value
           && memcmp(a->clock, b->clock, sizeof a->clock) == 0 && memcmp(a->deps, b->deps, sizeof a->deps) == 0;
}

static bool same_session(const struct burial_session *a, const struct burial_session *b)
{
    bool same = a->offices == b->offices && a->count == b->count;
    same = same && memcmp(a->clock, b->clock, sizeof a->clock) == 0 && memcmp(a->read, b->read, sizeof a->read) == 0;
    for (size_t i = 0; same && i < BURIAL_CARRIED; i++)
        same = same_entry(&a->own[i], &b->own[i]);
    return same;
}

static void expect_written(struct burial_written written, uint32_t refusal, size_t words)
{
    expect(written.refusal == refusal);
    expect(written.words == words);
}

static void expect_found(struct burial_plot_found answer, uint32_t refusal, uint32_t found,
                         const struct burial_entry *entry)
{
    expect(answer.refusal == refusal);
    expect(answer.found == found);
    expect(same_entry(&answer.entry, entry));
}

static void test_frame(void)
{
    struct burial_frame frame = { .offices = OFFICES, .hops = 2, .entry = later };
    uint32_t row[LATER];
    uint8_t bytes[4 * LATER];
    expect_written(burial_write_frame(frame, row, LATER - 1), BURIAL_NO_ROOM, 0);
    expect_written(burial_write_frame(frame, row, LATER), BURIAL_OK, LATER);
    expect(memcmp(row, later_words[0], sizeof row) == 0);

    struct burial_frame_read read = burial_read_frame(row, LATER, OFFICES, 7);
    expect(read.refusal == BURIAL_OK && read.frame.offices == OFFICES && read.frame.hops == 2);
    expect(same_entry(&read.frame.entry, &later));
    read = burial_read_frame(row, LATER, 7, OFFICES);
    expect(read.refusal == BURIAL_NOT_A_FRAME && read.frame.offices == 0 && read.frame.hops == 0);
    expect(same_entry(&read.frame.entry, &no_entry));

    for (size_t i = 0; i < sizeof bytes; i++)
        bytes[i] = (uint8_t)(row[i / 4] >> (8 * (i % 4)));
    expect(burial_check_frame(bytes, sizeof bytes, OFFICES, 7) == BURIAL_OK);
    expect(burial_check_frame(bytes, sizeof bytes, 7, OFFICES) == BURIAL_NOT_A_FRAME);
    end("the fields of an entry and of a frame");
}

static void test_session(void)
{
    uint32_t row[TOKEN];
    expect_written(burial_write_token(carried, row, TOKEN - 1), BURIAL_NO_ROOM, 0);
    expect_written(burial_write_token(carried, row, TOKEN), BURIAL_OK, TOKEN);
    expect(memcmp(row, token, sizeof row) == 0);

    uint32_t *lent = exact(token, sizeof token);
    struct burial_token_read read = burial_read_token(lent, TOKEN, OFFICES, 18);
    expect(read.refusal == BURIAL_OK && same_session(&read.session, &carried));
    read = burial_read_token(lent, TOKEN, OFFICES, 17);
    expect(read.refusal == BURIAL_NOT_A_FRAME && same_session(&read.session, &no_session));
    free(lent);

    struct burial_session blank = { .offices = OFFICES };
    read = burial_fresh_session(OFFICES);
    expect(read.refusal == BURIAL_OK && same_session(&read.session, &blank));
    read = burial_fresh_session(9);
    expect(read.refusal == BURIAL_BAD_SETTINGS && same_session(&read.session, &no_session));
    end("the fields of a session");
}

static void test_join(void)
{
    struct burial_token_read answer = burial_join_sessions(OFFICES, 24, carried, other);
    expect(answer.refusal == BURIAL_OK && same_session(&answer.session, &both));
    answer = burial_join_sessions(OFFICES, 23, carried, other);
    expect(answer.refusal == BURIAL_BAD_CONTENT && same_session(&answer.session, &no_session));
    answer = burial_join_sessions(24, OFFICES, carried, other);
    expect(answer.refusal == BURIAL_BAD_SETTINGS && same_session(&answer.session, &no_session));
    end("the fields of two sessions that are joined");
}

/* Opens the office in `store`, which then hears `early` and `later`. */
static void heard(uint32_t store[STORE])
{
    uint32_t row[ROW];
    struct burial_need need = burial_store_need(OFFICES, OWN, PLOTS);
    expect(need.refusal == BURIAL_OK && need.words == STORE);
    need = burial_store_need(OFFICES, OFFICES, PLOTS);
    expect(need.refusal == BURIAL_BAD_SETTINGS && need.words == 0);
    expect(burial_open_office(OFFICES, OWN, PLOTS, store, STORE - 1) == BURIAL_BAD_STORE);
    expect(burial_open_office(OFFICES, OWN, PLOTS, store, STORE) == BURIAL_OK);
    expect(store[0] == OFFICES && store[1] == OWN && store[2] == PLOTS);

    expect_written(burial_receive(store, STORE, later_words[0], LATER, row, ROW), BURIAL_MISSING, 0);
    expect_written(burial_receive(store, STORE, early_words, EARLY, row, ROW), BURIAL_OK, 0);
    expect_written(burial_receive(store, STORE, later_words[0], LATER, row, ROW), BURIAL_OK, LATER);
    expect(memcmp(row, later_words[1], sizeof later_words[1]) == 0);
    expect_written(burial_receive(store, STORE, later_words[2], LATER, row, ROW), BURIAL_OK, 0);
}

static void test_settings(void)
{
    uint32_t store[STORE];
    heard(store);
    struct burial_settings settings = burial_store_settings(store, STORE);
    expect(settings.refusal == BURIAL_OK && settings.offices == OFFICES);
    expect(settings.own == OWN && settings.plots == PLOTS);
    settings = burial_store_settings(store, STORE - 1);
    expect(settings.refusal == BURIAL_BAD_STORE && settings.offices == 0);
    expect(settings.own == 0 && settings.plots == 0);
    end("the settings of a store");
}

/* What a reading of `later`, a joint one of both and then a write leave of a fresh session. */
static const struct burial_session after_reading = {
    .offices = OFFICES, .clock = { 4, 7, 5, 8 }, .read = { 0, 0, 0x10 },
};
static const struct burial_session after_joint = {
    .offices = OFFICES, .clock = { 4, 7, 5, 8 }, .read = { 0x4, 0, 0x10 },
};
static const struct burial_session after_write = {
    .offices = OFFICES,
    .clock = { 4, 7, 5, 8 },
    .read = { 0x4, 0, 0x10 },
    .count = 1,
    .own = { { .office = 1, .serial = 1, .plot = 11, .value = 13, .clock = { 4, 1, 5, 8 }, .deps = { 0x4, 0, 0x10 } } },
};
static const uint32_t sent[] = {
    0x11012402, 0x3000000B, 0x4000000D, 0x50000004, 0x50000001, 0x50000005, 0x50000008,
    0x60000003, 0x60000205, 0xF1012634,
};
enum { SENT = sizeof sent / 4 };

static const uint32_t plots[] = { 6, 2, PLOTS };
static const uint32_t answers[] = { 1, 9, 0x205, 1, 21, 3 };

static void test_by_value(void)
{
    uint32_t store[STORE], row[ROW];
    struct burial_session session = { .offices = OFFICES };
    heard(store);

    struct burial_read read = burial_read_plot(store, STORE, session, PLOTS);
    expect(read.refusal == BURIAL_BAD_PLOT && read.found == 0 && same_entry(&read.entry, &no_entry));
    expect(same_session(&read.session, &session));
    read = burial_read_plot(store, STORE, session, 2);
    expect(read.refusal == BURIAL_OK && read.found == 1 && same_entry(&read.entry, &early));
    read = burial_read_plot(store, STORE, session, 6);
    expect(read.refusal == BURIAL_OK && read.found == 1 && same_entry(&read.entry, &later));
    expect(same_session(&read.session, &after_reading));

    struct burial_joint joint = burial_read_joint(store, STORE, read.session, plots, 3, row, ROW);
    expect(joint.refusal == BURIAL_BAD_PLOT && same_session(&joint.session, &after_reading));
    joint = burial_read_joint(store, STORE, read.session, plots, 2, row, ROW);
    expect(joint.refusal == BURIAL_OK && same_session(&joint.session, &after_joint));
    expect(memcmp(row, answers, sizeof answers) == 0);

    struct burial_wrote wrote = burial_write(store, STORE, joint.session, 11, BURIAL_MAX_VALUE + 1, row, ROW);
    expect(wrote.refusal == BURIAL_BAD_VALUE && wrote.words == 0 && same_session(&wrote.session, &after_joint));
    wrote = burial_write(store, STORE, joint.session, 11, 13, row, ROW);
    expect(wrote.refusal == BURIAL_OK && wrote.words == SENT && same_session(&wrote.session, &after_write));
    expect(memcmp(row, sent, sizeof sent) == 0);
    end("the answers of an office, the session by value");
}

static void test_lent(void)
{
    uint32_t store[STORE], row[ROW];
    struct burial_session session = { .offices = OFFICES }, blank = session;
    heard(store);

    expect_found(burial_lent_read_plot(store, STORE, &session, PLOTS), BURIAL_BAD_PLOT, 0, &no_entry);
    expect(same_session(&session, &blank));
    expect_found(burial_lent_read_plot(store, STORE, &session, 6), BURIAL_OK, 1, &later);
    expect(same_session(&session, &after_reading));

    expect(burial_lent_read_joint(store, STORE, &session, plots, 3, row, ROW) == BURIAL_BAD_PLOT);
    expect(same_session(&session, &after_reading));
    expect(burial_lent_read_joint(store, STORE, &session, plots, 2, row, ROW) == BURIAL_OK);
    expect(same_session(&session, &after_joint) && memcmp(row, answers, sizeof answers) == 0);

    expect_written(burial_lent_write(store, STORE, &session, 11, BURIAL_MAX_VALUE + 1, row, ROW), BURIAL_BAD_VALUE, 0);
    expect(same_session(&session, &after_joint));
    expect_written(burial_lent_write(store, STORE, &session, 11, 13, row, ROW), BURIAL_OK, SENT);
    expect(same_session(&session, &after_write) && memcmp(row, sent, sizeof sent) == 0);
    end("the answers of an office, the session lent");
}

int main(void)
{
    setvbuf(stdout, NULL, _IOLBF, 0);
    test_frame();
    test_session();
    test_join();
    test_settings();
    test_by_value();
    test_lent();
    return finish("layout");
}
