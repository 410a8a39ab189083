/* Tests the join of two sessions from C, through the header, with the errand of document 02 (iv): it is
 * copied, two people go on with it, and in the evening their tokens are joined. */
#include "burial_register.h"
#include "report.h"
#include "sessions.h"

enum { RING = 3, PLOTS = 64, STORE = 19 + 576 * RING, ROW = 256 };

static uint32_t store[RING][STORE];
static const struct burial_session no_session;

static void open_ring(void)
{
    for (uint32_t own = 0; own < RING; own++)
        expect(burial_open_office(RING, own, PLOTS, store[own], STORE) == BURIAL_OK);
}

static void writes(struct burial_session *session, uint32_t own, uint32_t plot, uint32_t value)
{
    uint32_t row[ROW];
    expect(burial_lent_write(store[own], STORE, session, plot, value, row, ROW).refusal == BURIAL_OK);
}

/* Whether a session that reads here is handed back this value. */
static bool reads(struct burial_session *session, uint32_t own, uint32_t plot, uint32_t value)
{
    struct burial_plot_found read = burial_lent_read_plot(store[own], STORE, session, plot);
    return read.refusal == BURIAL_OK && read.found == 1 && read.entry.value == value;
}

/* The session as it comes back from its token. */
static struct burial_session through_token(struct burial_session session)
{
    uint32_t row[ROW];
    struct burial_written written = burial_write_token(session, row, ROW);
    expect(written.refusal == BURIAL_OK);
    struct burial_token_read read = burial_read_token(row, written.words, RING, PLOTS);
    expect(read.refusal == BURIAL_OK);
    return read.session;
}

/* The two stay as they are; what is refused is all zeros. */
static struct burial_token_read join_in(uint32_t offices, uint32_t plots, const struct burial_session *first,
                                        const struct burial_session *second)
{
    struct burial_session before[2] = { *first, *second };
    struct burial_token_read answer = burial_join_sessions(offices, plots, *first, *second);
    expect(same_session(first, &before[0]) && same_session(second, &before[1]));
    if (answer.refusal != BURIAL_OK)
        expect(same_session(&answer.session, &no_session));
    return answer;
}

static struct burial_session joined(const struct burial_session *first, const struct burial_session *second)
{
    struct burial_token_read answer = join_in(RING, PLOTS, first, second);
    expect(answer.refusal == BURIAL_OK);
    return answer.session;
}

/* Refused so, whichever of the two comes first. */
static void expect_refused(const struct burial_session *first, const struct burial_session *second,
                           uint32_t refusal)
{
    expect(join_in(RING, PLOTS, first, second).refusal == refusal);
    expect(join_in(RING, PLOTS, second, first).refusal == refusal);
}

/* The family writes at office 0; one goes on at office 1 and corrects it, the other at office 2. */
static void two_people(struct burial_session *family, struct burial_session *one, struct burial_session *other)
{
    open_ring();
    *family = burial_fresh_session(RING).session;
    writes(family, 0, 5, 709);
    *one = through_token(*family);
    *other = through_token(*family);
    writes(one, 1, 5, 710);
    writes(other, 2, 6, 1);
    writes(other, 2, 7, 2);
}

/* Whether a session carries these entries of two_people, by office and serial, and nothing behind them. */
static bool carries(const struct burial_session *session, const uint32_t *ids, size_t count)
{
    static const struct burial_entry no_entry;
    bool same = session->count == count;
    for (size_t i = 0; i < BURIAL_CARRIED; i++) {
        const struct burial_entry *own = &session->own[i];
        same &= i < count ? burial_id(own->office, own->serial) == ids[i]
                          : memcmp(own, &no_entry, sizeof no_entry) == 0;
    }
    return same;
}

static void test_two_people(void)
{
    static const uint32_t ids[] = { 0x001, 0x101, 0x201, 0x202 };
    struct burial_session family, one, other;
    two_people(&family, &one, &other);
    struct burial_session both = joined(&one, &other);
    expect(both.offices == RING && carries(&both, ids, 4));
    expect(both.clock[0] == 1 && both.clock[1] == 1 && both.clock[2] == 2 && both.clock[3] == 0);
    expect(memcmp(both.read, no_session.read, sizeof both.read) == 0);
    struct burial_session again = through_token(both);
    expect(same_session(&again, &both));
    end("two people go on with a copy each, and their tokens are joined");
    for (uint32_t own = 0; own < RING; own++)
        expect(reads(&again, own, 5, 710) && reads(&again, own, 6, 1) && reads(&again, own, 7, 2));
    writes(&again, 0, 6, 3);
    for (uint32_t own = 0; own < RING; own++)
        expect(reads(&again, own, 6, 3) && reads(&other, own, 6, 1) && reads(&one, own, 5, 710));
    end("what is joined reads what either wrote, and corrects it; the two go on by themselves");
}

static void test_swapped(void)
{
    static const uint32_t ids[] = { 0x001, 0x201, 0x202, 0x101 };
    struct burial_session family, one, other;
    two_people(&family, &one, &other);
    struct burial_session both = joined(&one, &other), swapped = joined(&other, &one);
    expect(swapped.offices == both.offices && carries(&swapped, ids, 4));
    expect(memcmp(swapped.clock, both.clock, sizeof both.clock) == 0);
    expect(memcmp(swapped.read, both.read, sizeof both.read) == 0);
    expect(reads(&both, 0, 5, 710) && reads(&swapped, 0, 5, 710));
    end("with the two swapped only the order of the entries is another");
}

/* Joined to this session, whichever comes first. */
static void expect_joined(const struct burial_session *first, const struct burial_session *second,
                          const struct burial_session *expected)
{
    struct burial_session both = joined(first, second), swapped = joined(second, first);
    expect(same_session(&both, expected) && same_session(&swapped, expected));
}

static void test_copies(void)
{
    struct burial_session family, one, other, fresh = burial_fresh_session(RING).session;
    two_people(&family, &one, &other);
    expect_joined(&fresh, &fresh, &fresh);
    expect_joined(&fresh, &one, &one);
    expect_joined(&other, &other, &other);
    expect_joined(&family, &one, &one);
    expect_joined(&family, &other, &other);
    end("with itself, with a fresh session and with an earlier copy it is the longer one");
}

/* One has read at office 2 what the other wrote there: its id stays read, and it is carried. */
static void test_read_and_own(void)
{
    struct burial_session family, one, other;
    two_people(&family, &one, &other);
    one.read[2] = 1;
    one.clock[2] = 32;
    struct burial_session both = joined(&one, &other), swapped = joined(&other, &one);
    expect(both.count == 4 && both.read[2] == 1 && both.clock[2] == 32);
    expect(swapped.count == 4 && swapped.read[2] == 1 && swapped.clock[2] == 32);
    end("what one has read and the other wrote stays both");
}

static void test_behind(void)
{
    struct burial_session family, one, other, filled[2];
    two_people(&family, &one, &other);
    filled[0] = one;
    filled[1] = other;
    for (int i = 0; i < 2; i++)
        memset(&filled[i].own[filled[i].count], 0xA5, (BURIAL_CARRIED - filled[i].count) * sizeof one.own[0]);
    struct burial_session both = joined(&one, &other), same = joined(&filled[0], &filled[1]);
    expect(same_session(&both, &same));
    end("what stands behind the entries does not count, and comes back as zeros");
}

/* So many entries of an office that is opened for them. */
static struct burial_session with_entries(uint32_t own, uint32_t count)
{
    struct burial_session session = burial_fresh_session(RING).session;
    open_ring();
    for (uint32_t i = 0; i < count; i++)
        writes(&session, own, i, i);
    return session;
}

static void test_bound(void)
{
    struct burial_session eight = with_entries(0, 8), eight_more = with_entries(1, 8), nine = with_entries(2, 9);
    struct burial_session all = with_entries(0, 16), one = with_entries(1, 1), all_more = with_entries(2, 16);
    expect(joined(&eight, &eight_more).count == 16);
    expect(joined(&eight, &all).count == 16 && joined(&all, &all).count == 16);
    expect_refused(&eight, &nine, BURIAL_SESSION_FULL);
    expect_refused(&all, &one, BURIAL_SESSION_FULL);
    expect_refused(&all, &all_more, BURIAL_SESSION_FULL);
    end("16 entries are carried, and over that it is refused 7");
}

/* Each part of the content by itself. Over 16 would be carried too, which comes later. */
static void test_two_contents(void)
{
    struct burial_session first = with_entries(0, 16), second = with_entries(1, 15), other;
    second.own[15] = first.own[0];
    second.count = 16;
    expect_refused(&first, &second, BURIAL_SESSION_FULL);
    second.read[2] = 4;
    uint32_t *const parts[] = {
        &other.own[15].plot, &other.own[15].value, &other.own[15].clock[1], &other.own[15].clock[2],
        &other.own[15].deps[2],
    };
    for (size_t i = 0; i < sizeof parts / sizeof parts[0]; i++) {
        other = second;
        *parts[i] ^= 4;
        expect_refused(&first, &other, BURIAL_DIFFERENT);
    }
    end("one entry with two contents is refused 11, before 7");
}

static void test_unsound(void)
{
    struct burial_session first = with_entries(0, 3), second = first, other;
    second.own[0].value++;
    expect_refused(&first, &second, BURIAL_DIFFERENT);
    uint32_t *const parts[] = {
        &other.offices, &other.clock[0], &other.clock[3], &other.read[3], &other.own[1].office,
        &other.own[1].serial, &other.own[1].plot, &other.own[1].value, &other.own[1].clock[0],
        &other.own[1].clock[1], &other.own[1].clock[3], &other.own[1].deps[0], &other.own[1].deps[3],
    };
    for (size_t i = 0; i < sizeof parts / sizeof parts[0]; i++) {
        other = first;
        *parts[i] = 0x10000040;
        expect_refused(&other, &second, BURIAL_BAD_CONTENT);
    }
    other = first;
    other.count = 17;
    expect_refused(&other, &second, BURIAL_BAD_CONTENT);
    other = first;
    other.own[2] = other.own[1];
    expect_refused(&other, &second, BURIAL_BAD_CONTENT);
    expect(join_in(RING, 2, &first, &first).refusal == BURIAL_BAD_CONTENT);
    expect(join_in(RING, 3, &first, &first).refusal == BURIAL_OK);
    expect(join_in(RING + 1, PLOTS, &first, &first).refusal == BURIAL_BAD_CONTENT);
    end("where either is not sound it is refused 3, before 11");
}

static void test_settings(void)
{
    static const uint32_t wrong[][2] = {
        { 0, 64 }, { 1, 64 }, { 9, 64 }, { 256 + 3, 64 }, { 0xFFFFFFFF, 64 }, { 3, 0 }, { 3, 65 }, { 3, 0xFFFFFFFF },
    };
    struct burial_session session = with_entries(0, 3), unsound = session;
    unsound.count = 17;
    for (size_t i = 0; i < sizeof wrong / sizeof wrong[0]; i++) {
        expect(join_in(wrong[i][0], wrong[i][1], &session, &session).refusal == BURIAL_BAD_SETTINGS);
        expect(join_in(wrong[i][0], wrong[i][1], &unsound, &no_session).refusal == BURIAL_BAD_SETTINGS);
    }
    end("settings out of range are refused 1, before 3");
}

int main(void)
{
    setvbuf(stdout, NULL, _IOLBF, 0);
    test_two_people();
    test_swapped();
    test_copies();
    test_read_and_own();
    test_behind();
    test_bound();
    test_two_contents();
    test_unsound();
    test_settings();
    return finish("join");
}
