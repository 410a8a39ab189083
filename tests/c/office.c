/* Tests the calls on offices, sessions and tokens from C, through the header, with the cases of
 * document 01. */
#include "burial_register.h"
#include "cases.h"
#include "report.h"
#include "sessions.h"

/* A and B on their last way: none still to hear. */
static const uint32_t last_a[] = {
    0x10010300, 0x30000005, 0x400002C5, 0x50000001, 0x50000000, 0x50000000, 0xF00105CB,
};
static const uint32_t last_b[] = {
    0x11010301, 0x30000006, 0x40000001, 0x50000001, 0x50000001, 0x50000000, 0x60000001, 0xF101030B,
};
enum { BOTH = LEN_A + LEN_B, ROW = 128 };

/* An office and a copy of its store, to see what a call changes. */
struct office {
    uint32_t *store, *before;
    size_t words;
};

static uint32_t *filled(size_t words)
{
    uint32_t *row = malloc(4 * words + 1);
    if (row == NULL)
        exit(2);
    for (size_t i = 0; i < words; i++)
        row[i] = FILL;
    return row;
}

static void keep(struct office *office)
{
    memcpy(office->before, office->store, 4 * office->words);
}

static bool unchanged(const struct office *office)
{
    return memcmp(office->before, office->store, 4 * office->words) == 0;
}

/* The store has exactly the words that it needs. */
static struct office opened(uint32_t offices, uint32_t own)
{
    struct burial_need need = burial_store_need(offices, own, 64);
    struct office office = { filled(need.words), filled(need.words), need.words };
    expect(need.refusal == BURIAL_OK);
    expect(burial_open_office(offices, own, 64, office.store, office.words) == BURIAL_OK);
    keep(&office);
    return office;
}

static void closed(struct office office)
{
    free(office.store);
    free(office.before);
}

static struct burial_session fresh(uint32_t offices)
{
    struct burial_token_read read = burial_fresh_session(offices);
    expect(read.refusal == BURIAL_OK && read.session.offices == offices && read.session.count == 0);
    return read.session;
}

static bool filled_from(const uint32_t *row, size_t from, size_t len)
{
    for (size_t i = from; i < len; i++)
        if (row[i] != FILL)
            return false;
    return true;
}

static bool is_id(const struct burial_entry *entry, uint32_t office, uint32_t serial)
{
    return entry->office == office && entry->serial == serial;
}

/* Writes with a row of `room` words; on refusal nothing may have changed. The row stays in `row`. */
static struct burial_wrote write_in(struct office *office, struct burial_session *session, uint32_t plot,
                                    uint32_t value, size_t room, uint32_t row[ROW])
{
    uint32_t *lent = filled(room);
    keep(office);
    struct burial_wrote wrote =
        burial_write(office->store, office->words, *session, plot, value, lent, room);
    if (wrote.refusal != BURIAL_OK)
        expect(wrote.words == 0 && unchanged(office) && same_session(&wrote.session, session)
               && filled_from(lent, 0, room));
    else
        expect(wrote.words <= room && filled_from(lent, wrote.words, room));
    memcpy(row, lent, 4 * room);
    free(lent);
    *session = wrote.session;
    return wrote;
}

static uint32_t write_one(struct office *office, struct burial_session *session, uint32_t plot, uint32_t value)
{
    uint32_t row[ROW];
    return write_in(office, session, plot, value, ROW, row).refusal;
}

static struct burial_read read_one(struct office *office, struct burial_session *session, uint32_t plot)
{
    keep(office);
    struct burial_read read = burial_read_plot(office->store, office->words, *session, plot);
    if (read.refusal != BURIAL_OK)
        expect(read.found == 0 && unchanged(office) && same_session(&read.session, session));
    *session = read.session;
    return read;
}

static uint32_t joint_in(struct office *office, struct burial_session *session, const uint32_t *plots,
                         size_t count, uint32_t *answer, size_t room)
{
    keep(office);
    struct burial_joint joint =
        burial_read_joint(office->store, office->words, *session, plots, count, answer, room);
    if (joint.refusal != BURIAL_OK)
        expect(unchanged(office) && same_session(&joint.session, session) && filled_from(answer, 0, room));
    *session = joint.session;
    return joint.refusal;
}

/* Hears a frame with a row of `room` words for what goes on. */
static struct burial_written hear_in(struct office *office, const uint32_t *frame, size_t len, size_t room,
                                     uint32_t row[ROW])
{
    uint32_t *lent = exact(frame, 4 * len), *out = filled(room);
    keep(office);
    struct burial_written heard = burial_receive(office->store, office->words, lent, len, out, room);
    if (heard.refusal != BURIAL_OK)
        expect(heard.words == 0 && unchanged(office));
    expect(memcmp(lent, frame, 4 * len) == 0 && filled_from(out, heard.words, room));
    memcpy(row, out, 4 * room);
    free(lent);
    free(out);
    return heard;
}

/* A frame that must go on as `expected`, or end here where that is empty. */
static void hears(struct office *office, const uint32_t *frame, size_t len, const uint32_t *expected,
                  size_t expected_len)
{
    uint32_t row[ROW];
    struct burial_written heard = hear_in(office, frame, len, expected_len, row);
    expect(heard.refusal == BURIAL_OK && heard.words == expected_len);
    expect(expected_len == 0 || memcmp(row, expected, 4 * expected_len) == 0);
}

static void expect_none(struct burial_read read)
{
    static const struct burial_entry zeros;
    expect(read.refusal == BURIAL_OK && read.found == 0);
    expect(memcmp(&read.entry, &zeros, sizeof zeros) == 0);
}

static void expect_found(struct burial_read read, uint32_t value, uint32_t office, uint32_t serial)
{
    expect(read.refusal == BURIAL_OK && read.found == 1 && read.entry.value == value);
    expect(is_id(&read.entry, office, serial));
}

static void test_open(void)
{
    for (uint32_t offices = 2; offices <= 8; offices++)
        for (uint32_t own = 0; own < offices; own++) {
            struct office office = opened(offices, own);
            expect(office.words <= 8192 && filled_from(office.store, 19, office.words));
            struct burial_session session = fresh(offices);
            for (uint32_t plot = 0; plot < 64; plot++)
                expect_none(read_one(&office, &session, plot));
            expect(unchanged(&office));
            closed(office);
        }
    end("an opened office presents nothing");
}

static void test_need(void)
{
    for (uint32_t offices = 2; offices <= 8; offices++) {
        size_t need = burial_store_need(offices, 0, 64).words;
        uint32_t *store = filled(need);
        for (size_t words = 0; words < need; words += words + 40 < need ? 37 : 1)
            expect(burial_open_office(offices, 0, 64, store, words) == BURIAL_BAD_STORE
                   && filled_from(store, 0, need));
        expect(burial_open_office(offices, 0, 64, store, need) == BURIAL_OK);
        struct burial_session session = fresh(offices);
        struct burial_read read = burial_read_plot(store, need - 1, session, 0);
        expect(read.refusal == BURIAL_BAD_STORE && same_session(&read.session, &session));
        free(store);
    }
    end("a store shorter than its need is refused 2");
}

static void bad_settings(uint32_t offices, uint32_t own, uint32_t plots)
{
    uint32_t *store = filled(8192);
    struct burial_need need = burial_store_need(offices, own, plots);
    expect(need.refusal == BURIAL_BAD_SETTINGS && need.words == 0);
    expect(burial_open_office(offices, own, plots, store, 8192) == BURIAL_BAD_SETTINGS);
    expect(burial_open_office(offices, own, plots, store, 0) == BURIAL_BAD_SETTINGS);
    expect(filled_from(store, 0, 8192));
    free(store);
}

static void test_settings(void)
{
    static const struct burial_session zeros;
    static const uint32_t rings[] = { 0, 1, 9, 10, 256, 0xFFFFFFFF };
    for (size_t i = 0; i < sizeof rings / 4; i++) {
        struct burial_token_read session = burial_fresh_session(rings[i]);
        expect(session.refusal == BURIAL_BAD_SETTINGS && same_session(&session.session, &zeros));
        session = burial_read_token(frame_a, LEN_A, rings[i], 64);
        expect(session.refusal == BURIAL_BAD_SETTINGS && same_session(&session.session, &zeros));
        bad_settings(rings[i], 0, 64);
    }
    bad_settings(3, 3, 64);
    bad_settings(3, 0xFFFFFFFF, 64);
    bad_settings(3, 0, 0);
    bad_settings(3, 0, 65);
    end("a ring of 9 and other settings out of range are refused 1");
}

/* The script of document 01, a call for each line that makes one. */
static void test_script(void)
{
    struct office office[3] = { opened(3, 0), opened(3, 1), opened(3, 2) };
    struct burial_session errand[2] = { fresh(3), fresh(3) };
    uint32_t row[ROW];

    /* W 0 5 709 */
    struct burial_wrote wrote = write_in(&office[0], &errand[0], 5, 709, LEN_A, row);
    expect(wrote.refusal == BURIAL_OK && wrote.words == LEN_A && memcmp(row, frame_a, sizeof frame_a) == 0);
    expect(errand[0].count == 1 && is_id(&errand[0].own[0], 0, 1));
    /* M 0 1, W 0 6 1 */
    wrote = write_in(&office[1], &errand[0], 6, 1, BOTH, row);
    expect(wrote.refusal == BURIAL_OK && wrote.words == BOTH);
    expect(memcmp(row, frame_a, sizeof frame_a) == 0 && memcmp(row + LEN_A, frame_b, sizeof frame_b) == 0);
    expect(errand[0].count == 2 && is_id(&errand[0].own[1], 1, 1));
    /* R 1 6 */
    expect_none(read_one(&office[0], &errand[1], 6));
    /* H 2, H 2, H 0, H 0 */
    hears(&office[2], row, LEN_A, last_a, LEN_A);
    hears(&office[2], row + LEN_A, LEN_B, last_b, LEN_B);
    hears(&office[0], last_a, LEN_A, NULL, 0);
    hears(&office[0], last_b, LEN_B, NULL, 0);
    /* R 1 6, M 1 2, R 1 5 */
    expect_found(read_one(&office[0], &errand[1], 6), 1, 1, 1);
    expect_found(read_one(&office[2], &errand[1], 5), 709, 0, 1);
    for (int i = 0; i < 3; i++)
        closed(office[i]);
    end("the eleven lines, with frames A and B word for word");
}

/* A frame of office 1 whose value gives its check this payload. */
static struct burial_frame with_check(uint32_t offices, uint32_t hops, uint32_t check)
{
    struct burial_frame frame = { .offices = offices, .hops = hops };
    uint32_t head = 1u << 24 | 1u << 16 | hops << 12 | offices << 8, plot = 7, clock = 1;
    frame.entry.office = 1;
    frame.entry.serial = 1;
    frame.entry.plot = plot;
    frame.entry.value = (check - head - plot - clock) & BURIAL_MAX_VALUE;
    frame.entry.clock[1] = clock;
    return frame;
}

/* The head loses a hop, 4,096 of its payload: a check below that goes round. */
static void test_goes_on(void)
{
    static const uint32_t checks[] = { 0, 1, 4095, 4096, 4097, BURIAL_MAX_VALUE };
    uint32_t row[ROW], expected[ROW], longer[ROW];
    for (uint32_t offices = 3; offices <= 8; offices++)
        for (uint32_t hops = 1; hops <= offices - 2; hops++)
            for (size_t i = 0; i < sizeof checks / 4; i++) {
                struct office office = opened(offices, 0);
                struct burial_frame frame = with_check(offices, hops, checks[i]);
                size_t len = burial_write_frame(frame, row, ROW).words;
                expect(len == offices + 4 && row[len - 1] == (0xF0000000 | checks[i]));
                frame.hops--;
                expect(burial_write_frame(frame, expected, ROW).words == len);
                hears(&office, row, len, expected, len);
                /* It is held now, and goes on all the same; a longer row keeps its words. */
                struct burial_written again = hear_in(&office, row, len, len + 5, longer);
                expect(again.words == len && memcmp(longer, expected, 4 * len) == 0);
                closed(office);
            }
    end("a frame goes on with one fewer still to hear, also where its check goes round");
}

static void test_made(void)
{
    struct office office = opened(2, 1);
    for (uint32_t serial = 1; serial <= 32; serial++) {
        struct burial_session session = fresh(2);
        expect(write_one(&office, &session, serial, serial) == BURIAL_OK);
        expect(session.count == 1 && is_id(&session.own[0], 1, serial));
    }
    struct burial_session session = fresh(2);
    expect(write_one(&office, &session, 0, 1) == BURIAL_OFFICE_FULL);
    closed(office);
    end("32 entries are made and the 33rd is refused 6");
}

static void test_carried(void)
{
    struct office office = opened(2, 0);
    struct burial_session session = fresh(2), other = fresh(2);
    for (uint32_t count = 1; count <= 16; count++) {
        expect(write_one(&office, &session, 0, count) == BURIAL_OK);
        expect(session.count == count);
    }
    expect(write_one(&office, &session, 0, 17) == BURIAL_SESSION_FULL);
    /* 7 comes before 6. */
    for (uint32_t count = 1; count <= 16; count++)
        expect(write_one(&office, &other, 0, count) == BURIAL_OK);
    expect(write_one(&office, &session, 0, 17) == BURIAL_SESSION_FULL);
    closed(office);
    end("16 entries are carried and the 17th is refused 7");
}

static void test_value(void)
{
    struct office office = opened(3, 2);
    struct burial_session session = fresh(3);
    expect(write_one(&office, &session, 63, 1u << 28) == BURIAL_BAD_VALUE);
    expect(write_one(&office, &session, 63, 0xFFFFFFFF) == BURIAL_BAD_VALUE);
    expect(write_one(&office, &session, 64, 1u << 28) == BURIAL_BAD_PLOT);
    expect(write_one(&office, &session, 63, BURIAL_MAX_VALUE) == BURIAL_OK);
    expect_found(read_one(&office, &session, 63), BURIAL_MAX_VALUE, 2, 1);
    expect(read_one(&office, &session, 64).refusal == BURIAL_BAD_PLOT);
    closed(office);
    end("the value 2^28 - 1 is written and 2^28 is refused 5");
}

static void test_room(void)
{
    struct office first = opened(3, 0), second = opened(3, 1);
    struct burial_session session = fresh(3), reader = fresh(3);
    uint32_t row[ROW], answer[6];
    for (size_t room = 0; room < LEN_A; room++) {
        expect(write_in(&first, &session, 5, 709, room, row).refusal == BURIAL_NO_ROOM);
        expect(hear_in(&second, frame_a, LEN_A, room, row).refusal == BURIAL_NO_ROOM);
    }
    expect(write_in(&first, &session, 5, 709, LEN_A, row).refusal == BURIAL_OK);
    for (size_t room = 0; room < BOTH; room++)
        expect(write_in(&second, &session, 6, 1, room, row).refusal == BURIAL_NO_ROOM);
    expect(write_in(&second, &session, 6, 1, BOTH, row).refusal == BURIAL_OK);
    static const uint32_t plots[] = { 5, 6 };
    memset(answer, 0xA5, sizeof answer);
    for (size_t room = 0; room < 6; room++)
        expect(joint_in(&first, &reader, plots, 2, answer, room) == BURIAL_NO_ROOM);
    expect(joint_in(&first, &reader, plots, 2, answer, 6) == BURIAL_OK);
    closed(first);
    closed(second);
    end("a row one word short is refused 8 and nothing has changed");
}

/* A joint reading that answers these words, and leaves the row beyond them. */
static void expect_joint(struct office *office, struct burial_session *session, const uint32_t *plots,
                         size_t count, const uint32_t *expected)
{
    uint32_t answer[51];
    memset(answer, 0xA5, sizeof answer);
    expect(joint_in(office, session, plots, count, answer, 51) == BURIAL_OK);
    expect(memcmp(answer, expected, 12 * count) == 0 && filled_from(answer, 3 * count, 51));
}

/* Whether these ids of office 0 are all that a session has read. */
static bool has_read(const struct burial_session *session, uint32_t ids)
{
    const uint32_t read[8] = { ids };
    return memcmp(session->read, read, sizeof read) == 0;
}

static void test_joint(void)
{
    struct office office = opened(3, 1);
    struct burial_session reader = fresh(3);
    static const uint32_t plots[17] = { 4, 5, 4 };
    static const uint32_t none_then_a[9] = { 0, 0, 0, 1, 709, 1, 0, 0, 0 };
    uint32_t answer[51];
    memset(answer, 0xA5, sizeof answer);
    hears(&office, last_a, LEN_A, NULL, 0);
    expect(joint_in(&office, &reader, plots, 17, answer, 51) == BURIAL_BAD_PLOT);
    expect_joint(&office, &reader, plots, 3, none_then_a);
    expect(has_read(&reader, 1) && reader.clock[0] == 1);
    closed(office);
    end("a joint reading, with a plot twice");
}

/* A session at office 1 has a write on plot 5 before A is shown there, and one after. */
static void test_joint_own(void)
{
    struct office office = opened(3, 1);
    struct burial_session session = fresh(3), newcomer = fresh(3);
    static const uint32_t plots[] = { 5, 6, 7, 5, 6 };
    static const uint32_t alone[] = { 1, 3, 0x101, 0, 0, 0, 0, 0, 0, 1, 3, 0x101, 0, 0, 0 };
    static const uint32_t below[] = { 1, 709, 1, 1, 4, 0x102, 0, 0, 0, 1, 709, 1, 1, 4, 0x102 };
    static const uint32_t above[] = { 1, 5, 0x103, 1, 4, 0x102, 0, 0, 0, 1, 5, 0x103, 1, 4, 0x102 };
    static const uint32_t shown[] = { 1, 709, 1, 0, 0, 0, 0, 0, 0, 1, 709, 1, 0, 0, 0 };
    expect(write_one(&office, &session, 5, 3) == BURIAL_OK);
    expect_joint(&office, &session, plots, 5, alone);
    expect(has_read(&session, 0) && unchanged(&office));
    end("jointly an own entry is handed back where none is shown");
    hears(&office, last_a, LEN_A, NULL, 0);
    expect(write_one(&office, &session, 6, 4) == BURIAL_OK);
    expect_joint(&office, &session, plots, 5, below);
    expect(has_read(&session, 1) && session.clock[0] == 1);
    end("jointly an own entry below the shown one gives way");
    expect(write_one(&office, &session, 5, 5) == BURIAL_OK);
    expect_joint(&office, &session, plots, 5, above);
    expect(has_read(&session, 1) && unchanged(&office));
    expect_joint(&office, &newcomer, plots, 5, shown);
    end("jointly an own entry above the shown one is handed back, and only the shown one is read");
    closed(office);
}

/* An own entry of A's name and clock, and with another value, is no entry above A. */
static void test_joint_tie(void)
{
    struct office office = opened(3, 1);
    struct burial_session session = fresh(3);
    static const uint32_t plots[] = { 5 }, a[] = { 1, 709, 1 }, own[] = { 1, 710, 1 };
    session.own[0] = burial_read_frame(frame_a, LEN_A, 3, 64).frame.entry;
    session.own[0].value = 710;
    session.count = 1;
    expect_joint(&office, &session, plots, 1, own);
    hears(&office, last_a, LEN_A, NULL, 0);
    expect_joint(&office, &session, plots, 1, a);
    expect(has_read(&session, 1));
    closed(office);
    end("jointly an own entry that ties with the shown one gives way");
}

/* An own entry on each of 16 plots, over A on plot 5; and a list without any. */
static void test_joint_sixteen(void)
{
    struct office office = opened(3, 1);
    struct burial_session session = fresh(3);
    uint32_t plots[16], expected[48];
    hears(&office, last_a, LEN_A, NULL, 0);
    for (uint32_t i = 0; i < 16; i++) {
        const uint32_t words[] = { 1, 100 + i, burial_id(1, i + 1) };
        expect(write_one(&office, &session, i, 100 + i) == BURIAL_OK);
        memcpy(expected + 3 * i, words, sizeof words);
        plots[i] = i;
    }
    struct burial_session before = session;
    expect_joint(&office, &session, plots, 0, expected);
    expect(unchanged(&office) && same_session(&session, &before));
    expect_joint(&office, &session, plots, 16, expected);
    expect(unchanged(&office) && has_read(&session, 1) && session.count == 16);
    closed(office);
    end("jointly 16 own entries are handed back, and of an empty list nothing");
}

/* Each call on a store: the refusal of all, or a number that none gives. */
static uint32_t refusal_of_all(struct office *office, struct burial_session session)
{
    static const uint32_t plots[] = { 5 };
    uint32_t row[ROW], answer[3] = { FILL, FILL, FILL };
    struct burial_session copies[3] = { session, session, session };
    uint32_t refusal = read_one(office, &copies[0], 5).refusal;
    bool same = joint_in(office, &copies[1], plots, 1, answer, 3) == refusal;
    same &= write_one(office, &copies[2], 5, 1) == refusal;
    same &= hear_in(office, frame_a, LEN_A, ROW, row).refusal == refusal;
    return same ? refusal : 99;
}

/* Opening and hearing write every word that counts; a damaged one is refused, the others mean nothing. */
static void test_damaged(void)
{
    struct office office = opened(3, 1), trial = opened(3, 1);
    struct burial_session reader = fresh(3);
    size_t refused = 0;
    hears(&office, last_a, LEN_A, NULL, 0);
    for (size_t at = 0; at < office.words; at++) {
        bool counts = office.store[at] != FILL;
        memcpy(trial.store, office.store, 4 * office.words);
        trial.store[at] = 0xFFFFFFFF;
        uint32_t refusal = refusal_of_all(&trial, reader);
        expect(refusal == (counts ? BURIAL_BAD_STORE : BURIAL_OK));
        refused += refusal == BURIAL_BAD_STORE;
    }
    expect(refused > 19);
    memset(trial.store, 0, 4 * trial.words);
    expect(refusal_of_all(&trial, reader) == BURIAL_BAD_STORE);
    closed(office);
    closed(trial);
    end("a damaged store is refused 2 and nothing has changed");
}

static struct burial_token_read read_token(const uint32_t *words, size_t len, uint32_t plots)
{
    uint32_t *lent = exact(words, 4 * len);
    struct burial_token_read read = burial_read_token(lent, len, 3, plots);
    free(lent);
    return read;
}

static bool token_refused(const uint32_t *words, size_t len, uint32_t plots)
{
    static const struct burial_session zeros;
    struct burial_token_read read = read_token(words, len, plots);
    return read.refusal == BURIAL_NOT_A_FRAME && same_session(&read.session, &zeros);
}

/* A session that has read A at office 2 and carries its write there. */
static struct burial_session travelled(void)
{
    struct office office = opened(3, 2);
    struct burial_session session = fresh(3);
    hears(&office, last_a, LEN_A, NULL, 0);
    expect_found(read_one(&office, &session, 5), 709, 0, 1);
    expect(write_one(&office, &session, 6, 1) == BURIAL_OK);
    closed(office);
    return session;
}

static size_t write_token_at_each_room(const struct burial_session *session, uint32_t row[ROW])
{
    size_t words = burial_write_token(*session, row, ROW).words;
    for (size_t room = 0; room <= words; room++) {
        uint32_t *lent = filled(room);
        struct burial_written written = burial_write_token(*session, lent, room);
        if (room < words)
            expect(written.refusal == BURIAL_NO_ROOM && written.words == 0 && filled_from(lent, 0, room));
        else
            expect(written.refusal == BURIAL_OK && memcmp(lent, row, 4 * words) == 0);
        free(lent);
    }
    return words;
}

static void test_token(void)
{
    struct burial_session session = travelled();
    uint32_t row[ROW];
    size_t words = write_token_at_each_room(&session, row);
    for (uint32_t plots = 7; plots <= 64; plots++) {
        struct burial_token_read read = read_token(row, words, plots);
        expect(read.refusal == BURIAL_OK && same_session(&read.session, &session));
    }
    expect(token_refused(row, words, 6)); /* it carries a write on plot 6 */
    expect(token_refused(row, words - 1, 64));
    for (size_t at = 0; at < words; at++)
        for (int bit = 0; bit < 32; bit++) {
            row[at] ^= 1u << bit;
            expect(token_refused(row, words, 64));
            row[at] ^= 1u << bit;
        }
    end("a token is written and read back; one word changed is refused 9");
    session.count = 17;
    struct burial_written written = burial_write_token(session, row, ROW);
    expect(written.refusal == BURIAL_BAD_CONTENT && written.words == 0);
    end("a token that carries 17 is refused 3");
}

/* All ids read, and 16 own entries that depend on all others. */
static void test_longest_token(void)
{
    struct burial_session session = fresh(8);
    memset(session.read, 0xFF, sizeof session.read);
    session.count = 16;
    for (uint32_t i = 0; i < 16; i++) {
        struct burial_entry *entry = &session.own[i];
        *entry = (struct burial_entry){ .office = 7, .serial = i + 1, .plot = 63, .value = BURIAL_MAX_VALUE };
        entry->clock[7] = i + 1;
        memset(entry->deps, 0xFF, sizeof entry->deps);
        entry->deps[7] &= ~(1u << i);
    }
    uint32_t *row = filled(BURIAL_TOKEN_WORDS);
    struct burial_written written = burial_write_token(session, row, BURIAL_TOKEN_WORDS - 1);
    expect(written.refusal == BURIAL_NO_ROOM && filled_from(row, 0, BURIAL_TOKEN_WORDS));
    written = burial_write_token(session, row, BURIAL_TOKEN_WORDS);
    expect(written.refusal == BURIAL_OK && written.words == BURIAL_TOKEN_WORDS);
    struct burial_token_read read = burial_read_token(row, BURIAL_TOKEN_WORDS, 8, 64);
    expect(read.refusal == BURIAL_OK && same_session(&read.session, &session));
    free(row);
    end("the longest token");
}

/* The calls with the session lent do as those by value, and leave the session alone on refusal. */
static void test_lent(void)
{
    struct office by_value = opened(3, 0), lent = opened(3, 0);
    struct burial_session session = fresh(3), before;
    uint32_t *row = filled(ROW), *other = filled(ROW), answer[6];
    const uint32_t plots[] = { 5, 7 };

    struct burial_wrote wrote = burial_write(by_value.store, by_value.words, session, 5, 709, row, ROW);
    struct burial_written written = burial_lent_write(lent.store, lent.words, &session, 5, 709, other, ROW);
    expect(written.refusal == BURIAL_OK && written.words == LEN_A && memcmp(row, other, 4 * ROW) == 0);
    expect(same_session(&session, &wrote.session));
    expect(memcmp(by_value.store, lent.store, 4 * lent.words) == 0);

    struct burial_plot_found found = burial_lent_read_plot(lent.store, lent.words, &session, 5);
    expect(found.refusal == BURIAL_OK && found.found == 1 && found.entry.value == 709);
    expect(burial_lent_read_joint(lent.store, lent.words, &session, plots, 2, answer, 6) == BURIAL_OK);
    expect(answer[0] == 1 && answer[1] == 709 && answer[2] == 1 && answer[3] == 0);

    before = session;
    keep(&lent);
    expect(burial_lent_read_plot(lent.store, lent.words, &session, 64).refusal == BURIAL_BAD_PLOT);
    expect(burial_lent_read_joint(lent.store, lent.words, &session, plots, 2, answer, 5) == BURIAL_NO_ROOM);
    expect(burial_lent_write(lent.store, lent.words, &session, 5, BURIAL_MAX_VALUE + 1, other, ROW).refusal == BURIAL_BAD_VALUE);
    expect(same_session(&session, &before) && unchanged(&lent) && memcmp(row, other, 4 * ROW) == 0);
    free(row);
    free(other);
    closed(by_value);
    closed(lent);
    end("sessions lent");
}

int main(void)
{
    /* So that a crash does not take the lines before it along. */
    setvbuf(stdout, NULL, _IOLBF, 0);
    test_open();
    test_need();
    test_settings();
    test_script();
    test_goes_on();
    test_made();
    test_carried();
    test_value();
    test_room();
    test_joint();
    test_joint_own();
    test_joint_tie();
    test_joint_sixteen();
    test_damaged();
    test_token();
    test_longest_token();
    test_lent();
    return finish("office");
}
