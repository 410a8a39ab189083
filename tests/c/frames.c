/* Tests the calls on frames from C, through the header, with frames A and B of document 01. */
#include "burial_register.h"
#include "cases.h"
#include "report.h"

enum { MOST = 16 };

static const struct burial_frame content_a = {
    .offices = 3, .hops = 1, .entry = { .serial = 1, .plot = 5, .value = 709, .clock = { 1 } },
};
static const struct burial_frame content_b = {
    .offices = 3,
    .hops = 1,
    .entry = { .office = 1, .serial = 1, .plot = 6, .value = 1, .clock = { 1, 1 }, .deps = { 1 } },
};

static void to_bytes(const uint32_t *words, size_t len, uint8_t *bytes)
{
    for (size_t i = 0; i < 4 * len; i++)
        bytes[i] = (uint8_t)(words[i / 4] >> (8 * (i % 4)));
}

static uint32_t check_bytes(const uint8_t *bytes, size_t len, uint32_t offices, uint32_t plots)
{
    uint8_t *lent = exact(bytes, len);
    uint32_t refusal = burial_check_frame(lent, len, offices, plots);
    free(lent);
    return refusal;
}

static uint32_t check_words(const uint32_t *words, size_t len, uint32_t offices, uint32_t plots)
{
    uint8_t bytes[4 * MOST];
    to_bytes(words, len, bytes);
    return check_bytes(bytes, 4 * len, offices, plots);
}

static struct burial_frame_read read_words(const uint32_t *words, size_t len, uint32_t offices, uint32_t plots)
{
    uint32_t *lent = exact(words, 4 * len);
    struct burial_frame_read read = burial_read_frame(lent, len, offices, plots);
    free(lent);
    return read;
}

static bool same_frame(const struct burial_frame *a, const struct burial_frame *b)
{
    /* All fields are words, so there is no padding to differ. */
    return memcmp(a, b, sizeof *a) == 0;
}

/* Reading and checking both refuse, and the frame handed back is all zeros. */
static bool refused(const uint32_t *words, size_t len, uint32_t offices, uint32_t plots, uint32_t refusal)
{
    static const struct burial_frame zeros;
    struct burial_frame_read read = read_words(words, len, offices, plots);
    return read.refusal == refusal && same_frame(&read.frame, &zeros)
        && check_words(words, len, offices, plots) == refusal;
}

static bool accepted(const uint32_t *words, size_t len, uint32_t plots, const struct burial_frame *content)
{
    struct burial_frame_read read = read_words(words, len, 3, plots);
    return read.refusal == BURIAL_OK && same_frame(&read.frame, content)
        && check_words(words, len, 3, plots) == BURIAL_OK;
}

static void test_accepted(void)
{
    for (uint32_t plots = 7; plots <= 64; plots++) {
        expect(accepted(frame_a, LEN_A, plots, &content_a));
        expect(accepted(frame_b, LEN_B, plots, &content_b));
    }
    end("A and B are read");
    expect(refused(frame_a, LEN_A, 3, 5, BURIAL_NOT_A_FRAME));
    expect(refused(frame_b, LEN_B, 3, 6, BURIAL_NOT_A_FRAME));
    for (uint32_t offices = 2; offices <= 8; offices++)
        if (offices != 3)
            expect(refused(frame_a, LEN_A, offices, 64, BURIAL_NOT_A_FRAME));
    end("A and B are refused for other rings and plots");
}

/* Each word in turn, changed in several ways. */
static void damage(const uint32_t *words, size_t len)
{
    uint32_t copy[MOST];
    for (size_t at = 0; at < len; at++) {
        memcpy(copy, words, 4 * len);
        for (int bit = 0; bit < 32; bit++) {
            copy[at] = words[at] ^ 1u << bit;
            expect(refused(copy, len, 3, 64, BURIAL_NOT_A_FRAME));
        }
        const uint32_t others[] = { 0, ~words[at], words[at] + 1, words[at] - 1, 0xFFFFFFFF };
        for (size_t i = 0; i < sizeof others / sizeof *others; i++) {
            copy[at] = others[i];
            expect(refused(copy, len, 3, 64, BURIAL_NOT_A_FRAME));
        }
    }
}

static void test_damaged(void)
{
    damage(frame_a, LEN_A);
    damage(frame_b, LEN_B);
    end("one word changed is refused");
}

static void test_lengths(void)
{
    uint32_t words[MOST];
    for (size_t len = 0; len < LEN_B; len++)
        expect(refused(frame_b, len, 3, 64, BURIAL_NOT_A_FRAME));
    end("short is refused");
    for (size_t len = LEN_B + 1; len <= MOST; len++) {
        memset(words, 0, sizeof words);
        memcpy(words, frame_b, sizeof frame_b);
        expect(refused(words, len, 3, 64, BURIAL_NOT_A_FRAME));
        words[len - 1] = frame_b[LEN_B - 1];
        expect(refused(words, len, 3, 64, BURIAL_NOT_A_FRAME));
    }
    end("long is refused");
}

static void test_odd_bytes(void)
{
    uint8_t bytes[4 * MOST] = { 0 };
    to_bytes(frame_b, LEN_B, bytes);
    for (size_t len = 0; len <= 4 * LEN_B + 3; len++)
        if (len % 4 != 0) {
            expect(check_bytes(bytes, len, 3, 64) == BURIAL_NOT_A_FRAME);
            expect(check_bytes(bytes, len, 9, 64) == BURIAL_BAD_SETTINGS);
        }
    end("byte counts not divisible by 4 are refused 9, after 1");
}

static void test_settings(void)
{
    static const uint32_t bad_offices[] = { 0, 1, 9, 10, 256, 0x80000003, 0xFFFFFFFF };
    static const uint32_t bad_plots[] = { 0, 65, 66, 320, 0x80000040, 0xFFFFFFFF };
    for (size_t i = 0; i < sizeof bad_offices / 4; i++) {
        expect(refused(frame_a, LEN_A, bad_offices[i], 64, BURIAL_BAD_SETTINGS));
        expect(refused(frame_a, LEN_A - 1, bad_offices[i], 64, BURIAL_BAD_SETTINGS));
    }
    for (size_t i = 0; i < sizeof bad_plots / 4; i++) {
        expect(refused(frame_a, LEN_A, 3, bad_plots[i], BURIAL_BAD_SETTINGS));
        expect(refused(frame_a, 0, 3, bad_plots[i], BURIAL_BAD_SETTINGS));
    }
    end("settings out of range are refused 1 before 9");
}

/* Lends the first `room` words of a larger row: the rest shows a step beyond. */
static struct burial_written write_in(struct burial_frame frame, size_t room, uint32_t row[MOST])
{
    for (size_t i = 0; i < MOST; i++)
        row[i] = FILL;
    return burial_write_frame(frame, row, room);
}

static bool filled_from(const uint32_t row[MOST], size_t from)
{
    for (size_t i = from; i < MOST; i++)
        if (row[i] != FILL)
            return false;
    return true;
}

static void write_at_each_room(struct burial_frame frame, const uint32_t *words, size_t len)
{
    uint32_t row[MOST];
    for (size_t room = 0; room < MOST; room++) {
        struct burial_written written = write_in(frame, room, row);
        if (room < len)
            expect(written.refusal == BURIAL_NO_ROOM && written.words == 0 && filled_from(row, 0));
        else
            expect(written.refusal == BURIAL_OK && written.words == len
                   && memcmp(row, words, 4 * len) == 0 && filled_from(row, len));
    }
}

static void test_written(void)
{
    write_at_each_room(content_a, frame_a, LEN_A);
    write_at_each_room(content_b, frame_b, LEN_B);
    end("A and B are written: exact room, short, words beyond stay");
}

static void expect_bad(struct burial_frame frame)
{
    uint32_t row[MOST];
    for (size_t room = 0; room < MOST; room += 4) {
        struct burial_written written = write_in(frame, room, row);
        expect(written.refusal == BURIAL_BAD_CONTENT && written.words == 0 && filled_from(row, 0));
    }
}

/* Sets one field of B, by its number of words into the frame. */
static void expect_bad_field(size_t at, uint32_t value)
{
    struct burial_frame frame = content_b;
    uint32_t words[sizeof frame / 4];
    memcpy(words, &frame, sizeof frame);
    words[at] = value;
    memcpy(&frame, words, sizeof frame);
    expect_bad(frame);
}

static void test_bad_content(void)
{
    enum { OFFICES, HOPS, OFFICE, SERIAL, PLOT, VALUE, CLOCK, DEPS = CLOCK + 8 };
    static const struct burial_frame zeros;
    expect_bad(zeros);
    expect_bad_field(OFFICES, 1);
    expect_bad_field(OFFICES, 9);
    expect_bad_field(OFFICES, 2); /* B has one hop to go */
    expect_bad_field(HOPS, 2);
    expect_bad_field(HOPS, 0xFFFFFFFF);
    expect_bad_field(OFFICE, 2); /* its clock there is 0 */
    expect_bad_field(OFFICE, 3);
    expect_bad_field(OFFICE, 0xFFFFFFFF);
    expect_bad_field(SERIAL, 0);
    expect_bad_field(SERIAL, 2);
    expect_bad_field(SERIAL, 33);
    expect_bad_field(PLOT, 64);
    expect_bad_field(VALUE, 1u << 28);
    expect_bad_field(CLOCK, 33);
    expect_bad_field(CLOCK + 1, 2);
    expect_bad_field(CLOCK + 3, 1);
    expect_bad_field(CLOCK + 7, 1);
    expect_bad_field(DEPS + 1, 1); /* itself */
    expect_bad_field(DEPS + 3, 1);
    expect_bad_field(DEPS + 7, 0x80000000);
    end("content out of range is refused 3 before 8");
}

static void test_largest(void)
{
    struct burial_frame frame = { .offices = 8, .hops = 6 };
    struct burial_entry *entry = &frame.entry;
    *entry = (struct burial_entry){ .office = 7, .serial = 32, .plot = 63, .value = BURIAL_MAX_VALUE };
    for (int i = 0; i < 8; i++) {
        entry->clock[i] = 32;
        entry->deps[i] = i == 7 ? 0x7FFFFFFF : 0xFFFFFFFF;
    }
    uint32_t row[BURIAL_FRAME_WORDS];
    struct burial_written written = burial_write_frame(frame, row, BURIAL_FRAME_WORDS);
    expect(written.refusal == BURIAL_OK && written.words == BURIAL_FRAME_WORDS);
    struct burial_frame_read read = burial_read_frame(row, BURIAL_FRAME_WORDS, 8, 64);
    expect(read.refusal == BURIAL_OK && same_frame(&read.frame, &frame));
    written = burial_write_frame(frame, row, BURIAL_FRAME_WORDS - 1);
    expect(written.refusal == BURIAL_NO_ROOM && written.words == 0);
    end("the longest frame");
}

int main(void)
{
    /* So that a crash does not take the lines before it along. */
    setvbuf(stdout, NULL, _IOLBF, 0);
    test_accepted();
    test_damaged();
    test_lengths();
    test_odd_bytes();
    test_settings();
    test_written();
    test_bad_content();
    test_largest();
    return finish("frames");
}
