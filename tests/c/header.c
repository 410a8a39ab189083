/* Tests what the header says of itself: its constants, its inline helpers, the version, settings of
 * any store, and that a row of no words may be NULL in every call. */
#include "burial_register.h"
#include "cases.h"
#include "report.h"

enum { RING = 3, PLOTS = 64, STORE = BURIAL_STORE_WORDS };

static uint32_t store[STORE], row[BURIAL_WRITE_WORDS];

static struct burial_session opened(uint32_t own)
{
    expect(burial_open_office(RING, own, PLOTS, store, STORE) == BURIAL_OK);
    return burial_fresh_session(RING).session;
}

static void test_constants(void)
{
    expect(burial_store_need(BURIAL_MAX_OFFICES, 0, BURIAL_MAX_PLOTS).words == BURIAL_STORE_WORDS);
    expect(burial_store_need(BURIAL_MAX_OFFICES + 1, 0, 1).refusal == BURIAL_BAD_SETTINGS);
    expect(burial_store_need(BURIAL_MIN_OFFICES - 1, 0, 1).refusal == BURIAL_BAD_SETTINGS);
    expect(BURIAL_FRAME_WORDS == 4 + BURIAL_MAX_OFFICES + BURIAL_MAX_OFFICES * BURIAL_MAX_SERIAL - 1);
    expect(BURIAL_WRITE_WORDS == BURIAL_CARRIED * BURIAL_FRAME_WORDS);
    expect(BURIAL_ANSWER_WORDS == 3 * BURIAL_JOINT);
    expect(burial_version() == BURIAL_VERSION);
    end("constants and version");
}

static void test_ids(void)
{
    for (uint32_t office = 0; office < BURIAL_MAX_OFFICES; office++)
        for (uint32_t serial = 1; serial <= BURIAL_MAX_SERIAL; serial++) {
            uint32_t id = burial_id(office, serial);
            expect(id == 256 * office + serial);
            expect(burial_id_office(id) == office && burial_id_serial(id) == serial);
        }
    end("ids as words");
}

/* Each refusal has a text of its own, and there is one for all other numbers, 13 the first of them. */
static void test_texts(void)
{
    expect(BURIAL_MISSING == 12);
    for (uint32_t i = 0; i <= 13; i++)
        for (uint32_t j = 0; j < i; j++)
            expect(strcmp(burial_refusal_text(i), burial_refusal_text(j)) != 0);
    expect(strcmp(burial_refusal_text(13), "no refusal of this library") == 0);
    expect(burial_refusal_text(14) == burial_refusal_text(13));
    expect(burial_refusal_text(0xFFFFFFFF) == burial_refusal_text(13));
    end("refusals as text, and 13 is none");
}

/* A write of a session that carries entries from elsewhere; its row is cut into frames of the ring. */
static void test_cutting(void)
{
    struct burial_session session = opened(0);
    for (uint32_t i = 0; i < 5; i++)
        expect(burial_lent_write(store, STORE, &session, i, i, row, BURIAL_WRITE_WORDS).refusal == BURIAL_OK);
    opened(1);
    struct burial_written wrote = burial_lent_write(store, STORE, &session, 5, 5, row, BURIAL_WRITE_WORDS);
    expect(wrote.refusal == BURIAL_OK && session.count == 6);
    size_t at = 0, len;
    uint32_t frames = 0;
    while ((len = burial_frame_length(row + at, wrote.words - at, RING)) != 0) {
        struct burial_frame_read read = burial_read_frame(row + at, len, RING, PLOTS);
        expect(read.refusal == BURIAL_OK && read.frame.entry.plot == frames);
        expect(burial_frame_length(row + at, len - 1, RING) == 0);
        at += len;
        frames++;
    }
    expect(frames == 6 && at == wrote.words);
    expect(burial_frame_length(NULL, 0, RING) == 0);
    end("a row is cut into its frames");
}

/* Of every ring, own number and some plots; then of the same store with each word of its head changed. */
static void test_settings(void)
{
    static const uint32_t plots[] = { 1, 2, 63, 64 };
    for (uint32_t offices = 2; offices <= 8; offices++)
        for (uint32_t own = 0; own < offices; own++)
            for (size_t i = 0; i < sizeof plots / 4; i++) {
                expect(burial_open_office(offices, own, plots[i], store, STORE) == BURIAL_OK);
                struct burial_settings said = burial_store_settings(store, STORE);
                expect(said.refusal == BURIAL_OK && said.offices == offices);
                expect(said.own == own && said.plots == plots[i]);
            }
    opened(1);
    for (size_t at = 3; at < 19; at++) {
        store[at] ^= 0x80000000;
        struct burial_settings said = burial_store_settings(store, STORE);
        expect(said.refusal == BURIAL_BAD_STORE && said.offices + said.own + said.plots == 0);
        store[at] ^= 0x80000000;
    }
    expect(burial_store_settings(store, 19 + 576 * RING - 1).refusal == BURIAL_BAD_STORE);
    expect(burial_store_settings(store, 19 + 576 * RING).refusal == BURIAL_OK);
    end("the settings of a store");
}

static void test_null_rows(void)
{
    struct burial_session session = opened(2);
    expect(burial_open_office(RING, 0, PLOTS, NULL, 0) == BURIAL_BAD_STORE);
    expect(burial_store_settings(NULL, 0).refusal == BURIAL_BAD_STORE);
    expect(burial_lent_write(store, STORE, &session, 5, 1, NULL, 0).refusal == BURIAL_NO_ROOM);
    expect(burial_lent_write(NULL, 0, &session, 5, 1, row, 9).refusal == BURIAL_BAD_STORE);
    expect(burial_write(store, STORE, session, 5, 1, NULL, 0).refusal == BURIAL_NO_ROOM);
    expect(burial_write(NULL, 0, session, 5, 1, NULL, 0).refusal == BURIAL_BAD_STORE);
    expect(burial_receive(store, STORE, NULL, 0, NULL, 0).refusal == BURIAL_NOT_A_FRAME);
    expect(burial_receive(store, STORE, frame_a, LEN_A, NULL, 0).refusal == BURIAL_NO_ROOM);
    expect(burial_receive(NULL, 0, frame_a, LEN_A, NULL, 0).refusal == BURIAL_BAD_STORE);
    expect(burial_lent_read_plot(NULL, 0, &session, 5).refusal == BURIAL_BAD_STORE);
    expect(burial_read_plot(NULL, 0, session, 5).refusal == BURIAL_BAD_STORE);
    expect(burial_lent_read_joint(store, STORE, &session, NULL, 0, NULL, 0) == BURIAL_OK);
    expect(burial_lent_read_joint(store, STORE, &session, &(uint32_t){ 5 }, 1, NULL, 0) == BURIAL_NO_ROOM);
    expect(burial_lent_read_joint(NULL, 0, &session, NULL, 0, NULL, 0) == BURIAL_BAD_STORE);
    expect(burial_read_joint(store, STORE, session, NULL, 0, NULL, 0).refusal == BURIAL_OK);
    expect(burial_read_joint(NULL, 0, session, NULL, 0, NULL, 0).refusal == BURIAL_BAD_STORE);
    expect(burial_read_token(NULL, 0, RING, PLOTS).refusal == BURIAL_NOT_A_FRAME);
    expect(burial_write_token(session, NULL, 0).refusal == BURIAL_NO_ROOM);
    expect(burial_read_frame(NULL, 0, RING, PLOTS).refusal == BURIAL_NOT_A_FRAME);
    expect(burial_check_frame(NULL, 0, RING, PLOTS) == BURIAL_NOT_A_FRAME);
    struct burial_frame frame = burial_read_frame(frame_a, LEN_A, RING, PLOTS).frame;
    expect(burial_write_frame(frame, NULL, 0).refusal == BURIAL_NO_ROOM);
    end("a row of no words may be NULL, in every call");
}

int main(void)
{
    setvbuf(stdout, NULL, _IOLBF, 0);
    test_constants();
    test_ids();
    test_texts();
    test_cutting();
    test_settings();
    test_null_rows();
    return finish("header");
}
