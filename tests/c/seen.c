/* Tests section 1 of the header, sentence by sentence: what is seen, where and when; what section 9 says
 * of a joint reading; and what is said of a frame that comes twice. A ring of three, in which a newcomer
 * looks in at each office. */
#include "burial_register.h"
#include "report.h"
#include "sessions.h"

enum { RING = 3, PLOTS = 64, STORE = BURIAL_STORE_WORDS, ROW = BURIAL_WRITE_WORDS, NONE = 0xFFFFFFFF };

/* A row of frames on its way. */
struct sent {
    uint32_t row[ROW];
    size_t words;
};

static uint32_t store[RING][STORE];

static struct burial_session fresh(void)
{
    return burial_fresh_session(RING).session;
}

static void open_ring(void)
{
    for (uint32_t own = 0; own < RING; own++)
        expect(burial_open_office(RING, own, PLOTS, store[own], STORE) == BURIAL_OK);
}

/* The value that a session reads. */
static uint32_t reads(struct burial_session *session, uint32_t own, uint32_t plot)
{
    struct burial_plot_found found = burial_lent_read_plot(store[own], STORE, session, plot);
    expect(found.refusal == BURIAL_OK);
    return found.found ? found.entry.value : NONE;
}

/* Whether a session that reads plots 5 and 6 jointly is handed back these values. */
static bool reads_both(struct burial_session *session, uint32_t own, uint32_t five, uint32_t six)
{
    static const uint32_t plots[] = { 5, 6 };
    uint32_t answer[6] = { 0 };
    expect(burial_lent_read_joint(store[own], STORE, session, plots, 2, answer, 6) == BURIAL_OK);
    return (answer[0] ? answer[1] : NONE) == five && (answer[3] ? answer[4] : NONE) == six;
}

/* The value that a newcomer reads; his reading shows nothing. */
static uint32_t shown(uint32_t own, uint32_t plot)
{
    static uint32_t before[STORE];
    struct burial_session newcomer = fresh();
    memcpy(before, store[own], sizeof before);
    uint32_t value = reads(&newcomer, own, plot);
    expect(memcmp(before, store[own], sizeof before) == 0);
    return value;
}

static struct sent writes(struct burial_session *session, uint32_t own, uint32_t plot, uint32_t value)
{
    struct sent sent;
    struct burial_written wrote = burial_lent_write(store[own], STORE, session, plot, value, sent.row, ROW);
    expect(wrote.refusal == BURIAL_OK);
    sent.words = wrote.words;
    return sent;
}

/* An office hears all frames of a row: those that it sends on. */
static struct sent hears(uint32_t own, const struct sent *sent)
{
    struct sent onward = { .words = 0 };
    size_t at, len;
    for (at = 0; (len = burial_frame_length(sent->row + at, sent->words - at, RING)) != 0; at += len) {
        struct burial_written written = burial_receive(store[own], STORE, sent->row + at, len,
                                                       onward.row + onward.words, ROW - onward.words);
        expect(written.refusal == BURIAL_OK);
        onward.words += written.words;
    }
    expect(at == sent->words);
    return onward;
}

static void test_journey(void)
{
    open_ring();
    struct burial_session writer = fresh();
    struct sent sent = writes(&writer, 0, 5, 709);
    expect(shown(0, 5) == NONE && reads(&writer, 0, 5) == 709);
    expect(reads(&writer, 1, 5) == 709 && reads(&writer, 2, 5) == 709);
    sent = hears(1, &sent);
    expect(sent.words != 0 && shown(1, 5) == NONE && shown(2, 5) == NONE);
    sent = hears(2, &sent);
    expect(sent.words == 0 && shown(2, 5) == 709);
    end("shown at the last office; its session sees it everywhere at once");
    expect(shown(0, 5) == NONE && shown(1, 5) == NONE);
    end("elsewhere hidden, though every frame has been heard");
}

/* After that: at office 1 by a reader, at office 0 by an entry that depends on it. */
static void test_later(void)
{
    struct burial_session reader = fresh();
    expect(reads(&reader, 2, 5) == 709 && shown(1, 5) == NONE);
    struct burial_session writer = reader;
    struct sent sent = writes(&writer, 1, 6, 1);
    expect(shown(1, 5) == NONE);
    expect(reads(&reader, 1, 40) == NONE && shown(1, 5) == 709 && shown(1, 6) == NONE);
    end("shown where a session that has read it reads, and not where it writes");
    sent = hears(2, &sent);
    expect(shown(2, 6) == NONE && shown(0, 5) == NONE);
    sent = hears(0, &sent);
    expect(sent.words == 0 && shown(0, 6) == 1 && shown(0, 5) == 709);
    end("shown with an entry that depends on it");
}

static void test_second_journey(void)
{
    open_ring();
    struct burial_session writer = fresh();
    struct sent first = writes(&writer, 0, 5, 709), second = writes(&writer, 1, 6, 1);
    second = hears(2, &second);
    second = hears(0, &second);
    expect(second.words == 0 && shown(0, 5) == 709 && shown(0, 6) == 1);
    first = hears(1, &first);
    first = hears(2, &first);
    expect(first.words == 0 && shown(2, 5) == 709 && shown(2, 6) == NONE);
    end("a carried entry has a second journey, and each ends at its own last office");
}

static void test_rank(void)
{
    open_ring();
    struct burial_session early = fresh(), late = fresh();
    struct sent sent = writes(&early, 0, 5, 709);
    struct sent onward = hears(1, &sent);
    struct sent later = writes(&late, 1, 5, 710);
    hears(2, &onward);
    later = hears(2, &later);
    later = hears(0, &later);
    expect(later.words == 0 && reads(&late, 1, 5) == 710);
    expect(reads(&late, 2, 5) == 709 && reads(&late, 1, 5) == 709);
    end("a later value loses to an older one that was hidden where it was written");
    struct burial_session corrects = fresh();
    expect(reads(&corrects, 2, 5) == 709);
    writes(&corrects, 2, 5, 711);
    expect(reads(&corrects, 2, 5) == 711 && reads(&corrects, 0, 5) == 711);
    end("a correction by one who has read it wins");
}

/* He writes at office 0 and at once anew at office 1: the correction's journey ends at office 0, that of the
 * first entry by itself at office 2. */
static void test_correction(void)
{
    open_ring();
    struct burial_session foreman = fresh(), visitor = fresh();
    struct sent first = writes(&foreman, 0, 5, 709), correction = writes(&foreman, 1, 5, 710);
    correction = hears(2, &correction);
    correction = hears(0, &correction);
    expect(correction.words == 0 && shown(0, 5) == 710);
    first = hears(1, &first);
    first = hears(2, &first);
    expect(first.words == 0 && shown(2, 5) == 709);
    for (uint32_t own = RING; own-- > 0;)
        expect(reads(&foreman, own, 5) == 710);
    end("an own entry corrected in another office: he reads the correction everywhere");
    expect(shown(1, 5) == 709 && shown(2, 5) == 709);
    for (uint32_t own = 0; own < RING; own++)
        expect(reads(&visitor, own, 5) == 710 && shown(own, 5) == 710);
    end("wherever a correction is shown, it is what is read, and not what it corrects");
}

/* He reads plot 5 at office 2, she writes plot 6 at office 1; joined, they correct both there. */
static void test_joined(void)
{
    open_ring();
    struct burial_session writer = fresh(), he = fresh(), she = he;
    struct sent sent = writes(&writer, 0, 5, 709);
    sent = hears(1, &sent);
    hears(2, &sent);
    expect(reads(&he, 2, 5) == 709);
    struct sent first = writes(&she, 1, 6, 1);
    struct burial_token_read answer = burial_join_sessions(RING, PLOTS, he, she);
    struct burial_session both = answer.session;
    expect(answer.refusal == BURIAL_OK && shown(1, 5) == NONE);
    for (uint32_t own = 0; own < RING; own++)
        expect(reads_both(&both, own, 709, 1));
    end("a joined session knows what either of the two knew");
    struct sent second = writes(&both, 1, 5, 710), third = writes(&both, 1, 6, 2);
    struct sent *const frames[] = { &first, &second, &third };
    for (int i = 0; i < 3; i++) {
        *frames[i] = hears(2, frames[i]);
        hears(0, frames[i]);
    }
    expect(shown(0, 5) == 710 && shown(0, 6) == 2);
    for (uint32_t own = 0; own < RING; own++)
        expect(reads_both(&both, own, 710, 2));
    end("a correction by a joined session wins over what either of the two had read or written");
}

/* Who writes at office 2 has not read what is shown there. */
static void test_unread(void)
{
    open_ring();
    struct burial_session early = fresh(), late = fresh(), visitor = fresh();
    struct sent sent = writes(&early, 0, 5, 709);
    sent = hears(1, &sent);
    hears(2, &sent);
    expect(shown(2, 5) == 709);
    sent = writes(&late, 2, 5, 711);
    sent = hears(0, &sent);
    sent = hears(1, &sent);
    expect(sent.words == 0 && reads(&visitor, 1, 5) == 711 && reads(&visitor, 2, 5) == 711);
    end("an entry ranks above what its office showed, read or not");
}

/* Two plots, one of them hers. */
static void test_own_jointly(void)
{
    open_ring();
    struct burial_session early = fresh(), late = fresh(), newcomer = fresh();
    struct sent sent = writes(&early, 0, 5, 709);
    for (uint32_t own = 0; own < RING; own++)
        expect(reads_both(&early, own, 709, NONE) && reads_both(&newcomer, own, NONE, NONE));
    end("jointly too a session sees its own entries at once, at every office");
    writes(&late, 1, 5, 710);
    writes(&late, 1, 6, 1);
    sent = hears(1, &sent);
    hears(2, &sent);
    expect(reads_both(&late, 1, 710, 1) && reads_both(&newcomer, 2, 709, NONE));
    expect(reads_both(&late, 2, 709, 1) && reads_both(&late, 1, 709, 1));
    end("jointly too the higher-ranked of the shown entry and the own one");
}

/* She reads plot 5 at office 2, where it is shown, and writes at office 1, where it is hidden; then she
 * corrects both plots. Whoever is handed back her entry of plot 6 gets that of plot 5 which she knew of. */
static void test_together(void)
{
    open_ring();
    struct burial_session writer = fresh(), she = fresh(), reader = fresh();
    struct sent sent = writes(&writer, 0, 5, 709);
    sent = hears(1, &sent);
    hears(2, &sent);
    expect(reads(&she, 2, 5) == 709);
    struct sent first = writes(&she, 1, 6, 1);
    expect(shown(0, 5) == NONE && reads_both(&she, 0, 709, 1));
    expect(shown(1, 5) == NONE && reads_both(&she, 1, 709, 1));
    struct sent second = writes(&she, 1, 5, 710), third = writes(&she, 1, 6, 2);
    for (uint32_t own = 0; own < RING; own++)
        expect(reads_both(&she, own, 710, 2));
    end("jointly an own entry goes together with what its writer had read or written");
    struct sent *const frames[] = { &first, &second, &third };
    for (int i = 0; i < 3; i++) {
        *frames[i] = hears(2, frames[i]);
        hears(0, frames[i]);
    }
    expect(shown(2, 6) == NONE && reads(&reader, 0, 6) == 2);
    expect(reads_both(&reader, 2, 710, 2) && reads_both(&reader, 1, 710, 2));
    end("jointly a shown entry goes together with what its writer had read or written");
}

/* On a copy of the office the plot is read by itself. */
static void expect_alone(const struct burial_session *session, uint32_t own, uint32_t plot)
{
    static uint32_t copy[STORE];
    struct burial_session single = *session, joint = *session;
    uint32_t answer[3] = { 0 };
    memcpy(copy, store[own], sizeof copy);
    struct burial_plot_found found = burial_lent_read_plot(copy, STORE, &single, plot);
    expect(found.refusal == BURIAL_OK);
    expect(burial_lent_read_joint(store[own], STORE, &joint, &plot, 1, answer, 3) == BURIAL_OK);
    expect(answer[0] == found.found && answer[1] == found.entry.value);
    expect(answer[2] == burial_id(found.entry.office, found.entry.serial));
    expect(memcmp(copy, store[own], sizeof copy) == 0 && same_session(&single, &joint));
}

/* Plots with a shown entry, with an own one above it and below it, with an own one alone, and with none. */
static void test_alone(void)
{
    open_ring();
    struct burial_session writer = fresh(), reader = fresh(), both = fresh();
    struct sent sent = writes(&writer, 0, 5, 709);
    writes(&both, 1, 5, 710);
    sent = hears(1, &sent);
    hears(2, &sent);
    expect(reads(&reader, 2, 5) == 709);
    writes(&reader, 1, 5, 711);
    writes(&both, 0, 6, 1);
    const struct burial_session sessions[] = { fresh(), writer, reader, both };
    for (uint32_t own = 0; own < RING; own++)
        for (int i = 0; i < 4; i++)
            for (uint32_t plot = 5; plot < 8; plot++)
                expect_alone(&sessions[i], own, plot);
    end("a joint reading of one plot is the reading of that plot");
}

static void test_again(void)
{
    static uint32_t before[STORE];
    open_ring();
    struct burial_session writer = fresh();
    struct sent sent = writes(&writer, 0, 5, 709);
    for (uint32_t own = 1; own < RING; own++) {
        struct sent onward = hears(own, &sent);
        memcpy(before, store[own], sizeof before);
        struct sent again = hears(own, &sent);
        expect(memcmp(before, store[own], sizeof before) == 0);
        expect(again.words == onward.words && memcmp(again.row, onward.row, 4 * onward.words) == 0);
        sent = onward;
    }
    end("a frame that comes twice changes nothing, and goes on once more");
}

int main(void)
{
    setvbuf(stdout, NULL, _IOLBF, 0);
    test_journey();
    test_later();
    test_second_journey();
    test_rank();
    test_correction();
    test_joined();
    test_unread();
    test_own_jointly();
    test_together();
    test_alone();
    test_again();
    return finish("seen");
}
