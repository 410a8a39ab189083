/* The roaming burial register, for host programs in C (C99 or later) and C++ (C++11 or later) on
 * x86-64 Linux. Link with libhost.a; it needs nothing else.
 *
 * Two to eight offices of one house form a ring. Each holds its own copy of the register in a row
 * of words, its store, and answers from that copy alone, whether or not its lines are up. What it
 * writes goes round the ring in frames. A person who goes from office to office carries a
 * session, and is never shown less than that session has read or written. An office makes 32
 * entries, ever, so a ring takes 64 to 256; a house that needs more begins another ring.
 *
 * The host program owns memory, files and lines; this library has the calls in between. Each call
 * is proved to do what its description says, whatever the words in its rows; the inline helpers
 * of this file are plain C.
 *
 * CONTENTS
 *   1 What is seen, where and when      8 Hearing
 *   2 A whole program                   9 Reading
 *   3 The rules for a host             10 Tokens
 *   4 Bounds, version, refusals        11 Frames
 *   5 Opening                          12 The calls with the session by value
 *   6 Sessions                         13 Layout
 *   7 Writing
 *
 *
 * 1 WHAT IS SEEN, WHERE AND WHEN
 *
 * An entry says a value of a plot. An office holds entries, each hidden or shown. A reading hands
 * back the highest-ranked shown entry of the plot.
 *
 *   - A new entry is held hidden at the office where it is written. Its frame goes to the next
 *     office, which, unless it is the last, holds the entry hidden and sends the frame on.
 *   - The last office to hear a frame, the one before the office where the frame began, SHOWS the
 *     entry, together with all that it depends on, that is, what its writer had read or written,
 *     and what that depends on, and so on. By then every office holds it.
 *   - Every other office shows it later, or never: when a session that has read it reads there,
 *     or when an entry that depends on it is shown there. Until then it stays hidden there, so
 *     two offices may hand back different entries of one plot though every frame has been heard.
 *   - An entry that a session carries to an office which does not hold it yet begins a second
 *     journey there, with the session's next write; it is shown at the end of that one too.
 *   - A session sees its own entries at once, at every office, hidden or not: a reading hands
 *     back the higher-ranked of the shown entry and the session's own.
 *
 * Rank is the same at every office: clocks are compared number by number from office 0 on, and
 * the first greater number decides; where the clocks are equal, the higher office. In a ring whose
 * hosts keep the rules of section 3 an entry ranks above all that its session had read or written,
 * and above all that its office showed when it was written. So a correction counts, at whatever
 * office, if it is written in the session that wrote the entry or was handed it, in a copy of that
 * session, or in one that was joined of it and another: where the correction is shown, and
 * wherever a session reads that has written or read it, no reading hands back what it corrects.
 * But a later value can lose to an older one that was hidden where the later one was written, and
 * that its session did not know; a fresh session knows nothing, and a joined one what either of
 * the two knew. Who corrects a plot reads it first, where it is shown.
 *
 *
 * 2 A WHOLE PROGRAM
 *
 * Two offices in one process, and no files. It prints 'plot 5: 709 by 0.1'.
 *
 *     #include "burial_register.h"
 *     #include <stdio.h>
 *
 *     enum { RING = 2, PLOTS = 64, STORE = BURIAL_STORE_WORDS, ROW = BURIAL_WRITE_WORDS };
 *     static uint32_t store[RING][STORE], row[ROW];
 *
 *     int main(void)
 *     {
 *         for (uint32_t own = 0; own < RING; own++)
 *             if (burial_open_office(RING, own, PLOTS, store[own], STORE) != BURIAL_OK)
 *                 return 1;
 *         struct burial_session writer = burial_fresh_session(RING).session, visitor = writer;
 *         struct burial_written w = burial_lent_write(store[0], STORE, &writer, 5, 709, row, ROW);
 *         if (w.refusal != BURIAL_OK)
 *             return fprintf(stderr, "%s\n", burial_refusal_text(w.refusal)), 1;
 *         // Here a host keeps store[0], writer and the frames, as one, before it sends any.
 *         size_t at, len;
 *         for (at = 0; (len = burial_frame_length(row + at, w.words - at, RING)) != 0; at += len)
 *             if (burial_receive(store[1], STORE, row + at, len, NULL, 0).refusal != BURIAL_OK)
 *                 return 1;  // in a ring of two a frame does not go on: no row for it is needed
 *         struct burial_plot_found f = burial_lent_read_plot(store[1], STORE, &visitor, 5);
 *         printf("plot 5: %u by %u.%u\n", f.entry.value, f.entry.office, f.entry.serial);
 *         return f.found != 1;
 *     }
 *
 * The project's examples/c is a host with files, lines and crashes; examples/rust and
 * examples/python wrap the calls for those languages.
 *
 *
 * 3 THE RULES FOR A HOST
 *
 * Life of an office. Once: burial_store_need (or a row of BURIAL_STORE_WORDS),
 * burial_open_office, and keep the store. Each number of a ring is opened once, and all offices
 * of a ring have the same ring size and plots. At each start: take the store from where it is
 * kept, and ask burial_store_settings whether it is this office's. Then, for each call that
 * changes anything,
 *   call; KEEP what it changed; SEND the frames; tell the clerk.
 *
 * Keep before send. A call changes memory only. Before a frame goes out or a reply is told, keep
 * store, session and the frames to send where a crash or a power cut leaves them. Keep them as
 * one: one file, written beside the old one, synced, renamed, and the folder synced; with parts
 * in several files no order is safe. An office that sent an entry and forgot it makes another one
 * of the same name, and the ring refuses that for ever (BURIAL_DIFFERENT). A reading changes
 * store and session too. Keep these as well; if only they are lost the ring stays sound, but the
 * session may be shown less than before.
 *
 * A store may be moved, copied, saved and loaded: it has no pointers. Save its words as they are,
 * in the machine's own order: all of them, or the first burial_store_need words. Save a checksum
 * with them: the calls refuse a store that breaks a rule (BURIAL_BAD_STORE), but not every
 * damaged word breaks one. NEVER SET A STORE BACK to an older state, a backup or a copy of
 * yesterday: an office that has written or heard anything goes on from its latest store. A store
 * that is lost takes its office's number with it, and the ring needs a new beginning.
 *
 * Lines. The next office of office k is k + 1, of the last one 0; frames go to the next office
 * only. They are to be heard in the order in which the office before wrote them, and none may be
 * passed over: number the frames of a line, hear each after the one before, and drop a frame when
 * the next office has kept its store and the frame to send on. A gap is not always noticed:
 * BURIAL_MISSING is given only where an entry depends on one that is missing. A frame that comes
 * twice does no harm: hearing it again changes nothing, and gives the frame to send on once more.
 * Tell repeats by the number on the line and never by the entry: an entry has a frame for each
 * journey, and each frame goes its whole way. A line may be down for any time: nothing waits for
 * it but what it carries, which is nearly every new entry. Repeats apart, at most
 * 32 * offices * (offices - 1) frames ever cross one line.
 *
 * Rings. Stores, frames and tokens say the size of their ring, and not which ring it is; those of
 * another one of the same size are taken for this one's. Keep a mark of the ring with them, and
 * throw away all frames, tokens and sessions of a ring that was begun anew.
 *
 * Memory. The caller owns all of it. A call reads and writes only what it is lent, that is, what
 * it gets a pointer to, keeps no pointer, allocates nothing and has no state of its own. Calls on
 * different memory may run at the same time; never two at a time on one store, session or row. A
 * call needs less than 16 KiB of stack.
 *
 * Rows. A row crosses as a pointer and a count of elements (not of bytes), and is aligned for its
 * element. With a count of 0 the pointer may be NULL. A row that a call writes (store, out,
 * answer) overlaps no other row of that call: a frame is not sent on from the row in which it is
 * heard. A lent session is never NULL and overlaps no row.
 *
 * Words. A row of uint32_t holds words as numbers, in the machine's own order. Only
 * burial_check_frame takes bytes: each word is four bytes, lowest first, the order for a line
 * between different machines.
 *
 * Refused. A call that is refused changes nothing: every lent row keeps each of its words, and a
 * session stays as it was. A call that is not refused writes the words that it names and leaves
 * the rest of the row. Of several reasons, the one that the call lists first is given.
 */
#ifndef BURIAL_REGISTER_H
#define BURIAL_REGISTER_H

#include <stddef.h>
#include <stdint.h>

#ifdef __cplusplus
extern "C" {
#endif

/* ---- 4 Bounds, version, refusals */

#define BURIAL_MIN_OFFICES  2u
#define BURIAL_MAX_OFFICES  8u
#define BURIAL_MAX_PLOTS    64u         /* plots are numbered from 0 */
#define BURIAL_MAX_VALUE    0xFFFFFFFu  /* 2^28 - 1 */
#define BURIAL_MAX_SERIAL   32u         /* from 1: an office makes 32 entries, ever */
#define BURIAL_CARRIED      16u         /* own entries that a session carries at most */
#define BURIAL_JOINT        16u         /* plots in one joint reading at most */

/* Rows that are long enough for anything. */
#define BURIAL_STORE_WORDS  4627u       /* a store, of a ring of 8 */
#define BURIAL_WRITE_WORDS  4272u       /* what one write sends: at most 16 frames */
#define BURIAL_FRAME_WORDS  267u        /* a frame: 8 offices, 255 dependencies */
#define BURIAL_ANSWER_WORDS 48u         /* the answer of a joint reading of 16 plots */
#define BURIAL_TOKEN_WORDS  4538u       /* a token: 8 offices, all read, 16 own entries */

/* 65536 * major + 256 * minor + patch. Another major version has other calls, or words of stores,
 * frames or tokens that this one does not read: keep the number beside what is kept. Versions of
 * one major number read each other's words; another minor number answers some calls otherwise, or
 * has more calls (1.1: no refusal 13; 1.2: burial_join_sessions is new). */
#define BURIAL_VERSION      0x010200u

/* The version of the archive that is linked: a host that starts compares it with BURIAL_VERSION,
 * and ends where they differ. */
uint32_t burial_version(void);

#define BURIAL_OK            0u
/* The settings are out of range: a mistake in the program. */
#define BURIAL_BAD_SETTINGS  1u
/* The words are no sound store: load it again as it was kept last, and do not open the office
 * anew. Or the row is too short. */
#define BURIAL_BAD_STORE     2u
/* A session is not sound for the store, or for the ring size and plots of a join (another ring
 * size, or made by hand), or no frame or token has this content. Take sessions from
 * burial_fresh_session, burial_read_token and burial_join_sessions. */
#define BURIAL_BAD_CONTENT   3u
/* A plot out of range: tell the user. Or more than 16 plots. */
#define BURIAL_BAD_PLOT      4u
/* A value above BURIAL_MAX_VALUE: tell the user. */
#define BURIAL_BAD_VALUE     5u
/* The office has made its 32 entries. It goes on to hear, send on and read; new entries are
 * written at other offices. */
#define BURIAL_OFFICE_FULL   6u
/* The session carries 16 entries. It goes on to read; to write, begin a fresh one. That knows
 * nothing of the old one: it sees those entries only where they are shown, and what it writes on
 * their plots may rank below them unless it has read them. Of a join: together the two carry over
 * 16. Each goes on by itself. */
#define BURIAL_SESSION_FULL  7u
/* A row is too short: call again with a longer one (the constants above). */
#define BURIAL_NO_ROOM       8u
/* The words are no frame or token for this ring size and these plots: damaged, or from elsewhere.
 * Have the frame sent again, and do not pass over it; have the token written again. */
#define BURIAL_NOT_A_FRAME   9u
/* An entry names this office and was not made here. The ring that keeps the rules of section 3
 * never gives this, nor the next two: a store was set back, a frame passed over, two offices have
 * one number, or words are made up or another ring's. Stop the line, and look. The office still
 * reads and writes; but what is lost stays lost, and the ring needs a new beginning. */
#define BURIAL_UNMADE       10u
/* An entry is held with other content, or the two sessions of a join carry it with two contents.
 * As above. */
#define BURIAL_DIFFERENT    11u
/* A read id or a dependency is not held. Of a frame: one before it was not heard yet; hear that
 * one first, and then this one again. Of a session: as above. */
#define BURIAL_MISSING      12u
/* 13 is never given. Version 1.0 gave it (BURIAL_OWN_ENTRY) to a joint reading of a plot with an
 * own entry of the session that ranked above the shown one, or where none was shown. Such a
 * reading now hands back the own entry (section 9). */

/* A refusal in words, for people. */
static inline const char *burial_refusal_text(uint32_t refusal)
{
    switch (refusal) {
    case BURIAL_OK:           return "not refused";
    case BURIAL_BAD_SETTINGS: return "ring size, own office or plots out of range";
    case BURIAL_BAD_STORE:    return "the store is not sound, or too short";
    case BURIAL_BAD_CONTENT:  return "a session is not sound for this ring, "
                                     "or no frame or token has this content";
    case BURIAL_BAD_PLOT:     return "a plot is out of range, or there are more than 16";
    case BURIAL_BAD_VALUE:    return "the value is too great";
    case BURIAL_OFFICE_FULL:  return "the office has made its 32 entries";
    case BURIAL_SESSION_FULL: return "over 16 entries would be carried";
    case BURIAL_NO_ROOM:      return "a row is too short";
    case BURIAL_NOT_A_FRAME:  return "the words are no frame or token of this ring";
    case BURIAL_UNMADE:       return "an entry names this office and was not made here";
    case BURIAL_DIFFERENT:    return "an entry is held or carried with other content";
    case BURIAL_MISSING:      return "an entry that was read or is depended on is not held";
    default:                  return "no refusal of this library";
    }
}

/* An entry's name is its id: the office that made it and its serial there. As one word, in the
 * answer of a joint reading, it is 256 * office + serial. */
static inline uint32_t burial_id(uint32_t office, uint32_t serial)
{
    return 256u * office + serial;
}

static inline uint32_t burial_id_office(uint32_t id)
{
    return id / 256u;
}

static inline uint32_t burial_id_serial(uint32_t id)
{
    return id % 256u;
}

/* A set of ids is eight words: id (office, serial) is bit serial - 1 of word office. */

/* An entry. Its clock has a number from 0 to 32 for each office of the ring and 0 for the others;
 * the number of its own office is its serial. It depends on ids of the ring only, and not on
 * itself. */
struct burial_entry {
    uint32_t office;
    uint32_t serial;   /* 1 to 32 */
    uint32_t plot;
    uint32_t value;    /* 0 to BURIAL_MAX_VALUE */
    uint32_t clock[8];
    uint32_t deps[8];  /* a set of ids */
};

/* ---- 5 Opening
 *
 * A store is a row of words that the host keeps and lends to each call. Its words are the
 * library's: no one else writes them. Every call asks first whether the store is sound. */

/* On refusal words is 0. */
struct burial_need {
    uint32_t refusal;
    size_t words;
};

/* How many words the store of an office needs: 19 + 576 * offices. A longer row serves as well;
 * its words past the need stay as they are.
 * Refusals: BURIAL_BAD_SETTINGS (offices not 2 to 8, plots not 1 to 64, or own not below
 * offices). */
struct burial_need burial_store_need(uint32_t offices, uint32_t own, uint32_t plots);

/* Makes the row the store of an office that holds nothing, whatever it was before: once in the
 * life of an office.
 * Store: its first 19 words are written. The others mean nothing yet; clear the row before if it
 * is to be saved with no word uninitialised.
 * Refusals: BURIAL_BAD_SETTINGS as above, BURIAL_BAD_STORE (too short). */
uint32_t burial_open_office(uint32_t offices, uint32_t own, uint32_t plots,
                            uint32_t *store, size_t store_len);

/* On refusal offices, own and plots are 0. */
struct burial_settings {
    uint32_t refusal;
    uint32_t offices;
    uint32_t own;
    uint32_t plots;
};

/* What a store was opened with: ask it of a store that comes from a file.
 * Store: nothing is written.
 * Refusals: BURIAL_BAD_STORE. */
struct burial_settings burial_store_settings(const uint32_t *store, size_t store_len);

/* ---- 6 Sessions */

/* A session: what one person has read and written, carried from office to office. own[0] to
 * own[count - 1] are its entries, in writing order or as they were joined; the others mean
 * nothing, and stay as they are but for the one that a write fills. Take it from
 * burial_fresh_session, burial_read_token or burial_join_sessions, so that no word of it is
 * uninitialised. It may be copied: each copy goes on with its own history, and two may be joined
 * again.
 * It has padding before count: compare sessions field by field, never by memcmp. */
struct burial_session {
    uint32_t offices;  /* ring size */
    uint32_t clock[8];
    uint32_t read[8];  /* a set of ids */
    size_t count;      /* at most BURIAL_CARRIED */
    struct burial_entry own[16];
};

/* A session that was made, joined or read. On refusal it is all zeros, which every office
 * refuses. */
struct burial_token_read {
    uint32_t refusal;
    struct burial_session session;
};

/* A session with nothing read and nothing written.
 * Refusals: BURIAL_BAD_SETTINGS (offices not 2 to 8). */
struct burial_token_read burial_fresh_session(uint32_t offices);

/* Makes one session of two: where two people went on with copies of one session, each one's token
 * is read in the evening, the two are joined, and a token of that is written. Any two sessions of
 * a ring may be joined.
 * What is joined has read all that either has read, its clock has the greater of the two numbers
 * at each place, and it carries the entries of the first and then those of the second that are not
 * among them, each in their order; own[count] to own[15] are zeros. So it knows what either knew:
 * in a ring that keeps the rules of section 3 none of its readings hands back less than either of
 * the two had read or written, and what it writes ranks above all of that. With the two swapped
 * only the order of its entries may be another.
 * The two that are given stay as they are, and may go on too. What stands behind the entries that
 * they carry does not count.
 * Refusals: BURIAL_BAD_SETTINGS (offices not 2 to 8, plots not 1 to 64), BURIAL_BAD_CONTENT (one
 * of the two is not sound for these), BURIAL_DIFFERENT (both carry an entry, with two contents),
 * BURIAL_SESSION_FULL (over 16 would be carried). */
struct burial_token_read burial_join_sessions(uint32_t offices, uint32_t plots,
                                              struct burial_session first,
                                              struct burial_session second);

/* ---- 7 Writing */

/* On refusal words is 0. */
struct burial_written {
    uint32_t refusal;
    size_t words;      /* how many words were written to the row */
};

/* Writes a value to a plot: makes an entry that depends on all that the session has read and
 * written.
 * Store: holds the session's own entries that are new here, and the new entry, all hidden.
 * Session: carries the new entry too, as own[count - 1]; its clock covers it.
 * Out: the frames to send to the next office, in this order, one right after the other, for the
 * entries new here and then the new one; cut them apart by burial_frame_length. A row of
 * BURIAL_WRITE_WORDS always has room.
 * Refusals: BURIAL_BAD_STORE, BURIAL_BAD_CONTENT (the session), BURIAL_BAD_PLOT,
 * BURIAL_BAD_VALUE, BURIAL_SESSION_FULL, BURIAL_OFFICE_FULL, BURIAL_MISSING; for each own entry
 * in order BURIAL_UNMADE, BURIAL_DIFFERENT; BURIAL_NO_ROOM. */
struct burial_written burial_lent_write(uint32_t *store, size_t store_len,
                                        struct burial_session *session, uint32_t plot,
                                        uint32_t value, uint32_t *out, size_t out_len);

/* How many words the frame has that begins a row of so many words, in a ring of so many offices;
 * 0 where the row is empty, or ends before the frame does. It looks at no more than the frame's
 * head, so cut by it only what a write of this ring wrote. */
static inline size_t burial_frame_length(const uint32_t *row, size_t words, uint32_t offices)
{
    size_t length = 4;
    if (words == 0)
        return 0;
    length += offices;
    length += row[0] % 256u;
    return length <= words ? length : 0;
}

/* ---- 8 Hearing */

/* Hears a frame that came from the office before. The frame takes the whole row.
 * Store: holds the entry, hidden, if it is new; at the last office it is shown, with all that it
 * depends on.
 * Out: the frame to send to the next office; at the last office nothing, and words is 0. A row of
 * frame_len words, or of BURIAL_FRAME_WORDS, always has room.
 * Refusals: BURIAL_BAD_STORE, BURIAL_NOT_A_FRAME, BURIAL_UNMADE, BURIAL_DIFFERENT,
 * BURIAL_MISSING, BURIAL_NO_ROOM (only where the frame goes on). A refused frame has not been
 * heard. */
struct burial_written burial_receive(uint32_t *store, size_t store_len,
                                     const uint32_t *frame, size_t frame_len,
                                     uint32_t *out, size_t out_len);

/* ---- 9 Reading
 *
 * Store: first, all that the session has read is shown, with what that depends on, and so on.
 * A reading then hands back, of each plot that is asked for, the higher-ranked of the highest
 * shown entry of the plot (below: the shown entry) and the session's own entries there; where an
 * own entry has the same office and clock as the shown one, the shown one.
 * Session: after that the shown entry of each of these plots is added to what it has read, and
 * its clock is joined into the session's: also where an own entry is handed back. The own entry
 * itself adds nothing. */

/* found is 1 with the entry that is handed back; or 0 with an entry of zeros, where the plot has
 * none. On refusal found and entry are zeros. */
struct burial_plot_found {
    uint32_t refusal;
    uint32_t found;
    struct burial_entry entry;
};

/* Reads one plot.
 * Refusals: BURIAL_BAD_STORE, BURIAL_BAD_CONTENT (the session), BURIAL_BAD_PLOT,
 * BURIAL_MISSING. */
struct burial_plot_found burial_lent_read_plot(uint32_t *store, size_t store_len,
                                               struct burial_session *session, uint32_t plot);

/* Reads up to 16 plots at one moment, the same plot more than once if asked; with no plot at all
 * it only shows what the session has read. With one plot it answers, shows and adds to the session
 * as the reading of that plot does. What it hands back goes together, in a ring that keeps the
 * rules of section 3: if the writer of an entry that is handed back had read or written an entry
 * on a listed plot, the reply on that plot is that entry or one that does not rank below it.
 * Answer: for each plot, in order, three words of the entry that is handed back: 1, value, id
 * (burial_id_office, burial_id_serial); or 0, 0, 0 where there is none.
 * Refusals: BURIAL_BAD_STORE, BURIAL_BAD_CONTENT, BURIAL_BAD_PLOT, BURIAL_NO_ROOM (answer_len
 * under three words a plot), BURIAL_MISSING. */
uint32_t burial_lent_read_joint(uint32_t *store, size_t store_len, struct burial_session *session,
                                const uint32_t *plots, size_t plots_len,
                                uint32_t *answer, size_t answer_len);

/* ---- 10 Tokens
 *
 * A token is a session in words: what a person takes from one office to another, or what a host
 * keeps of a session. With exactly one word changed it is refused, and so is a frame; more damage
 * may pass, so a line or a file has a checksum of its own. It is no secret and no signature. */

/* Writes a session as a token. Out: its words, from the start. A row of BURIAL_TOKEN_WORDS always
 * has room.
 * Refusals: BURIAL_BAD_CONTENT (not sound for its ring size with 64 plots), BURIAL_NO_ROOM. */
struct burial_written burial_write_token(struct burial_session session,
                                         uint32_t *out, size_t out_len);

/* Reads the session of a token that takes the whole row.
 * Refusals: BURIAL_BAD_SETTINGS (offices not 2 to 8, plots not 1 to 64), BURIAL_NOT_A_FRAME. */
struct burial_token_read burial_read_token(const uint32_t *words, size_t words_len,
                                           uint32_t offices, uint32_t plots);

/* ---- 11 Frames
 *
 * Frames apart from any office: to check those that were kept, or to look into one. A host that
 * only passes them on needs none of these. */

/* An entry on its way round the ring. */
struct burial_frame {
    uint32_t offices;  /* ring size, 2 to 8 */
    uint32_t hops;     /* offices still to hear it after its receiver, at most offices - 2 */
    struct burial_entry entry;
};

/* On refusal the frame is all zeros. */
struct burial_frame_read {
    uint32_t refusal;
    struct burial_frame frame;
};

/* Reads a frame that takes the whole row.
 * Refusals: BURIAL_BAD_SETTINGS (offices not 2 to 8, plots not 1 to 64), BURIAL_NOT_A_FRAME. */
struct burial_frame_read burial_read_frame(const uint32_t *words, size_t words_len,
                                           uint32_t offices, uint32_t plots);

/* Writes a frame. Out: its words, from the start; they read back under the frame's ring size and
 * any plots that cover its plot.
 * Refusals: BURIAL_BAD_CONTENT (no frame of this ring size with 64 plots has this content),
 * BURIAL_NO_ROOM. */
struct burial_written burial_write_frame(struct burial_frame frame,
                                         uint32_t *out, size_t out_len);

/* Says whether bytes are a frame, without reading it.
 * Refusals: BURIAL_BAD_SETTINGS as above, BURIAL_NOT_A_FRAME (also where bytes_len is not
 * divisible by 4). */
uint32_t burial_check_frame(const uint8_t *bytes, size_t bytes_len,
                            uint32_t offices, uint32_t plots);

/* ---- 12 The calls with the session by value
 *
 * The same three calls for hosts that would rather not lend a session: it is given, and handed
 * back as the call leaves it; as it came on refusal. They copy 1,360 bytes there and back, so the
 * calls above are faster. Refusals, store and rows as there. */

/* found and entry as in burial_plot_found. */
struct burial_read {
    uint32_t refusal;
    uint32_t found;
    struct burial_entry entry;
    struct burial_session session;
};

struct burial_joint {
    uint32_t refusal;
    struct burial_session session;
};

/* On refusal words is 0. */
struct burial_wrote {
    uint32_t refusal;
    size_t words;
    struct burial_session session;
};

struct burial_read burial_read_plot(uint32_t *store, size_t store_len,
                                    struct burial_session session, uint32_t plot);

struct burial_joint burial_read_joint(uint32_t *store, size_t store_len,
                                      struct burial_session session,
                                      const uint32_t *plots, size_t plots_len,
                                      uint32_t *answer, size_t answer_len);

struct burial_wrote burial_write(uint32_t *store, size_t store_len,
                                 struct burial_session session, uint32_t plot, uint32_t value,
                                 uint32_t *out, size_t out_len);

/* ---- 13 Layout
 *
 * The archive is for x86-64 Linux, by the System V convention. Here the compiler says whether it
 * lays out the structs as the archive does: the length of each, and the place of each of its
 * fields. */
#if defined(__cplusplus) && __cplusplus >= 201103L
#define BURIAL_LAYOUT(holds) static_assert(holds, "a struct has another layout here")
#elif defined(__STDC_VERSION__) && __STDC_VERSION__ >= 201112L
#define BURIAL_LAYOUT(holds) _Static_assert(holds, "a struct has another layout here")
#else
#define BURIAL_LAYOUT(holds) BURIAL_LAYOUT_AT(holds, __LINE__)
#define BURIAL_LAYOUT_AT(holds, line) BURIAL_LAYOUT_NAMED(holds, line)
#define BURIAL_LAYOUT_NAMED(holds, line) enum { burial_layout_##line = 1 / ((holds) ? 1 : 0) }
#endif
#define BURIAL_SIZE(name, bytes)     BURIAL_LAYOUT(sizeof(struct name) == (bytes))
#define BURIAL_AT(name, field, byte) BURIAL_LAYOUT(offsetof(struct name, field) == (byte))

BURIAL_AT(burial_entry, office, 0);
BURIAL_AT(burial_entry, serial, 4);
BURIAL_AT(burial_entry, plot, 8);
BURIAL_AT(burial_entry, value, 12);
BURIAL_AT(burial_entry, clock, 16);
BURIAL_AT(burial_entry, deps, 48);
BURIAL_SIZE(burial_entry, 80);

BURIAL_AT(burial_frame, offices, 0);
BURIAL_AT(burial_frame, hops, 4);
BURIAL_AT(burial_frame, entry, 8);
BURIAL_SIZE(burial_frame, 88);

BURIAL_AT(burial_frame_read, refusal, 0);
BURIAL_AT(burial_frame_read, frame, 4);
BURIAL_SIZE(burial_frame_read, 92);

BURIAL_AT(burial_written, refusal, 0);
BURIAL_AT(burial_written, words, 8);
BURIAL_SIZE(burial_written, 16);

BURIAL_AT(burial_session, offices, 0);
BURIAL_AT(burial_session, clock, 4);
BURIAL_AT(burial_session, read, 36);
BURIAL_AT(burial_session, count, 72);
BURIAL_AT(burial_session, own, 80);
BURIAL_SIZE(burial_session, 1360);

BURIAL_AT(burial_read, refusal, 0);
BURIAL_AT(burial_read, found, 4);
BURIAL_AT(burial_read, entry, 8);
BURIAL_AT(burial_read, session, 88);
BURIAL_SIZE(burial_read, 1448);

BURIAL_AT(burial_joint, refusal, 0);
BURIAL_AT(burial_joint, session, 8);
BURIAL_SIZE(burial_joint, 1368);

BURIAL_AT(burial_wrote, refusal, 0);
BURIAL_AT(burial_wrote, words, 8);
BURIAL_AT(burial_wrote, session, 16);
BURIAL_SIZE(burial_wrote, 1376);

BURIAL_AT(burial_need, refusal, 0);
BURIAL_AT(burial_need, words, 8);
BURIAL_SIZE(burial_need, 16);

BURIAL_AT(burial_settings, refusal, 0);
BURIAL_AT(burial_settings, offices, 4);
BURIAL_AT(burial_settings, own, 8);
BURIAL_AT(burial_settings, plots, 12);
BURIAL_SIZE(burial_settings, 16);

BURIAL_AT(burial_plot_found, refusal, 0);
BURIAL_AT(burial_plot_found, found, 4);
BURIAL_AT(burial_plot_found, entry, 8);
BURIAL_SIZE(burial_plot_found, 88);

BURIAL_AT(burial_token_read, refusal, 0);
BURIAL_AT(burial_token_read, session, 8);
BURIAL_SIZE(burial_token_read, 1368);

#undef BURIAL_AT
#undef BURIAL_SIZE
#undef BURIAL_LAYOUT
#undef BURIAL_LAYOUT_AT
#undef BURIAL_LAYOUT_NAMED

#ifdef __cplusplus
}
#endif

#endif
