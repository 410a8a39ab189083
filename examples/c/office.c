/* One office of a ring of two to eight, as a process: office OFFICES OWN FILE LINES [POINT]
 *
 * FILE is where it keeps its register. LINES is a folder of named pipes: to-K carries frames to
 * office K from the one before it, back-K carries office K's acknowledgements of them. clerk.h has
 * the orders. At POINT the process waits to be killed: see hold.h.
 *
 * The order of things. Each call, for the clerk or for a frame that comes, is one step:
 *   1. The call changes memory: store, session, frames to send, number of frames heard.
 *   2. All four go into the file at once: written beside, fsync, rename, fsync of the directory.
 *   3. Only then does anyone learn of it: the clerk by the reply, the next office by the frames,
 *      the office before by the acknowledgement.
 * Why:
 *   - Sent before it is kept, an entry could be forgotten here. The office would make another one
 *     of the same name, and the ring would refuse it for ever (11).
 *   - Acknowledged before it is kept, a frame could be forgotten here, and the office before has
 *     dropped it.
 *   - Kept one after the other, store and number could differ after a crash: a frame would be
 *     passed over and lost, or heard and sent on twice.
 * So a crash or a power cut, at any moment, leaves the office before the step or after it. Before:
 * no one was told, and the frame comes again. After: the frames are in the file, and go out at the
 * next start. A clerk who got no reply reads the plot, to see whether his write is there.
 *
 * Where the file cannot be written, memory goes back to what it was before the call; the clerk is
 * told, or the frame comes again. Readings are answered all the same. One case is less simple:
 * see keep.c.
 *
 * Nothing waits for a line. A frame stays in the file, and is sent again, until the next office has
 * acknowledged it; a neighbour that is down only hears later.
 *
 * A refused frame stops its line, and nothing else. To pass over it would be to lose it for good,
 * and everything that depends on it (12). The line goes on when the frame comes unharmed; if it
 * never does, someone has to look. The clerk is served meanwhile.
 */
#include "clerk.h"
#include "delivery.h"
#include "hold.h"
#include "keep.h"
#include "say.h"

#include <errno.h>
#include <signal.h>
#include <string.h>
#include <unistd.h>

/* A number that no ring has, where the text is no number. */
static uint32_t setting(const char *text)
{
    char *end;
    unsigned long number = strtoul(text, &end, 10);
    bool whole = text[0] >= '0' && text[0] <= '9' && *end == '\0';
    return whole && number <= BURIAL_MAX_OFFICES ? (uint32_t)number : UINT32_MAX;
}

/* Waits until there is something to do, and does it. False at the end of the orders. */
static bool turn(struct office *office, struct delivery *delivery)
{
    struct pollfd files[1 + DELIVERY_FILES] = { { .fd = STDIN_FILENO, .events = POLLIN } };
    int longest = delivery_watch(delivery, office, files + 1);
    if (poll(files, 1 + DELIVERY_FILES, longest) < 0) {
        if (errno != EINTR)
            fail("there is no waiting: %s", strerror(errno));
        return true;
    }
    keep_again(office);
    bool going = files[0].revents == 0 || clerk_serve(office);
    delivery_serve(delivery, office, files + 1);
    return going;
}

int main(int argc, char **argv)
{
    static struct office office;
    static struct delivery delivery;
    if (argc != 5 && argc != 6)
        fail("usage: office OFFICES OWN FILE LINES [POINT]");
    if (burial_version() != BURIAL_VERSION)
        fail("the library is another version");
    /* So that a limit on the size of files is an error like a full disk, and not the end. */
    signal(SIGXFSZ, SIG_IGN);
    hold_set(argc == 6 ? argv[5] : "");
    keep_start(&office, setting(argv[1]), setting(argv[2]), argv[3]);
    delivery_open(&delivery, &office, argv[4]);
    /* What waited in the file, and the acknowledgement of what was heard, go out at once. */
    delivery_serve(&delivery, &office, (struct pollfd[DELIVERY_FILES]){ { .revents = 0 } });
    while (turn(&office, &delivery)) {
    }
    return 0;
}
