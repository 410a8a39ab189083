"""The tests can fail: copies of the example with one fault each, which the matching test must find.

An edit names a file, a piece of its text that is there exactly once, and what takes its place."""

import contextlib
import io
import os
import random
import shutil
import time
from typing import Callable, NamedTuple

import build
import disk
import files
import kills
import packets
import power
import ring
import stops
import syncs
from report import Fault, Unshown, one_line
from ring import Ring

SOURCES = "examples/c"
# Seconds in which a fault is to be found; a copy is to answer; its frames are to arrive.
BUDGET = 20.0
ANSWER = 5.0
SETTLE = 4.0


class Edit(NamedTuple):
    name: str
    look: Callable  # program, shim, folder: the test
    changes: list


def by_kills(program, shim, folder):
    return lambda rng: kills.random_kills(program, folder, rng.choice((2, 3, 5)), 10)(rng)


def by_cuts(program, shim, folder):
    return power.power_cuts(program, shim, folder, 12)


def by_kill_and_cut(program, shim, folder):
    return power.killed_then_cut(program, shim, folder)


def by_points(program, shim, folder):
    return kills.points(program, folder)


def by_forwarding(program, shim, folder):
    return kills.forwarded(program, folder)


def by_reading(program, shim, folder):
    return kills.reading(program, folder)


def by_stopping(program, shim, folder):
    return stops.stopped_neighbour(program, folder, 2, 12)


def by_unreadable(program, shim, folder):
    return files.unreadable(program, folder)


def by_damage(program, shim, folder):
    return files.damaged(program, folder, 100)


def by_foreign(program, shim, folder):
    return files.foreign(program, folder)


def by_lock(program, shim, folder):
    return files.locked(program, folder)


def by_limit(program, shim, folder):
    return disk.full(program, folder, disk.Limit)


def by_flips(program, shim, folder):
    return packets.flipped_frames(program, folder, 5)


def by_answers(program, shim, folder):
    return packets.bad_answers(program, folder, 50)


def by_failing_syncs(program, shim, folder):
    return syncs.failing_syncs(program, shim, folder)


SEND_EARLY = """    send_frames(delivery, &office->waiting);
}

void send_early(struct office *office);
void send_early(struct office *office)
{
    if (early != NULL)
        send_frames(early, &office->waiting);
}"""

EDITS = [
    Edit("the directory is not synced", by_cuts, [
        ("disk.c", "return sync_file(disk->directory);", "return disk->directory < 0;")]),
    Edit("the directory is not synced at the start", by_kill_and_cut, [
        ("keep.c", "int error = disk_settle(&office->disk);", "int error = 0;")]),
    Edit("the file is not synced", by_cuts, [
        ("disk.c", "error = sync_file(file);", "error = 0;")]),
    Edit("frames are sent before they are kept", by_points, [
        ("delivery.c", "enum { PATIENCE = 200 };",
         "static struct delivery *early;\nenum { PATIENCE = 200 };"),
        ("delivery.c", "    uint32_t next = (office->own + 1) % office->offices;\n",
         "    uint32_t next = (office->own + 1) % office->offices;\n    early = delivery;\n"),
        ("delivery.c", "    send_frames(delivery, &office->waiting);\n}", SEND_EARLY),
        ("keep.c", "    bool swapped;\n",
         "    bool swapped;\n    extern void send_early(struct office *office);\n"
         "    send_early(office);\n")]),
    Edit("any failed open is no file", by_unreadable, [
        ("disk.c", "*there = link || error != ENOENT;", "*there = error == 0;")]),
    Edit("the lines block", by_stopping, [
        ("line.c", "O_RDWR | O_NONBLOCK | O_CLOEXEC", "O_RDWR | O_CLOEXEC")]),
    Edit("forwarded frames are not kept", by_forwarding, [
        ("delivery.c", "keep_after(office, onward, written.words, false);",
         "keep_after(office, onward, 0, false);\n"
         "    waiting_add(&office->waiting, onward, written.words);")]),
    Edit("there is no lock", by_lock, [
        ("disk.c", " || flock(disk->lock, LOCK_EX | LOCK_NB) != 0", "")]),
    Edit("the clerk is told before it is kept", by_kills, [
        ("clerk.c", '        reply("wrote %u.%u", entry.office, entry.serial);\n',
         "        return;\n"),
        ("clerk.c", "    struct outcome outcome = keep_after(office, row, written.words, true);\n",
         '    reply("wrote %u.%u", entry.office, entry.serial);\n'
         "    struct outcome outcome = keep_after(office, row, written.words, true);\n")]),
    Edit("a frame is acknowledged before it is kept", by_cuts, [
        ("delivery.c", "    office->heard++;\n",
         "    office->heard++;\n    put_answer(delivery, office);\n")]),
    Edit("readings are not kept", by_reading, [
        ("keep.c", "struct outcome outcome = keep_if_due(office, false);",
         "struct outcome outcome = { KEPT, 0 };")]),
    Edit("the session is not kept", by_kills, [
        ("image.c", "office->session = read.session;",
         "office->session = burial_fresh_session(office->offices).session;")]),
    Edit("the number of frames heard is not kept", by_kills, [
        ("image.c", "office->heard = head.heard;", "office->heard = 0;")]),
    Edit("the check of the file is not made", by_damage, [
        ("image.c", "return check == check_of(words, count);", "return check != 1;")]),
    Edit("a foreign file is taken", by_foreign, [
        ("image.c", "if (settings.offices != office->offices || settings.own != office->own)",
         "if (settings.offices != office->offices)")]),
    Edit("what is not kept is not undone", by_limit, [
        ("keep.c", "        undo(office);\n", "        (void)undo;\n")]),
    Edit("nothing is sent again", by_points, [
        ("delivery.c", "enum { PATIENCE = 200 };", "enum { PATIENCE = 100000000 };")]),
    Edit("a refused frame is passed over", by_flips, [
        ("delivery.c", "        say_refused(delivery, packet->number, written.refusal);\n",
         "        say_refused(delivery, packet->number, written.refusal);\n"
         "        office->heard_kept = ++office->heard;\n")]),
    Edit("any acknowledgement is believed", by_answers, [
        ("waiting.c", "    if (gone > waiting->count)\n        return false;\n",
         "    if (gone > waiting->count)\n        gone = waiting->count;\n")]),
    Edit("a damaged acknowledgement is believed", by_answers, [
        ("delivery.c", " || answer.check != ~answer.heard", "")]),
    Edit("a sync that fails is taken for one that is done", by_failing_syncs, [
        ("disk.c", "return done == 0 ? 0 : errno;", "return 0;")]),
]


def edited(edit, folder):
    """The program of an edited copy."""
    copy = folder + "/copy"
    shutil.rmtree(copy, ignore_errors=True)
    shutil.copytree(SOURCES, copy)
    for name, old, new in edit.changes:
        path = f"{copy}/{name}"
        with open(path, encoding="utf-8") as file:
            text = file.read()
        if text.count(old) != 1:
            raise Unshown(f"{name} has {text.count(old)} times, not once: {old.strip()}")
        with open(path, "w", encoding="utf-8") as file:
            file.write(text.replace(old, new))
    return build.office(copy, folder + "/edited")


def fault_in(edit, program, shim, folder, seed):
    """What the matching test finds in a program, or None."""
    try:
        with contextlib.redirect_stdout(io.StringIO()):
            edit.look(program, shim, folder)(random.Random(seed))
    except Fault as fault:
        return one_line(fault)
    return None


@contextlib.contextmanager
def impatient():
    """A copy gets less time than the example, so that a fault is found soon."""
    usual = ring.BOUND, Ring.patience
    ring.BOUND, Ring.patience = ANSWER, SETTLE
    try:
        yield
    finally:
        ring.BOUND, Ring.patience = usual


def finds(edit, program, shim, folder):
    """A test: the matching one finds the fault, at one of its tries, and finds none in the example
    with the same seed."""
    def test(rng):
        os.makedirs(folder, exist_ok=True)
        copy = edited(edit, folder)
        limit, tries = time.monotonic() + BUDGET, 0
        while time.monotonic() < limit:
            tries, seed = tries + 1, rng.randrange(1 << 31)
            with impatient():
                found = fault_in(edit, copy, shim, folder, seed)
            if found is not None:
                check_example(edit, program, shim, folder, seed)
                return f"found at try {tries}: {found[:90]}"
        raise Fault(f"nothing was found in {tries} tries")
    return test


def check_example(edit, program, shim, folder, seed):
    found = fault_in(edit, program, shim, folder, seed)
    if found is not None:
        raise Fault(f"found in the example too: {found}")


def test(report, program, shim, folder, count):
    """All of them in a long run, else a few that the seed chooses."""
    chosen = EDITS if count >= 100 else report.random("edits").sample(EDITS, 6)
    for edit in chosen:
        report.run(f"a fault is found: {edit.name}",
                   finds(edit, program, shim, folder + "/edits"))
