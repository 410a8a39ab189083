"""Power cuts. The shim (power.c) notes what the disk may still forget; a cut kills the office and
makes the disk forget it. What an office said before the cut must hold after it all the same.

A cut hits all offices, or one of them. Of the renames that were not yet on the disk for good, the
disk forgets the last ones: all, or by chance only some. A file that was not synced is cut to half.
"""

import os
import random
import shutil
import time

from kills import Trial
from report import Fault, Unshown, say_trial
from ring import Ring

SIZES = (2, 3, 5)
CUTS_A_TRIAL = 12


class Note:
    def __init__(self, journal, name):
        with open(f"{journal}/{name}", encoding="utf-8") as note:
            words, self.path = note.read().splitlines()
        self.old, self.state, _, _, self.file = words.split()
        self.file = int(self.file)
        self.link = f"{journal}/{name[:-len('.note')]}.old"

    def was_made(self):
        """Killed between the note and the rename, an office has not renamed anything."""
        return os.path.exists(self.path) and os.stat(self.path).st_ino == self.file

    def undo(self):
        if self.old == "absent":
            os.unlink(self.path)
        elif self.old == "old":
            os.replace(self.link, self.path)
        else:
            self.tear()

    def tear(self):
        if self.state == "torn":
            os.truncate(self.path, os.path.getsize(self.path) // 2)


def forget(journal, rng, all_of_it=False):
    """The disk after the cut. Says how many renames it forgot."""
    names = sorted(name for name in os.listdir(journal) if name.endswith(".note"))
    notes = [Note(journal, name) for name in names]
    some = not all_of_it and rng.random() < 0.3
    stay = rng.randrange(len(notes) + 1) if some else 0
    forgotten = 0
    for note in reversed(notes[stay:]):
        if note.was_made():
            forgotten += 1
            note.undo()
    if stay and notes[stay - 1].was_made():
        notes[stay - 1].tear()
    shutil.rmtree(journal)
    os.mkdir(journal)
    return forgotten


def spoil_beside(ring, own, rng):
    """Other files of the office were never promised to be there."""
    stem = os.path.basename(ring.file(own))
    for name in os.listdir(ring.folder):
        path = f"{ring.folder}/{name}"
        if name == stem or not name.startswith(stem) or not os.path.isfile(path):
            continue
        kind = rng.randrange(3)
        if kind == 0:
            os.unlink(path)
        elif kind == 1:
            os.truncate(path, os.path.getsize(path) // 2)


def empty_line(path):
    """What was under way is gone."""
    if not os.path.exists(path):
        return
    pipe = os.open(path, os.O_RDWR | os.O_NONBLOCK)
    try:
        while os.read(pipe, 65536):
            pass
    except BlockingIOError:
        pass
    finally:
        os.close(pipe)


class Cuts(Trial):
    """As random kills, but a strike is a power cut: of all offices, or of some."""
    weights = (16, 16, 1, 10, 2, 6, 1)
    forgotten = 0

    def strike(self, owns):
        """Sometimes a mere kill, which is not counted: the disk forgets nothing yet."""
        if self.rng.random() < 0.2:
            self.kill(owns)
            return
        self.left -= 1
        if self.rng.random() < 0.4:
            owns = list(range(self.ring.offices))
        self.kill(owns)
        for own in owns:
            self.forgotten += forget(journal(self.ring.folder, own), self.rng)
            spoil_beside(self.ring, own, self.rng)
            self.lose_lines(own)

    def lose_lines(self, own):
        after = (own + 1) % self.ring.offices
        for line in (f"to-{own}", f"back-{own}", f"to-{after}", f"back-{after}"):
            if self.rng.random() < 0.5:
                empty_line(f"{self.ring.folder}/lines/{line}")


def journal(folder, own):
    return f"{folder}/journal-{own}"


def power_ring(program, shim, folder, offices, slow):
    """Slow: so many microseconds a sync takes, and a rename."""
    ring = Ring(program, folder, offices, lambda own: {
        "LD_PRELOAD": shim, "POWER_JOURNAL": journal(folder, own), "POWER_SLOW": str(slow)})
    for own in range(offices):
        os.mkdir(journal(folder, own))
    return ring


def set_pace(ring, slow):
    """For the offices that start from now on."""
    inner = ring.env
    ring.env = lambda own: {**inner(own), "POWER_SLOW": str(slow)}


def killed_then_cut(program, shim, folder):
    """A test: an office is killed when its new file has the name and the directory is not synced.
    The next process finds the new file, and tells what is in it; then a cut must not take it
    back."""
    def test(rng):
        for tries in range(1, 11):
            with power_ring(program, shim, f"{folder}/unsynced", 2, 0) as ring:
                if kill_before_sync(ring):
                    start_and_cut(ring, rng)
                    return f"killed in time at try {tries}"
        raise Unshown("no kill came in time")
    return test


def kill_before_sync(ring):
    """While it writes: as soon as the file is another one. The sync of the directory takes so long
    that there should be time. False where it was done already."""
    ring.start_all()
    ring.expect(0, "write 1 11", "wrote 0.1")
    ring.settle()
    ring.kill(0)
    set_pace(ring, 150000)
    ring.start(0)
    ring.expect(0, "read 1", "11 by 0.1")
    old, limit = os.stat(ring.file(0)).st_ino, time.monotonic() + 5
    ring.at[0].send("write 2 22")
    while os.stat(ring.file(0)).st_ino == old and time.monotonic() < limit:
        time.sleep(0.002)
    ring.kill(0)
    set_pace(ring, 0)
    return any(name.endswith(".note") for name in os.listdir(journal(ring.folder, 0)))


def start_and_cut(ring, rng):
    ring.start(0)
    ring.expect(0, "read 2", "22 by 0.2")
    ring.kill(0)
    forget(journal(ring.folder, 0), rng, all_of_it=True)
    ring.start(0)
    ring.expect(0, "read 2", "22 by 0.2")
    ring.settle()
    ring.expect(1, "present 2", "22 by 0.2")


def one_trial(program, shim, folder, offices, cuts, seed):
    rng = random.Random(seed)
    slow = rng.choice([0, 500, 1000, 1000, 2000])
    with power_ring(program, shim, folder, offices, slow) as ring:
        trial = Cuts(ring, rng, cuts)
        try:
            told, made, _ = trial.run()
        except Fault as fault:
            raise Fault(f"{fault} (ring of {offices}, trial's seed {seed})") from None
    return told, made, trial.forgotten


def power_cuts(program, shim, folder, cuts):
    """A test: trials in rings of all sizes until there were so many cuts."""
    def test(rng):
        sums = [0, 0, 0]
        left, trials = cuts, 0
        while left > 0:
            seed, offices = rng.randrange(1 << 31), SIZES[trials % len(SIZES)]
            now = min(left, CUTS_A_TRIAL)
            got = one_trial(program, shim, f"{folder}/power", offices, now, seed)
            sums = [total + more for total, more in zip(sums, got)]
            left, trials = left - now, trials + 1
            say_trial(f"power cuts, ring of {offices}", seed, f"{got[0]} acknowledged")
        return (f"{cuts} cuts in {trials} trials, {sums[2]} renames forgotten, "
                f"{sums[0]} acknowledged, {sums[1]} made")
    return test
