"""Syncs that fail. What is not surely on the disk must be told to no one: neither to the clerk nor
to the next office. After a failed sync of the directory nobody knows which file a cut would
leave."""

import os
import random
import re
import time

from ledger import ENTRY, PERHAPS
from power import Cuts, forget, journal, power_ring
from report import Fault, say_trial

# What an office may say while its disk fails.
TROUBLE = re.compile(r"office: (the directory cannot be written|a frame is not kept): ")


def switch(ring, own):
    return f"{ring.folder}/fail-{own}"


def break_disk(ring, own, kind):
    """f: syncs of files fail. d: those of directories."""
    with open(switch(ring, own) + ".new", "w", encoding="utf-8") as file:
        file.write(kind)
    os.replace(switch(ring, own) + ".new", switch(ring, own))


def mend_disk(ring, own):
    if os.path.exists(switch(ring, own)):
        os.unlink(switch(ring, own))


def breaking_ring(program, shim, folder, offices, slow=0):
    ring = power_ring(program, shim, folder, offices, slow)
    inner = ring.env
    ring.env = lambda own: {**inner(own), "POWER_FAIL": switch(ring, own)}
    return ring


def failing_syncs(program, shim, folder):
    """A test: each kind fails; then the disk is mended, the power is cut, or the office killed."""
    def test(rng):
        for kind in "fd":
            for after in ("mended", "cut", "killed"):
                with breaking_ring(program, shim, f"{folder}/syncs", 2) as ring:
                    one_failure(ring, kind, after, rng)
        return "files and directories; mended, cut, killed"
    return test


def one_failure(ring, kind, after, rng):
    ring.start_all()
    ring.expect(0, "write 1 11", "wrote 0.1")
    ring.await_reply(1, "heard", "1")
    ring.settle()
    break_disk(ring, 0, kind)
    reply = ring.order(0, "write 2 22")
    perhaps = PERHAPS.match(reply)
    if not reply.startswith("not kept: ") or (perhaps and kind == "f"):
        raise Fault(f"syncs fail ({kind}), write 2 22: '{reply}'")
    for _ in range(20):
        time.sleep(0.02)
        check_answer(ring, "read 1", "11 by 0.1")
        ring.expect(1, "heard", "1")
    if after != "mended":
        ring.kill(0)
    if after == "cut":
        forget(journal(ring.folder, 0), rng)
    mend_disk(ring, 0)
    ring.start_all()
    go_on(ring, perhaps)


def check_answer(ring, order, reply):
    got = ring.order(0, order)
    if got not in (reply, reply + " (not kept)"):
        raise Fault(f"syncs fail, {order}: '{got}', not '{reply}'")


def go_on(ring, perhaps):
    """The write that was not kept is there or not, but for good, and for all."""
    ring.settle()
    found = ENTRY.match(ring.order(0, "read 2"))
    if found and (not perhaps or found[0] != "22 by 0.2"):
        raise Fault(f"a write that was not kept is there: '{found[0]}'")
    ring.expect(0, "write 3 33", "wrote 0.3" if found else "wrote 0.2")
    ring.settle()
    ring.expect(1, "present 2", "22 by 0.2" if found else "none")
    ring.expect(1, "present 3", "33 by 0.3" if found else "33 by 0.2")
    wrong = [line for line in ring.complaints().splitlines() if not TROUBLE.match(line)]
    if wrong:
        raise Fault(f"an office said: {wrong[0]}")


class Failures(Cuts):
    """Power cuts, and disks that fail for a while."""

    def step(self):
        if self.up() and self.rng.random() < 0.15:
            own = self.rng.choice(self.up())
            if os.path.exists(switch(self.ring, own)):
                mend_disk(self.ring, own)
            else:
                self.ring.number(own, "heard")  # it has begun: it may not be able to on such a disk
                break_disk(self.ring, own, self.rng.choice("fd"))
        super().step()

    def strike(self, owns):
        super().strike(owns)
        self.mend()

    def mend(self):
        for own in range(self.ring.offices):
            mend_disk(self.ring, own)

    def run(self, round_trip=False):
        self.clerks.allowed = TROUBLE
        return super().run(round_trip)

    def end(self, round_trip):
        self.mend()
        return super().end(round_trip)


def failures_and_cuts(program, shim, folder, cuts):
    """A test: both at random, in rings of two sizes."""
    def test(rng):
        told = 0
        for offices in (2, 3):
            for _ in range(1 + cuts // 20):
                seed = rng.randrange(1 << 31)
                told += one_trial(program, shim, f"{folder}/failures", offices, seed)
        return f"{2 * (1 + cuts // 20)} trials of 10 cuts, {told} acknowledged"
    return test


def one_trial(program, shim, folder, offices, seed):
    rng = random.Random(seed)
    with breaking_ring(program, shim, folder, offices, rng.choice([0, 500, 2000])) as ring:
        try:
            told = Failures(ring, rng, 10).run()[0]
        except Fault as fault:
            raise Fault(f"{fault} (ring of {offices}, trial's seed {seed})") from None
    say_trial(f"failures and cuts, ring of {offices}", seed, f"{told} acknowledged")
    return told
