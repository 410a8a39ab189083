"""A disk without room: a small one that the test mounts where it may, and a limit on the length
of files."""

import ctypes
import os
import resource
import signal
import subprocess

from report import Fault
from ring import LIBC, Ended, Ring

CLONE_NEWNS = 0x00020000


def own_mounts():
    """Mounts of this process and its children only: they end with it, whatever happens."""
    if os.getuid() != 0 or LIBC.unshare(ctypes.c_int(CLONE_NEWNS)) != 0:
        return False
    return subprocess.run(["mount", "--make-rprivate", "/"], capture_output=True).returncode == 0


class SmallDisk:
    """Full once it is filled up; there is room again when it is emptied."""
    def __init__(self, folder):
        self.folder, self.files = folder, {0: folder + "/office-0"}
        os.makedirs(folder, exist_ok=True)

    def __enter__(self):
        subprocess.run(["mount", "-t", "tmpfs", "-o", "size=512k", "tmpfs", self.folder],
                       check=True, capture_output=True)
        return self

    def __exit__(self, *_):
        subprocess.run(["umount", "-l", self.folder], check=True, capture_output=True)

    def fill(self, _):
        with open(self.folder + "/ballast", "ab", buffering=0) as ballast:
            for size in (4096, 1):
                try:
                    while ballast.write(b"x" * size):
                        pass
                except OSError:
                    pass

    def before_start(self):
        pass

    def make_room(self, _):
        os.unlink(self.folder + "/ballast")


class Limit:
    """Files may not be longer than a few bytes; the signal that goes with it is ignored, so that
    the write fails."""
    files = {}

    def __init__(self, _):
        pass

    def __enter__(self):
        return self

    def __exit__(self, *_):
        pass

    def fill(self, office):
        self.limit(office, 1024)

    def before_start(self):
        resource.setrlimit(resource.RLIMIT_FSIZE, (1024, resource.RLIM_INFINITY))

    def make_room(self, office):
        self.limit(office, resource.RLIM_INFINITY)

    @staticmethod
    def limit(office, most):
        resource.prlimit(office.process.pid, resource.RLIMIT_FSIZE,
                         (most, resource.RLIM_INFINITY))


def ignore_signal():
    signal.signal(signal.SIGXFSZ, signal.SIG_IGN)


def restart_full(ring, disk):
    """To start, and to answer, needs no room."""
    def before():
        ignore_signal()
        disk.before_start()

    ring.kill(0)
    ring.start(0, before=before)
    answer_of(ring, "read 1", "11 by 0.1")
    answer_of(ring, "present 3", "33 by 1.2")
    expect_not_kept(ring, "write 4 96")


def full(program, folder, kind):
    """A test: what is said and kept while office 0 has no room, and after."""
    def test(_):
        with kind(f"{folder}/disk") as disk, Ring(program, f"{folder}/full", 2) as ring:
            ring.elsewhere = disk.files
            for own in (0, 1):
                ring.start(own, before=ignore_signal)
            prepare(ring)
            disk.fill(ring.at[0])
            refusals = while_full(ring)
            restart_full(ring, disk)
            disk.make_room(ring.at[0])
            afterwards(ring)
        return f"{refusals} orders not kept"
    return test


def prepare(ring):
    """Office 0 has read an entry of office 1, and another waits to be read."""
    ring.expect(0, "write 1 11", "wrote 0.1")
    ring.expect(1, "write 2 22", "wrote 1.1")
    ring.await_reply(0, "present 2", "22 by 1.1")
    ring.expect(0, "read 2", "22 by 1.1")
    ring.expect(1, "write 3 33", "wrote 1.2")
    ring.await_reply(0, "present 3", "33 by 1.2")
    ring.settle()


def expect_not_kept(ring, order):
    reply = ring.order(0, order)
    if not reply.startswith("not kept: ") or len(reply) < 12:
        raise Fault(f"no room, {order}: '{reply}'")


def while_full(ring):
    """Orders that change something are not kept, and say so; all others are answered as ever."""
    for value in range(90, 95):
        expect_not_kept(ring, f"write 4 {value}")
    expect_not_kept(ring, "new")
    for order, reply in (("read 1", "11 by 0.1"), ("read 2", "22 by 1.1"), ("read 4", "none"),
                         ("present 1", "none"), ("present 3", "33 by 1.2"),
                         ("read 3", "33 by 1.2 (not kept)"), ("read 60", "none")):
        answer_of(ring, order, reply)
    ring.expect(1, "write 5 55", "wrote 1.3")
    expect_not_kept(ring, "write 4 95")
    ring.expect(0, "heard", "2")
    ring.expect(1, "waiting", "1")
    return 8


def answer_of(ring, order, reply):
    """After a reading that is not kept the session differs from the file, so later replies may say
    so too; before it, none may."""
    got = ring.order(0, order)
    later = order == "read 60"
    if got != reply and not (later and got == reply + " (not kept)"):
        raise Fault(f"no room, {order}: '{got}', not '{reply}'")


def afterwards(ring):
    """All that was acknowledged is there, nothing that was not kept, and the serials go on."""
    ring.settle()
    ring.expect(0, "heard", "3")
    ring.expect(0, "write 4 44", "wrote 0.2")
    for _ in range(2):
        ring.expect(0, "read 4", "44 by 0.2")
        ring.expect(0, "read 1", "11 by 0.1")
        ring.expect(0, "read 5", "55 by 1.3")
        ring.settle()
        ring.expect(1, "present 4", "44 by 0.2")
        ring.kill(0)
        ring.start(0)
    refused = [line for line in ring.complaints().splitlines() if "refused" in line]
    if refused:
        raise Fault(f"an office said: {refused[0]}")


def limit_signal(program, folder):
    """A test: the same limit where the signal is not ignored from outside. Whether the office dies
    of it or goes on, nothing acknowledged is lost."""
    def test(_):
        with Ring(program, f"{folder}/signal", 2) as ring:
            ring.start_all()
            ring.expect(0, "write 1 11", "wrote 0.1")
            Limit.limit(ring.at[0], 1024)
            ring.at[0].send("write 2 22")
            what = after_signal(ring)
            ring.kill(0)
            ring.start(0)
            ring.expect(0, "read 1", "11 by 0.1")
            ring.expect(0, "write 2 23", "wrote 0.2")
            ring.await_reply(1, "present 2", "23 by 0.2")
        return what
    return test


def after_signal(ring):
    try:
        reply = ring.at[0].take()
    except Ended:
        return f"it ended with status {ring.at[0].wait()}"
    if not reply.startswith("not kept: "):
        raise Fault(f"no room, write 2 22: '{reply}'")
    ring.expect(0, "read 1", "11 by 0.1")
    return f"'{reply}'"
