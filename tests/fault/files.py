"""Files that an office must not take: unreadable, foreign, damaged; and two processes on one."""

import os
import pwd
import re
import resource
import shutil
import stat

from report import Fault
from ring import Ended, Office, Ring

CANNOT_READ = re.compile(r"office: the file cannot be read: .+$")
FOREIGN = re.compile(r"office: the file is office (\d+)'s, of a ring of (\d+)$")
DAMAGED = re.compile(r"office: the file is damaged$")
NO_NUMBER = re.compile(r"office: the office has no number of the ring$")
USAGE = re.compile(r"office: usage: office OFFICES OWN FILE LINES \[POINT\]$")
TAKEN = re.compile(r"office: another process has this office$")


def contents(path):
    with open(path, "rb") as file:
        return file.read()


def put(path, data):
    with open(path, "wb") as file:
        file.write(data)


def refuse(ring, own, *sentences, file=None, user=None, offices=None):
    """Starts an office that must be refused."""
    command = [ring.program, str(offices or ring.offices), str(own), file or ring.file(own),
               ring.folder + "/lines"]
    return end_at_once(ring, command, *sentences, user=user)


def end_at_once(ring, command, *sentences, user=None):
    """It ends with status 1 and one of the sentences."""
    said = ring.folder + "/said-refused"
    put(said, b"")
    office = Office(command, said, user=user)
    try:
        office.send("read 1")
        office.hush()
        status = office.wait()
    finally:
        office.kill()
    words = office.last_words()
    if status != 1 or not any(sentence.match(words) for sentence in sentences):
        raise Fault(f"{' '.join(command[1:])}: status {status}, '{words[:200]}'")
    return words


def written_file(program, folder, offices=2, own=0):
    """A ring of which one office has entries, a session, and frames that wait."""
    ring = Ring(program, folder, offices)
    with ring:
        ring.start(own)
        for serial in range(1, 6):
            ring.expect(own, f"write {serial} {700 + serial}", f"wrote {own}.{serial}")
        ring.expect(own, "read 2", f"702 by {own}.2")
    return ring


def still_there(ring, own=0):
    """The file that all of this was about is as good as ever."""
    with ring:
        ring.start(own)
        ring.expect(own, "read 2", f"702 by {own}.2")
        ring.expect(own, "write 7 9", f"wrote {own}.6")


def unchanged(path, data):
    if contents(path) != data:
        raise Fault(f"{path} was changed")


def unreadable(program, folder):
    """A test: what cannot be read is no new office's file."""
    def test(_):
        ring = written_file(program, f"{folder}/unreadable")
        tried = ["a loop of links", "a directory", "a file for its folder", "links", "a pipe"]
        for attempt in (try_loop, try_directory, try_no_folder, try_links, try_pipe):
            attempt(ring)
        if try_forbidden(ring):
            tried.append("mode 0")
        return ", ".join(tried)
    return test


def try_loop(ring):
    path = ring.folder + "/loop"
    os.symlink("loop", path)
    refuse(ring, 0, CANNOT_READ, file=path)
    if not os.path.islink(path):
        raise Fault("a loop of links was replaced")


def try_directory(ring):
    path = ring.folder + "/directory"
    os.mkdir(path)
    refuse(ring, 0, CANNOT_READ, file=path)
    if not os.path.isdir(path):
        raise Fault("a directory was replaced")


def try_no_folder(ring):
    """Here it may be the lock that cannot be had: any sentence will do."""
    put(ring.folder + "/plain", b"x")
    refuse(ring, 0, re.compile("office: ."), file=ring.folder + "/plain/office-0")
    unchanged(ring.folder + "/plain", b"x")


def try_links(ring):
    """To its own memory, which opens and fails to be read; to nothing, to endless zeros; and to a
    disk that is not there, which is not the same as no file."""
    for goal in ("/proc/self/mem", "/dev/null", "/dev/zero", "no-disk/office-0"):
        path = f"{ring.folder}/{os.path.basename(goal)}-link"
        os.symlink(goal, path)
        refuse(ring, 0, CANNOT_READ, DAMAGED, file=path)
        if os.readlink(path) != goal:
            raise Fault(f"a link to {goal} was replaced")


def try_pipe(ring):
    """Nobody writes into it, so whoever waits for that waits for ever."""
    path = ring.folder + "/pipe"
    os.mkfifo(path)
    refuse(ring, 0, CANNOT_READ, DAMAGED, file=path)
    if not stat.S_ISFIFO(os.stat(path).st_mode):
        raise Fault("a pipe was replaced")


def try_forbidden(ring):
    """As another user where the test runs as root, since root may read all. False where that user
    is not there, or cannot come so far."""
    data, path, user = contents(ring.file(0)), ring.file(0), None
    if os.getuid() == 0:
        user = nobody()
        give(ring, user)
        if user is None or not can_reach(ring, user):
            return False
    os.chmod(path, 0)
    try:
        refuse(ring, 0, CANNOT_READ, user=user)
    finally:
        os.chmod(path, 0o600)
    unchanged(path, data)
    give(ring, os.getuid())
    still_there(ring)
    return True


def nobody():
    try:
        return pwd.getpwnam("nobody").pw_uid
    except KeyError:
        return None


def give(ring, user):
    """All files of a ring, to a user. What a link leads to stays whose it is."""
    for folder, _, names in os.walk(ring.folder):
        for path in [folder] + [f"{folder}/{name}" for name in names]:
            if user is not None and not os.path.islink(path):
                os.chown(path, user, -1)


def can_reach(ring, user):
    """Whether that user's office runs at all, on a file of its own."""
    office = Office([ring.program, "2", "0", ring.folder + "/fresh", ring.folder + "/lines"],
                    ring.folder + "/said-nobody", user=user)
    try:
        return office.order("read 1") == "none"
    except (Ended, Fault):
        return False
    finally:
        office.kill()


def few_descriptors(program, folder):
    """A test: with no descriptor left for the file it is refused, or else served as it is."""
    def test(_):
        ring = written_file(program, f"{folder}/descriptors")
        refused = 0
        for limit in range(3, 12):
            shutil.copy(ring.file(0), ring.folder + "/copy")
            data = contents(ring.folder + "/copy")
            refused += not starts_with(ring, limit)
            unchanged(ring.folder + "/copy", data)
        still_there(ring)
        return f"{refused} of 9 limits refused"
    return test


def starts_with(ring, limit):
    """Whether an office runs with so many descriptors. It must not take the file for none."""
    def before():
        resource.setrlimit(resource.RLIMIT_NOFILE, (limit, limit))

    command = [ring.program, "2", "0", ring.folder + "/copy", ring.folder + "/lines"]
    office = Office(command, ring.folder + "/said-limit", None, before)
    try:
        office.send("present 2")
        office.send("heard")
        office.hush()
        status = office.wait()
        if status not in (0, 1, 127):
            raise Fault(f"with {limit} descriptors: status {status}")
        return status == 0
    finally:
        office.kill()


def foreign(program, folder):
    """A test: a file of another office, and one of another ring."""
    def test(_):
        for offices, own, asked, asked_own in ((2, 0, 2, 1), (3, 0, 2, 0), (2, 1, 3, 1),
                                               (3, 2, 2, 1), (8, 7, 8, 0), (5, 4, 8, 4)):
            ring = written_file(program, f"{folder}/foreign", offices, own)
            data = contents(ring.file(own))
            words = refuse(ring, asked_own, FOREIGN, file=ring.file(own), offices=asked)
            if words != f"office: the file is office {own}'s, of a ring of {offices}":
                raise Fault(f"the file of {own} of {offices} as {asked_own} of {asked}: '{words}'")
            unchanged(ring.file(own), data)
            still_there(ring, own)
        return "6 files of other offices and rings"
    return test


def damaged(program, folder, flips):
    """A test: bits flipped, a file cut short or made longer."""
    def test(rng):
        ring = written_file(program, f"{folder}/damaged", rng.choice([2, 3, 8]))
        good = contents(ring.file(0))
        bad = [flip(good, rng.randrange(8 * len(good))) for _ in range(flips)]
        bad += [flip(good, bit) for bit in rng.sample(range(8 * 96), min(flips, 768) // 4)]
        bad += [good[:rng.randrange(len(good))] for _ in range(flips // 5)]
        bad += [good[:length] for length in (0, 1, 3, 4, 8, len(good) - 1, len(good) - 4)]
        bad += [good + tail for tail in (b"\0", b"\0\0\0\0", b"\xff" * 4, good)]
        bad += [b"\0" * len(good), b"\xff" * len(good), rng.randbytes(len(good))]
        for data in bad:
            put(ring.file(0), data)
            refuse(ring, 0, DAMAGED, FOREIGN, CANNOT_READ)
            unchanged(ring.file(0), data)
        put(ring.file(0), good)
        still_there(ring)
        return f"{len(bad)} damaged files of {len(good)} bytes"
    return test


def flip(data, bit):
    changed = bytearray(data)
    changed[bit // 8] ^= 1 << bit % 8
    return bytes(changed)


def settings(program, folder):
    """A test: settings that no office has. No file is made for them."""
    def test(_):
        ring = Ring(program, f"{folder}/settings", 2)
        path, lines = ring.file(0), ring.folder + "/lines"
        for offices, own in (("9", "0"), ("1", "0"), ("0", "0"), ("2", "2"), ("3", "7"),
                             ("4294967298", "0"), ("2", "4294967296"), ("-2", "0"), ("", "0"),
                             ("2", "x"), ("2x", "0")):
            end_at_once(ring, [program, offices, own, path, lines], NO_NUMBER, USAGE)
        for count in range(4):
            end_at_once(ring, [program, "2", "0", path, lines][:1 + count], USAGE)
        if os.path.exists(path):
            raise Fault("a file was made")
        return "15 sets of arguments"
    return test


def locked(program, folder):
    """A test: one process has a file, and none after it has died."""
    def test(_):
        with written_file(program, f"{folder}/locked") as ring:
            for _ in range(10):
                ring.start(0)
                ring.expect(0, "read 2", "702 by 0.2")
                data = contents(ring.file(0))
                refuse(ring, 0, TAKEN)
                refuse(ring, 0, TAKEN, file=f"{ring.folder}/./office-0")
                ring.at[0].stop()
                refuse(ring, 0, TAKEN)
                ring.at[0].go_on()
                unchanged(ring.file(0), data)
                ring.expect(0, "read 2", "702 by 0.2")
                ring.kill(0)
                race(ring)
            ring.start(0)
            ring.expect(0, "write 7 9", "wrote 0.6")
        return "10 times, 10 races"
    return test


def race(ring):
    """Two start at once: one of them has the file."""
    said = ring.folder + "/said-race"
    put(said, b"")
    pair = [Office(ring.command(0), said) for _ in range(2)]
    try:
        for office in pair:
            office.send("read 2")
        served = [answers(office) for office in pair]
    finally:
        for office in pair:
            office.kill()
    words = pair[0].last_words()
    if sorted(served) != [False, True] or not TAKEN.match(words):
        raise Fault(f"of two that start at once {sum(served)} are served; said: '{words}'")


def answers(office):
    try:
        return office.take() == "702 by 0.2"
    except Ended:
        return False
