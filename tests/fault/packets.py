"""Bad packets and bad acknowledgements on the lines.

A packet is 270 words (examples/c/delivery.c): number, its complement, length, frame, zeros. An
acknowledgement is the number of frames heard and its complement. The words are in the machine's
own order.

A frame of which one word is changed is refused (9), so it is not heard, and the office says so
once; then the true one comes, and the line goes on. A number that does not go with its complement
is no number: what it came with is passed over.
"""

import os
import struct
import sys
import time

from report import Fault, Unshown
from ring import Ring
from stops import check_many, look_into, write_many

WORDS = 270
BYTES = 4 * WORDS
ENTRIES = 6
NUMBER = struct.Struct("@I")
NUMBERED = struct.Struct("@II")


def open_line(ring, name):
    return os.open(f"{ring.folder}/lines/{name}", os.O_RDWR | os.O_NONBLOCK)


def put_into(ring, name, data):
    """False where the line is full. It stays there only while an office has the line open."""
    line = open_line(ring, name)
    try:
        os.write(line, data)
    except BlockingIOError:
        return False
    finally:
        os.close(line)
    return True


def capture(ring, name, count):
    """So many packets from a line, taken away."""
    line, data, limit = open_line(ring, name), b"", time.monotonic() + 5
    try:
        while len(data) < count * BYTES and time.monotonic() < limit:
            try:
                data += os.read(line, BYTES)
            except BlockingIOError:
                time.sleep(0.005)
    finally:
        os.close(line)
    found = [data[at:at + BYTES] for at in range(0, count * BYTES, BYTES)]
    numbers = [NUMBER.unpack_from(packet)[0] for packet in found if len(packet) == BYTES]
    if numbers != list(range(count)):
        raise Unshown(f"packets are not as this test has them: numbers {numbers}")
    return found


def numbered(number):
    """A number as it crosses, with its complement."""
    return NUMBERED.pack(number, number ^ 0xFFFFFFFF)


def frame_words(packet):
    return NUMBER.unpack_from(packet, 8)[0]


def flipped(packet, rng):
    """One bit of the number, the length or the frame; the zeros behind it mean nothing."""
    bit = rng.randrange(32 * (3 + frame_words(packet)))
    changed = bytearray(packet)
    changed[bit // 8] ^= 1 << bit % 8
    return bytes(changed)


def await_taken(ring, name):
    """Until the office has taken all that was put into its line. When it next answers, it is past
    it."""
    limit = time.monotonic() + 5
    while look_into(f"{ring.folder}/lines/{name}")[0]:
        if time.monotonic() > limit:
            raise Fault("an office leaves packets in its line")
        time.sleep(0.001)


def flipped_frames(program, folder, flips):
    """A test: each frame comes with a bit flipped, several times, and then as it is."""
    def test(rng):
        for offices in (2, 3, 8):
            with Ring(program, f"{folder}/flipped", offices) as ring:
                ring.start(0)
                write_many(ring, 0, ENTRIES, 10)
                true = capture(ring, "to-1", ENTRIES)
                ring.at[0].stop()
                ring.start(1)
                refused = hear_flipped(ring, true, flips, rng)
                ring.at[0].go_on()
                ring.start_all()
                ring.settle()
                check_many(ring, 0, ENTRIES, 10)
                check_said(ring, refused)
        return f"{3 * ENTRIES * flips} flips, rings of 2, 3 and 8"
    return test


def hear_flipped(ring, true, flips, rng):
    """How many of the frames were refused at least once."""
    refused = 0
    for number, packet in enumerate(true):
        bad = [flipped(packet, rng) for _ in range(flips)]
        for spoilt in bad:
            put_into(ring, "to-1", spoilt)
            await_taken(ring, "to-1")
            ring.expect(1, "heard", str(number))
            ring.expect(1, "read 63", "none")
        refused += any(spoilt[:8] == packet[:8] for spoilt in bad)
        put_into(ring, "to-1", packet)
        ring.await_reply(1, "heard", str(number + 1))
    return refused


def check_said(ring, refused):
    """Once for each frame that was refused."""
    lines = ring.complaints().splitlines()
    if len(lines) != refused or not all("a frame is refused: 9: " in line for line in lines):
        raise Fault(f"{refused} frames were refused; said: {lines[:5]}")


def random_packets(program, folder, count):
    """A test: random words and odd pieces come, before and between the true packets."""
    def test(rng):
        for offices in (2, 5):
            with Ring(program, f"{folder}/random", offices) as ring:
                ring.start(1)
                ring.expect(1, "heard", "0")
                for _ in range(count):
                    put_into(ring, "to-1", junk(rng, ring))
                    ring.expect(1, "read 63", "none")
                ring.expect(1, "heard", "0")
                ring.start_all()
                for number in range(ENTRIES):
                    put_into(ring, "to-1", junk(rng, ring))
                    ring.expect(0, f"write {10 + number} {1 + number}", f"wrote 0.{1 + number}")
                ring.settle()
                check_many(ring, 0, ENTRIES, 10)
        return f"{2 * count} pieces before, {2 * ENTRIES} between"
    return test


def junk(rng, ring):
    """Mostly with the right number, so that it is looked at."""
    kind = rng.randrange(4)
    if kind == 0:
        return rng.randbytes(rng.randrange(1, 4 * BYTES % 4096))
    number = numbered(0) if kind != 1 else rng.randbytes(8)
    length = NUMBER.pack(rng.choice([0, 1, 7, 267, 268, 1 << 20, (1 << 32) - 1]))
    head = (1 << 28) | rng.randrange(ring.offices) << 24 | 1 << 16 | ring.offices << 8
    frame = head.to_bytes(4, sys.byteorder) + rng.randbytes(BYTES - 16)
    return number + length + (frame if kind == 3 else rng.randbytes(BYTES - 12))


def bad_answers(program, folder, count):
    """A test: acknowledgements of frames that were never written, old ones, damaged ones, and stray
    bytes."""
    def test(rng):
        with Ring(program, f"{folder}/answers", 3) as ring:
            ring.start(0)
            write_many(ring, 0, ENTRIES, 10)
            for _ in range(count):
                put_into(ring, "back-1", bad_answer(rng))
                # One at a time, so that each is looked at as it was put.
                await_taken(ring, "back-1")
                ring.expect(0, "waiting", str(ENTRIES))
            ring.start_all()
            ring.settle()
            check_many(ring, 0, ENTRIES, 10)
            if len(ring.complaints().splitlines()) > 1:
                raise Fault(f"said more than once: {ring.complaints()[:200]}")
        return f"{count} pieces"
    return test


def bad_answer(rng):
    kind = rng.randrange(5)
    if kind == 0:
        return b"\xff" * rng.randrange(1, 8)
    if kind == 1:
        return numbered(0)
    if kind == 2:
        # It names frames that are waiting, but not with its complement.
        return NUMBERED.pack(rng.randrange(1, ENTRIES + 1), rng.randrange(1 << 31))
    unwritten = rng.randrange(ENTRIES + 1, 1 << 32)
    return numbered(rng.choice([ENTRIES + 1, 1000, 1 << 31, unwritten]))


def full_answers(program, folder):
    """A test: the line back is full, since the office before stands still. Frames are heard."""
    def test(_):
        with Ring(program, f"{folder}/back", 2) as ring:
            ring.start(0)
            write_many(ring, 0, ENTRIES, 10)
            ring.expect(0, "waiting", str(ENTRIES))  # by now it has sent them
            ring.at[0].stop()
            while put_into(ring, "back-1", numbered(0) * 64):
                pass
            while put_into(ring, "back-1", numbered(0)):
                pass
            ring.start(1)
            ring.await_reply(1, "heard", str(ENTRIES))
            write_many(ring, 1, ENTRIES, 30)
            ring.at[0].go_on()
            ring.settle()
            for own, plot in ((0, 10), (1, 30)):
                check_many(ring, own, ENTRIES, plot)
        return "a full line back"
    return test


def test(report, program, folder, count):
    report.run("flipped frames", flipped_frames(program, folder, 3 + count // 10))
    report.run("random packets", random_packets(program, folder, 50 + count))
    report.run("bad acknowledgements", bad_answers(program, folder, 50 + count))
    report.run("full line back", full_answers(program, folder))
