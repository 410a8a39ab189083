"""Frames as lists of words, and the entries that they carry."""
from typing import NamedTuple

from burial import calls, row


class Found(NamedTuple):
    """An entry as it is handed back: its value, and its id as office.serial."""
    value: int
    id: str

    def __str__(self):
        return f"{self.value} by {self.id}"


def found(value, office, serial):
    return Found(value, f"{office}.{serial}")


def entry_of(ring, frame):
    """The entry that a frame carries."""
    words = row(frame)
    entry = calls.burial_read_frame(words, len(words), ring.offices, ring.plots).frame.entry
    return found(entry.value, entry.office, entry.serial)


def split(ring, words):
    """The frames of a row in which each begins right after the one before."""
    frames = []
    while words:
        # Head, plot, value and check; a clock; and as many dependencies as the head says.
        length = 4 + ring.offices + (words[0] & 0xFF)
        frames.append(words[:length])
        words = words[length:]
    return frames
