"""The offices of one ring in one process, with a line to each."""
from collections import deque

from frames import entry_of
from office import Office


class House:
    def __init__(self, ring):
        self.ring = ring
        self.offices = [Office.open(ring, own) for own in range(ring.offices)]
        # For each office the frames on their way to it, oldest first.
        self.lines = [deque() for _ in range(ring.offices)]

    def next(self, own):
        return (own + 1) % self.ring.offices

    def write(self, own, session, plot, value):
        """Writes at an office and sends the frames on their way; the ids of these are handed back.
        Between the two a host with files keeps the office, the session and the frames."""
        frames = self.offices[own].write(session, plot, value)
        self.lines[self.next(own)].extend(frames)
        return [entry_of(self.ring, frame).id for frame in frames]

    def hear(self, own):
        """Hears the oldest frame that waits at an office, and sends it on unless all have heard
        it. A refused one stays where it is. Hands back which it was, or None where none was."""
        line = self.lines[own]
        if not line:
            return None
        onward = self.offices[own].hear(line[0])
        heard = entry_of(self.ring, line.popleft()).id
        if onward:
            self.lines[self.next(own)].append(onward)
        return heard
