"""One office of a ring, which has its store."""
from ctypes import byref
from typing import NamedTuple

from burial import ANSWER_WORDS, FRAME_WORDS, WRITE_WORDS, calls, room, row
from frames import found, split


class Ring(NamedTuple):
    """What the offices of one ring share."""
    offices: int
    plots: int


class Office:
    def __init__(self, ring, own, store):
        """For open and load."""
        self.ring, self.own, self.store = ring, own, store

    @classmethod
    def open(cls, ring, own):
        """An office that holds nothing. Each number of a ring is opened once."""
        store = room(calls.burial_store_need(ring.offices, own, ring.plots).words)
        calls.burial_open_office(ring.offices, own, ring.plots, store, len(store))
        return cls(ring, own, store)

    @classmethod
    def load(cls, ring, own, words):
        """An office as it was kept. The words must be those of this office in this ring, and the
        last that it had: from older ones it would make an id again that is already on its way."""
        store = row(words)
        kept = calls.burial_store_settings(store, len(store))
        if (kept.offices, kept.plots, kept.own) != (ring.offices, ring.plots, own):
            raise ValueError(f"the store is that of office {kept.own} of a ring of {kept.offices}"
                             f" with {kept.plots} plots, not that of office {own} of a ring of"
                             f" {ring.offices} with {ring.plots} plots")
        return cls(ring, own, store)

    def words(self):
        """The words to keep, before frames are sent and before a reply is told."""
        return self.store[:]

    def read(self, session, plot):
        """What the session finds on a plot, or None."""
        told = calls.burial_lent_read_plot(self.store, len(self.store), byref(session), plot)
        entry = told.entry
        return found(entry.value, entry.office, entry.serial) if told.found else None

    def read_joint(self, session, plots):
        """What it finds on up to 16 plots at one moment: for each an entry or None, as read."""
        listed, answer = row(plots), room(ANSWER_WORDS)
        calls.burial_lent_read_joint(self.store, len(self.store), byref(session),
                                     listed, len(listed), answer, len(answer))
        told = [answer[3 * k:3 * k + 3] for k in range(len(plots))]
        return [found(value, *divmod(id_, 256)) if there else None for there, value, id_ in told]

    def write(self, session, plot, value):
        """Writes a value to a plot. The frames go to the next office, in this order."""
        out = room(WRITE_WORDS)
        wrote = calls.burial_lent_write(self.store, len(self.store), byref(session), plot, value,
                                        out, len(out))
        return split(self.ring, out[:wrote.words])

    def hear(self, frame):
        """The frame to send to the next office, or None where all have heard it. A refused frame
        has not been heard."""
        words, out = row(frame), room(FRAME_WORDS)
        heard = calls.burial_receive(self.store, len(self.store), words, len(words), out, len(out))
        return out[:heard.words] or None
