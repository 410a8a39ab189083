"""Clerks of a ring: they give random orders, and the ledger checks each reply.

Each office has one clerk. An order may be under way while its office is struck: a reply that was
given before the office died counts, since the clerk has it; any other is lost.
"""

import time

from ledger import PERHAPS, SESSION_FULL, Ledger
from report import Fault
from ring import Ended

PLOTS = 64
# An office makes 32 entries for ever. The last ones are for the end: see ending.py.
MOST_TRIED = 24


class Clerks:
    def __init__(self, ring, rng, shared=False):
        """Shared: all write to a few plots; else each write has a plot of its own, so that nothing
        stands above it. Plots 0 to offices - 1 are for the end."""
        self.ring, self.rng = ring, rng
        self.ledger = Ledger(ring.offices)
        self.shared = shared
        self.allowed = None  # what an office may say on standard error
        self.free = list(range(ring.offices, PLOTS))
        rng.shuffle(self.free)
        self.used = []
        self.tries = [0] * ring.offices
        self.value = rng.randrange(1 << 20)
        self.full = [False] * ring.offices
        self.under_way = {}
        self.unanswered = 0
        self.usual = 0.003  # seconds that a write takes, of late

    def plot_to_write(self):
        if self.shared:
            plot = self.free[self.rng.randrange(5)]
        elif self.free:
            plot = self.free.pop()
        else:
            return None
        self.used.append(plot)
        return plot

    def next_value(self):
        self.value += 1 + self.rng.randrange(1000)
        return self.value

    def think_of(self, own, write=None):
        """An order. A clerk whose session is full begins a new one, and sometimes another does."""
        if self.full[own] or self.rng.random() < 0.03:
            return "new"
        if write is None:
            write = self.rng.random() < 0.5
        if write and self.tries[own] < MOST_TRIED:
            plot = self.plot_to_write()
            if plot is not None:
                return f"write {plot} {self.next_value()}"
        plot = self.rng.choice(self.used) if self.used else self.rng.randrange(PLOTS)
        return f"{self.rng.choice(['read', 'read', 'present'])} {plot}"

    def send(self, own, order):
        self.ledger.ordered(own, order)
        if order.startswith("write"):
            self.tries[own] += 1
        self.under_way[own] = order
        self.ring.at[own].send(order)

    def take(self, own):
        """The reply to the order that is under way."""
        try:
            reply = self.ring.at[own].take()
        except Ended:
            raise Fault(self.ring.why_ended(own)) from None
        self.note(own, reply)

    def note(self, own, reply):
        order = self.under_way.pop(own)
        refusal = self.ledger.replied(own, order, reply)
        if refusal == SESSION_FULL:
            self.full[own] = True
            self.take_back(own, order)
        elif order == "new" and (reply == "a new session" or PERHAPS.match(reply)):
            self.full[own] = False  # if it is still full, that is refused again

    def take_back(self, own, order):
        """It was refused, so the plot is still free."""
        self.tries[own] -= 1
        if not self.shared:
            self.free.append(int(order.split()[1]))

    def order(self, own, write=None):
        began = time.monotonic()
        order = self.think_of(own, write)
        self.send(own, order)
        self.take(own)
        if order.startswith("write"):
            spent = time.monotonic() - began
            self.usual += 0.3 * (spent - self.usual)

    def struck(self, own, office):
        """The office is dead; the reply that it had given, if any, is still in its pipe."""
        if own not in self.under_way:
            return
        try:
            self.note(own, office.take())
        except Ended:
            order = self.under_way.pop(own)
            self.unanswered += 1
            self.ledger.lost(own, order)
            if order == "new":
                self.full[own] = False
