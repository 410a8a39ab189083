"""What the clerks were told, and what they may be told after it by paper 01.

Each order to write has a value of its own, so an entry that anyone is told of is known by its
value: it must be the one that was ordered, and have one id for good.

Rank. A reply shows no clock, so ranks are not compared; but all entries have one order of rank.
Each reply that must stand at or above an earlier one says `lower, higher`, and these sayings
together must have no circle. What is said, with every session at one office for life:
- An entry once shown stays shown, so what an office presents on a plot only rises, and what a
  session reads there is at or above it. Nor is it `none` again.
- A session hands back the higher of the presented entry and its own ones: its readings only rise,
  and are at or above its own writes.
- A write has the join of the clocks of office and session, and one more at its own place: it is
  above all that was shown there and all that its session read or wrote.
- An entry of another office that a session reads is shown at its office. An own one may be hidden.
- An entry depends on all that its session had read or written: where it is shown, so are these.
- So of two entries of one office the later is above the earlier: what its session had read was
  shown there, and is in the clock of all that is made there later.
"""

import re
from collections import defaultdict

from report import Fault

WROTE = re.compile(r"wrote (\d+)\.(\d+)$")
ENTRY = re.compile(r"(\d+) by (\d+)\.(\d+)( \(not kept\))?$")
NONE = re.compile(r"none( \(not kept\))?$")
REFUSED = re.compile(r"refused (\d+): .")
NOT_KEPT = re.compile(r"not kept: .")
# Where a sync of the directory fails, nobody knows: as good as no reply.
PERHAPS = re.compile(r"not kept: .+, or perhaps kept$")

SESSION_FULL = 7


class Ledger:
    def __init__(self, offices):
        self.offices = offices
        self.tried = {}                 # value: office and plot of the order to write it
        self.ids = {}                   # value: id
        self.values = {}                # id: value
        self.told = {}                  # id: plot; acknowledged to a clerk
        self.forbidden = set()          # values that were `not kept`
        self.mine = [{} for _ in range(offices)]   # plot: id that the session knows
        self.shown = [{} for _ in range(offices)]  # plot: id that was shown there
        self.above = defaultdict(set)   # plot: pairs of ids, the lower first
        self.past = {}                  # id: what its session knew before, by plot

    def ordered(self, own, order):
        word, *numbers = order.split()
        if word == "write":
            plot, value = map(int, numbers)
            self.tried[value] = (own, plot)

    def lost(self, own, order):
        """The reply did not come: a write may be made or not. So may a new session."""
        if order == "new":
            self.mine[own] = {}

    def replied(self, own, order, reply):
        """The number of the refusal, or 0."""
        word, *numbers = order.split()
        numbers = [int(number) for number in numbers]
        if PERHAPS.match(reply):
            self.lost(own, order)
            return 0
        refused = REFUSED.match(reply)
        if refused:
            return self.refused(own, order, int(refused[1]))
        if word == "write":
            self.wrote(own, order, numbers, reply)
        elif word == "new":
            self.began(own, reply)
        else:
            self.read(own, order, numbers[0], reply)
        return 0

    def refused(self, own, order, number):
        if not order.startswith("write") or number != SESSION_FULL:
            raise Fault(f"office {own}, {order}: refused {number}")
        self.forbidden.add(int(order.split()[2]))
        return number

    def began(self, own, reply):
        if reply == "a new session":
            self.mine[own] = {}
        elif not NOT_KEPT.match(reply):
            raise Fault(f"office {own}, new: '{reply}'")

    def wrote(self, own, order, numbers, reply):
        plot, value = numbers
        if NOT_KEPT.match(reply):
            self.forbidden.add(value)
            return
        match = WROTE.match(reply)
        if not match or int(match[1]) != own:
            raise Fault(f"office {own}, {order}: '{reply}'")
        entry = (own, int(match[2]))
        if entry in self.told:
            raise Fault(f"{own}.{entry[1]} was acknowledged twice")
        self.name(value, entry)
        self.told[entry] = plot
        self.past[entry] = dict(self.mine[own])
        for known in (self.mine[own], self.shown[own]):
            self.rise(plot, known.get(plot), entry)
        self.mine[own][plot] = entry

    def read(self, own, order, plot, reply):
        match = ENTRY.match(reply)
        if not match and not NONE.match(reply):
            raise Fault(f"office {own}, {order}: '{reply}'")
        presents = order.startswith("present")
        known = [self.shown[own]] if presents else [self.shown[own], self.mine[own]]
        floors = [rows[plot] for rows in known if plot in rows]
        if not match:
            if floors:
                raise Fault(f"office {own}, {order}: none, after {floors[0]} had been seen")
            return
        entry = self.was_tried(own, order, plot, match)
        if match[4]:
            return  # a crash may take it back, and another entry may get its id
        self.name(int(match[1]), entry)
        for floor in floors:
            self.rise(plot, floor, entry)
        self.keep_in_mind(own, plot, entry, presents)

    def keep_in_mind(self, own, plot, entry, presents):
        if presents or entry[0] != own:
            self.shown[own][plot] = entry
        if not presents:
            self.mine[own][plot] = entry

    def was_tried(self, own, order, plot, match):
        value, entry = int(match[1]), (int(match[2]), int(match[3]))
        if value not in self.tried or value in self.forbidden:
            raise Fault(f"office {own}, {order}: value {value}, which was never written")
        if self.tried[value] != (entry[0], plot):
            raise Fault(f"office {own}, {order}: value {value} by office {entry[0]}, "
                        f"which office {self.tried[value][0]} had for plot {self.tried[value][1]}")
        return entry

    def name(self, value, entry):
        """One id for a value, one value for an id."""
        if self.ids.setdefault(value, entry) != entry:
            raise Fault(f"value {value} is {self.ids[value]} and {entry}: made twice")
        if self.values.setdefault(entry, value) != value:
            raise Fault(f"{entry} has the values {self.values[entry]} and {value}")

    def rise(self, plot, lower, higher):
        if lower is not None and lower != higher:
            self.above[plot].add((lower, higher))

    def check_ranks(self):
        """Takes away entries that nothing is below, again and again; a circle stays."""
        for plot, pairs in self.above.items():
            pairs = set(pairs) | self.by_serial(plot)
            while pairs:
                higher = {high for _, high in pairs}
                free = {pair for pair in pairs if pair[0] not in higher}
                if not free:
                    raise Fault(f"readings of plot {plot} went back: {sorted(pairs)}")
                pairs -= free

    def by_serial(self, plot):
        entries = sorted(entry for entry, value in self.values.items()
                         if self.tried[value][1] == plot)
        return {pair for pair in zip(entries, entries[1:]) if pair[0][0] == pair[1][0]}

    def acknowledged(self):
        return len(self.told)
