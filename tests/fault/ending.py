"""What must hold at the end of a trial, when every office is there again and nothing is under way.

An entry is shown by itself only at its last office, the one before its maker. That office hears it
only where every office in between held it and sent it on.
"""

from report import Fault


def name(entry):
    return f"{entry[0]}.{entry[1]}"


def write_last(clerks, own):
    """One more entry, on the plot that is for this office. The serial says how many it made."""
    ring, ledger = clerks.ring, clerks.ledger
    order = f"write {own} {clerks.next_value()}"
    ledger.ordered(own, order)
    reply = ring.order(own, order)
    if ledger.replied(own, order, reply):
        ledger.replied(own, "new", ring.order(own, "new"))
        return write_last(clerks, own)
    return max(serial for office, serial in ledger.told if office == own)


def check_counts(made, heard):
    """Each entry crossed each line once: an office heard what the others made."""
    for own, count in enumerate(heard):
        if count != sum(made) - made[own]:
            raise Fault(f"office {own} heard {count} frames, of {made} made")


def check_presented(clerks, made):
    """Each write on a plot of its own. Those acknowledged are there, at their last office, and of
    the others as many as there are serials left: none was made of nothing, and none twice."""
    ring, ledger = clerks.ring, clerks.ledger
    for value, (maker, plot) in list(ledger.tried.items()):
        if value not in ledger.forbidden and plot >= ring.offices:
            order = f"present {plot}"
            last = (maker - 1) % ring.offices
            ledger.replied(last, order, ring.order(last, order))
    seen = {entry for plots in ledger.shown for entry in plots.values()}
    for own, count in enumerate(made):
        for serial in range(1, count):
            if (own, serial) not in seen:
                raise Fault(f"{own}.{serial} is lost: office {(own - 1) % ring.offices} does not "
                            f"present it; acknowledged: {(own, serial) in ledger.told}")


def check_past(clerks):
    """Where an entry is shown, all is shown that its session had read or written before. Each plot
    has one entry here, so it is the one that the session knew."""
    ring, ledger = clerks.ring, clerks.ledger
    asked = {}
    for entry, past in ledger.past.items():
        last = (entry[0] - 1) % ring.offices
        for plot, known in past.items():
            order = f"present {plot}"
            if (last, plot) not in asked:
                asked[last, plot] = ring.order(last, order)
                ledger.replied(last, order, asked[last, plot])
            if plot >= ring.offices and ledger.shown[last].get(plot) != known:
                raise Fault(f"office {last} shows {name(entry)}, but not {name(known)} on plot "
                            f"{plot}, which its session knew: '{asked[last, plot]}'")


def check_own_readings(clerks):
    """What a session wrote or read, it reads."""
    for own in range(clerks.ring.offices):
        for plot in list(clerks.ledger.mine[own]):
            order = f"read {plot}"
            clerks.ledger.replied(own, order, clerks.ring.order(own, order))


def last_written(clerks, own):
    return max(entry for entry in clerks.ledger.told if entry[0] == own)


def tour(clerks):
    """Brings every entry out at every office. A clerk reads what is shown, and writes: at the next
    office backwards all that he had read is shown with his entry. After a round for each office
    but one, all is shown everywhere."""
    ring, ledger = clerks.ring, clerks.ledger
    for own in range(ring.offices):
        ledger.replied(own, "new", ring.order(own, "new"))
        for plot in sorted(set(clerks.used)):
            order = f"read {plot}"
            ledger.replied(own, order, ring.order(own, order))
    for _ in range(ring.offices - 1):
        for own in range(ring.offices):
            write_last(clerks, own)
        ring.settle()
        for own in range(ring.offices):
            after = (own + 1) % ring.offices
            entry = last_written(clerks, after)
            ring.expect(own, f"read {after}", f"{ledger.values[entry]} by {name(entry)}")
    check_everywhere(clerks)


def check_everywhere(clerks):
    ring, ledger = clerks.ring, clerks.ledger
    for entry, plot in ledger.told.items():
        if plot < ring.offices:
            continue
        for own in range(ring.offices):
            ring.expect(own, f"present {plot}", f"{ledger.values[entry]} by {name(entry)}")


def check(clerks, round_trip=False):
    """All of it. Says how many entries had been made when it began."""
    ring = clerks.ring
    ring.start_all()
    ring.settle()
    made = [write_last(clerks, own) for own in range(ring.offices)]
    heard = ring.settle()
    check_counts(made, heard)
    if not clerks.shared:
        check_presented(clerks, made)
        check_past(clerks)
    check_own_readings(clerks)
    if round_trip and not clerks.shared:
        tour(clerks)
    clerks.ledger.check_ranks()
    check_said(clerks)
    return sum(made) - ring.offices


def check_said(clerks):
    """Nothing on standard error, but what the trial brings about."""
    for line in clerks.ring.complaints().splitlines():
        if clerks.allowed is None or not clerks.allowed.match(line):
            raise Fault(f"an office said: {line}")
