"""Orders that are none, and one that comes in two halves."""

from report import Fault
from ring import Ring

NONE = ("", " ", "write", "write 1", "write 1 2 3", "WRITE 1 1", " write 1 1", "write  1 1",
        "write -1 1", "write 1 x", "read", "read 1 ", "read x", "present", "new session", "heard 1",
        "write 1 1\0", "x" * 79, "x" * 80, "x" * 5000, "read 1" + 4000 * " ", "\xff\xfe")


def strange_orders(program, folder):
    """A test: one reply each, and nothing has changed."""
    def test(_):
        with Ring(program, f"{folder}/orders", 2) as ring:
            ring.start_all()
            for order in NONE:
                ring.expect(0, order, "what?")
            for order, number in (("write 64 1", 4), ("read 64", 4), ("present 64", 4),
                                  ("write 1 268435456", 5)):
                reply = ring.order(0, order)
                if not reply.startswith(f"refused {number}: "):
                    raise Fault(f"{order}: '{reply}', not refusal {number}")
            ring.expect(0, "write 1 268435455", "wrote 0.1")
            halves(ring)
        return f"{len(NONE)} that are none, 4 that are refused, 1 in two halves"
    return test


def halves(ring):
    """A clerk who stops in the middle of an order holds up nobody: his office hears on."""
    ring.at[1].put(b"wri")
    for serial in range(2, 6):
        ring.expect(0, f"write {serial} 7", f"wrote 0.{serial}")
    ring.await_reply(0, "waiting", "0")
    ring.at[1].put(b"te 9 8\n")
    got = ring.at[1].take()
    if got != "wrote 1.1":
        raise Fault(f"an order in two halves: '{got}'")
