"""Offices of the C example as processes: start, order, kill. Nothing here waits without a bound."""

import atexit
import ctypes
import os
import select
import shutil
import signal
import subprocess
import time

from report import Fault

# An office answers within this many seconds, whatever the others do; also on a busy machine.
BOUND = 15.0

LIBC = ctypes.CDLL(None)
PR_SET_PDEATHSIG = 1
living = set()


class Ended(Exception):
    """The process ended before it replied."""


def end_all():
    for office in list(living):
        office.kill()


atexit.register(end_all)


def die_with_parent():
    LIBC.prctl(PR_SET_PDEATHSIG, signal.SIGKILL)


class Office:
    """One process. What it says on standard error goes behind what is in the file `said`."""

    def __init__(self, command, said, env=None, before=None, user=None):
        def prepare():
            die_with_parent()
            if before is not None:
                before()

        with open(said, "ab") as error:
            self.process = subprocess.Popen(
                command, stdin=subprocess.PIPE, stdout=subprocess.PIPE, stderr=error, bufsize=0,
                env={**os.environ, **(env or {})}, preexec_fn=prepare, user=user, group=user)
        self.said = said
        self.name = " ".join(command[1:3])
        self.rest = b""
        living.add(self)

    def put(self, data):
        try:
            self.process.stdin.write(data)
        except BrokenPipeError:
            pass  # the reply that does not come tells it

    def send(self, order):
        self.put(order.encode() + b"\n")

    def take(self):
        """One reply."""
        limit = time.monotonic() + BOUND
        while b"\n" not in self.rest:
            left = limit - time.monotonic()
            ready = left > 0 and select.select([self.process.stdout], [], [], left)[0]
            if not ready:
                raise Fault(f"office {self.name} gave no answer within {BOUND:.0f} s")
            more = os.read(self.process.stdout.fileno(), 4096)
            if not more:
                raise Ended(self.name)
            self.rest += more
        line, self.rest = self.rest.split(b"\n", 1)
        return line.decode()

    def order(self, order):
        self.send(order)
        return self.take()

    def kill(self):
        """By force. Replies that had been given can still be taken."""
        if self not in living:
            return
        living.discard(self)
        self.process.kill()
        self.process.wait()
        self.process.stdin.close()

    def wait(self):
        """Its status, where it ends by itself."""
        try:
            status = self.process.wait(BOUND)
        except subprocess.TimeoutExpired:
            raise Fault(f"office {self.name} did not end within {BOUND:.0f} s") from None
        living.discard(self)
        self.process.stdin.close()
        return status

    def hush(self):
        """No more orders."""
        self.process.stdin.close()

    def stop(self):
        os.kill(self.process.pid, signal.SIGSTOP)

    def go_on(self):
        os.kill(self.process.pid, signal.SIGCONT)

    def last_words(self):
        with open(self.said, encoding="utf-8", errors="replace") as said:
            return said.read().strip()


class Ring:
    """A ring of offices in a folder of its own, which is made anew."""
    # So many seconds may its frames take to arrive everywhere.
    patience = 30.0

    def __init__(self, program, folder, offices, env=None):
        shutil.rmtree(folder, ignore_errors=True)
        os.makedirs(folder + "/lines")
        self.program, self.folder, self.offices = program, folder, offices
        self.env = env or (lambda own: {})
        self.elsewhere = {}  # files that are not in the folder
        self.at = [None] * offices

    def __enter__(self):
        return self

    def __exit__(self, *_):
        for own in range(self.offices):
            self.kill(own)

    def file(self, own):
        return self.elsewhere.get(own, f"{self.folder}/office-{own}")

    def said(self, own):
        return f"{self.folder}/said-{own}"

    def command(self, own, point=None):
        command = [self.program, str(self.offices), str(own), self.file(own),
                   self.folder + "/lines"]
        return command + ([point] if point else [])

    def start(self, own, point=None, before=None):
        self.at[own] = Office(self.command(own, point), self.said(own), self.env(own), before)

    def start_all(self):
        for own in range(self.offices):
            if self.at[own] is None:
                self.start(own)

    def kill(self, own):
        """The office that was there, with the replies that nobody took yet."""
        office, self.at[own] = self.at[own], None
        if office is not None:
            office.kill()
        return office

    def order(self, own, order):
        try:
            return self.at[own].order(order)
        except Ended:
            raise Fault(self.why_ended(own)) from None

    def number(self, own, order):
        reply = self.order(own, order)
        if not reply.isdigit():
            raise Fault(f"office {own}, {order}: '{reply}', not a number")
        return int(reply)

    def why_ended(self, own):
        status = self.at[own].wait()
        words = self.at[own].last_words() or "nothing said"
        return f"office {own} ended by itself with status {status}: {words}"

    def expect(self, own, order, reply):
        got = self.order(own, order)
        if got != reply:
            raise Fault(f"office {own}, {order}: '{got}', not '{reply}'")

    def await_reply(self, own, order, reply):
        limit = time.monotonic() + self.patience
        while (got := self.order(own, order)) != reply:
            if time.monotonic() > limit:
                raise Fault(f"office {own}, {order}: still '{got}' after {self.patience:.0f} s, "
                            f"not '{reply}'")
            time.sleep(0.005)

    def counts(self):
        """For each office, how many frames it heard and then how many wait there."""
        return [(self.number(own, "heard"), self.number(own, "waiting"))
                for own in range(self.offices)]

    def settle(self):
        """Until no frame is under way; how many each office heard. All is asked twice, since a
        frame may go on while the offices are asked in turn: then it is seen waiting, or it comes
        to an office after that was asked, and the second time that has heard more."""
        limit = time.monotonic() + self.patience
        before = self.counts()
        while True:
            now = self.counts()
            if now == before and all(waiting == 0 for _, waiting in now):
                return [heard for heard, _ in now]
            if time.monotonic() > limit:
                raise Fault(f"no end within {self.patience:.0f} s: heard and waiting {now}")
            before = now
            time.sleep(0.005)

    def complaints(self):
        """What the offices said on standard error, or an empty text."""
        texts = []
        for own in range(self.offices):
            if os.path.exists(self.said(own)):
                with open(self.said(own), encoding="utf-8", errors="replace") as said:
                    texts.append(said.read())
        return "".join(texts).strip()
