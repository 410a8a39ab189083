"""One line for each behaviour, and the counts at the end."""

import random
import time
import traceback


class Fault(Exception):
    """An office did what it must not do."""


class Unshown(Exception):
    """What a test needs did not come about, so it has shown nothing."""


class Report:
    def __init__(self, seed, only=""):
        self.seed = seed
        self.only = only
        self.passed = 0
        self.failed = 0

    def random(self, name):
        """By name, so that a test that is left out changes nothing for the others."""
        return random.Random(f"{self.seed} {name}")

    def run(self, name, test):
        """Test takes a random source and says its figures; what it finds wrong it raises."""
        if not name.startswith(self.only):
            return
        seed = self.random(name).randrange(1 << 31)
        began = time.monotonic()
        try:
            figures = test(random.Random(seed))
        except (Fault, Unshown) as fault:
            self.fail(name, f"{one_line(fault)}, seed {seed}")
        except Exception as error:  # a test that breaks has shown nothing
            traceback.print_exc()
            self.fail(name, f"the test itself broke: {error!r}, seed {seed}")
        else:
            self.passed += 1
            spent = time.monotonic() - began
            print(f"ok faults: {name} ({figures}; seed {seed}, {spent:.1f} s)", flush=True)

    def fail(self, name, what):
        self.failed += 1
        print(f"FAILED faults: {name}: {what}", flush=True)

    def end(self):
        """The status of the run."""
        print(f"faults: {self.passed} passed, {self.failed} failed", flush=True)
        return 1 if self.failed or not self.passed else 0


def one_line(fault):
    return " / ".join(str(fault).splitlines())


def say_trial(name, seed, figures):
    print(f"  {name}: seed {seed}, {figures}", flush=True)
