"""Builds the C example as examples/c/run does, and the shim of the power cuts."""

import glob
import os
import subprocess

ARCHIVE = "target/staticlib/libhost.a"
FOLDER = "target/faults"
STRICT = ["-std=c11", "-O2", "-Wall", "-Wextra", "-Wpedantic", "-Werror"]


class NotBuilt(Exception):
    """With what the compiler said."""


def compile_to(program, *arguments):
    done = subprocess.run([os.environ.get("CC", "gcc"), *STRICT, *arguments, "-o", program],
                          capture_output=True, text=True)
    if done.returncode != 0:
        raise NotBuilt(f"{program} does not build:\n{done.stdout}{done.stderr}")
    return program


def office(sources, program):
    """From a folder of sources."""
    if not os.path.exists(ARCHIVE):
        raise NotBuilt(f"there is no {ARCHIVE}: run 'scripts/build host' first")
    return compile_to(program, "-D_POSIX_C_SOURCE=200809L", "-Iinclude",
                      *sorted(glob.glob(sources + "/*.c")), ARCHIVE)


def shim():
    return compile_to(os.path.abspath(FOLDER + "/power.so"), "-D_GNU_SOURCE", "-shared", "-fPIC",
                      "tests/fault/power.c")
