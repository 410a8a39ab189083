"""The calls of include/burial_register.h, by ctypes.

burial.calls.burial_... takes what the header says. A call that is refused raises Refused, and has
changed nothing. A row is an array of words, from row or room, and crosses with its length.
"""
import os
from array import array
from ctypes import POINTER, PyDLL, Structure, c_size_t, c_uint8, c_uint32

from refused import Refused

VERSION = 0x010200
STORE_WORDS, WRITE_WORDS, FRAME_WORDS, ANSWER_WORDS, TOKEN_WORDS = 4627, 4272, 267, 48, 4538
MAX_VALUE = 0xFFFFFFF
# Made by examples/python/run; BURIAL_SO may name another place.
HERE = os.path.dirname(os.path.abspath(__file__))
BUILT = os.path.join(HERE, "../../target/examples/libburial_register.so")


def row(words):
    """A row of these words."""
    return (c_uint32 * len(words))(*array("I", words))  # an array refuses what is no word


def room(words):
    """A row of so many words, for a call to write to."""
    return (c_uint32 * words)()


class Number:
    """A word as an argument; any other number raises ArgumentError. By itself ctypes would cut a
    greater number down to 32 bits."""

    @staticmethod
    def from_param(number):
        return c_uint32(row([number])[0])


class Entry(Structure):
    _fields_ = [("office", c_uint32), ("serial", c_uint32), ("plot", c_uint32),
                ("value", c_uint32), ("clock", c_uint32 * 8), ("deps", c_uint32 * 8)]


class Frame(Structure):
    _fields_ = [("offices", c_uint32), ("hops", c_uint32), ("entry", Entry)]


class Session(Structure):
    _fields_ = [("offices", c_uint32), ("clock", c_uint32 * 8), ("read", c_uint32 * 8),
                ("count", c_size_t), ("own", Entry * 16)]


def reply(name, *fields):
    """What a call hands back: a refusal number, 0 for none, and then these fields."""
    return type(name, (Structure,), {"_fields_": [("refusal", c_uint32), *fields]})


FOUND, WORDS, WITH = ("found", c_uint32), ("words", c_size_t), ("session", Session)
Settings = reply("Settings", ("offices", c_uint32), ("own", c_uint32), ("plots", c_uint32))
Words = reply("Words", WORDS)  # burial_need, burial_written
WithSession = reply("WithSession", WITH)  # burial_token_read, burial_joint
FrameRead = reply("FrameRead", ("frame", Frame))
PlotFound = reply("PlotFound", FOUND, ("entry", Entry))
Read = reply("Read", FOUND, ("entry", Entry), WITH)
Wrote = reply("Wrote", WORDS, WITH)

ROW, BYTES, LENT = [POINTER(c_uint32), c_size_t], [POINTER(c_uint8), c_size_t], POINTER(Session)
CALLS = {  # what each hands back, and what it takes
    "burial_version": (c_uint32, []),
    "burial_store_need": (Words, [Number, Number, Number]),
    "burial_store_settings": (Settings, [*ROW]),
    "burial_open_office": (c_uint32, [Number, Number, Number, *ROW]),
    "burial_fresh_session": (WithSession, [Number]),
    "burial_join_sessions": (WithSession, [Number, Number, Session, Session]),
    "burial_lent_read_plot": (PlotFound, [*ROW, LENT, Number]),
    "burial_lent_read_joint": (c_uint32, [*ROW, LENT, *ROW, *ROW]),
    "burial_lent_write": (Words, [*ROW, LENT, Number, Number, *ROW]),
    "burial_receive": (Words, [*ROW, *ROW, *ROW]),
    "burial_read_token": (WithSession, [*ROW, Number, Number]),
    "burial_write_token": (Words, [Session, *ROW]),
    "burial_check_frame": (c_uint32, [*BYTES, Number, Number]),
    "burial_read_frame": (FrameRead, [*ROW, Number, Number]),
    "burial_write_frame": (Words, [Frame, *ROW]),
    "burial_read_plot": (Read, [*ROW, Session, Number]),
    "burial_read_joint": (WithSession, [*ROW, Session, *ROW, *ROW]),
    "burial_write": (Wrote, [*ROW, Session, Number, Number, *ROW]),
}


def checked(result, _call, _arguments):
    refusal = result if isinstance(result, int) else result.refusal
    if refusal:
        raise Refused(refusal)
    return result


def bind(path):
    # PyDLL keeps other threads out of a call, since two must not meet in one row.
    library = PyDLL(path)
    for name, (result, takes) in CALLS.items():
        call = getattr(library, name)
        call.restype, call.argtypes = result, takes
        if name != "burial_version":
            call.errcheck = checked
    if library.burial_version() != VERSION:
        raise ImportError(f"the library is of version {library.burial_version():#08x}")
    return library


calls = bind(os.environ.get("BURIAL_SO", BUILT))
