"""The numbers, the sizes of structs and the texts of burial.py and refused.py are the header's."""
import os
import re
from ctypes import sizeof

import burial
from refused import TEXTS, Refused

HEADER = os.path.join(burial.HERE, "../../include/burial_register.h")
NUMBERS = ("VERSION", "STORE_WORDS", "WRITE_WORDS", "FRAME_WORDS", "ANSWER_WORDS", "TOKEN_WORDS",
           "MAX_VALUE")
STRUCTS = {"entry": "Entry", "frame": "Frame", "session": "Session", "settings": "Settings",
           "need": "Words", "written": "Words", "token_read": "WithSession",
           "joint": "WithSession", "frame_read": "FrameRead", "plot_found": "PlotFound",
           "read": "Read", "wrote": "Wrote"}


def numbers(header):
    found = dict(re.findall(r"^#define BURIAL_(\w+) +(\w+)u\b", header, re.MULTILINE))
    return {name: int(found[name], 0) for name in NUMBERS}


def sizes(header):
    found = re.findall(r"^BURIAL_SIZE\(burial_(\w+), (\d+)\);", header, re.MULTILINE)
    return {name: int(size) for name, size in found}


def texts(header):
    """The strings that each `return` of burial_refusal_text puts together, the last for others."""
    told = re.findall(r"(?:case \w+|default): +return ((?:\"[^\"]*\"\s*)+);", header)
    return ["".join(re.findall(r"\"([^\"]*)\"", text)) for text in told]


def expect(found, wanted):
    if found != wanted:
        raise AssertionError(f"{found}, not {wanted}")


def main():
    with open(HEADER, encoding="utf-8") as file:
        header = file.read()
    expect({name: getattr(burial, name) for name in NUMBERS}, numbers(header))
    expect({name: sizeof(getattr(burial, kind)) for name, kind in STRUCTS.items()}, sizes(header))
    expect([*TEXTS, Refused(len(TEXTS)).text], texts(header))


if __name__ == "__main__":
    main()
