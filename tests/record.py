#!/usr/bin/env python3
"""Tries tools/record: tests/record.py

The message for each sort of bad line, and for each sort of damage to a recording; many recordings shown and made again.
"""

import contextlib
import importlib.machinery
import importlib.util
import io
import pathlib
import random
import sys

import recordings

TOOL = pathlib.Path(__file__).resolve().parent.parent / "tools" / "record"

# Each bad line, and what its message says.
BAD_LINES = (
    ("request 7", "write: request LOCO BYTES"),
    ("request 7 100 1", "write: request LOCO BYTES"),
    ("request 7 65536", "use a whole number from 0 to 65535"),
    ("request 4294967296 1", "use a whole number from 0 to 4294967295"),
    ("request -7 1", "'-7' will not do"),
    ("release seven 1", "'seven' will not do"),
    ("flags 7 1 71", "write: flags LOCO TICKET : CONDITION"),
    ("flags 7 1 : 92", "use a whole number from 1 to 91"),
    ("flags 7 1 : 0", "use a whole number from 1 to 91"),
    ("flags 7 1 : 5=256", "use a whole number from 0 to 255"),
    ("position 7 1 none 3", "'none' will not do"),
    ("authority 7 1 4294967295", "use a whole number from 0 to 4294967294, or none"),
    ("sos 7 1 8 2 grid 3", "write: sos LOCO TICKET / LOCO TICKET grid GRID"),
    ("sos 7 1 / 8 2 3", "write: sos LOCO TICKET / LOCO TICKET grid GRID"),
    ("back", "write: back K"),
    ("bytes 4B 5", "write: bytes XX XX"),
    ("ask 7 100", "no record is called 'ask'"),
)


# Each damage behind a good record, and what its message says.
GOOD = bytes.fromhex("4B 56 09 02 00 01")
DAMAGES = (
    ("4B 56 09", "record 2, at byte 6: a record begins with 4 bytes, and only 3 are left"),
    ("4B 57 09 02 00 01", "record 2, at byte 6: the mark is 4B 57, not 4B 56"),
    ("4B 56 00 00", "record 2, at byte 6: the kind is 0, not 1 to 9"),
    ("4B 56 0A 02 00 01", "record 2, at byte 6: the kind is 10, not 1 to 9"),
    ("4B 56 09 03 00 01 00", "record 2, at byte 6: kind 9 has a payload of 2 bytes, not 3"),
    ("4B 56 09 02 00", "record 2, at byte 6: the payload has 2 bytes, and only 1 are left"),
)


def load():
    """The tool as a module."""
    loader = importlib.machinery.SourceFileLoader("record", str(TOOL))
    module = importlib.util.module_from_spec(importlib.util.spec_from_loader("record", loader))
    loader.exec_module(module)
    return module


def made(tool, lines):
    """Exit status, recording and messages of make."""
    output, messages = io.BytesIO(), io.StringIO()
    with contextlib.redirect_stderr(messages):
        status = tool.make(io.BytesIO(lines), output)
    return status, output.getvalue(), messages.getvalue()


def shown(tool, recording):
    """Exit status, lines and messages of show."""
    output, messages = io.StringIO(), io.StringIO()
    with contextlib.redirect_stderr(messages):
        status = tool.show(io.BytesIO(recording), output)
    return status, output.getvalue().encode(), messages.getvalue()


def main():
    sys.dont_write_bytecode = True
    tool, wrong, tries = load(), [], 0
    for line, message in BAD_LINES:
        status, recording, messages = made(tool, f"# first\n{line}\n".encode())
        if status != 1 or recording or not messages.startswith("record: line 2: ") or message not in messages:
            wrong.append(f"'{line}': {messages}")
    for damage, message in DAMAGES:
        status, lines, messages = shown(tool, GOOD + bytes.fromhex(damage))
        if status != 1 or messages != f"record: {message}\n" or not lines.startswith(f"back 1\n# the recording stops here: {message}\n".encode()):
            wrong.append(f"'{damage}': {messages}")
    chance = random.Random(2)
    sorts = (recordings.sound, recordings.hostile, recordings.random_bytes, recordings.damaged, recordings.cut)
    for tries in range(1, 501):
        recording = sorts[tries % len(sorts)](chance)
        status, lines, messages = shown(tool, recording)
        if status != int(messages != "") or made(tool, lines) != (0, recording, ""):
            wrong.append(f"not the same again: {recording.hex(' ')}")
    print(*wrong, f"{len(BAD_LINES)} bad lines, {len(DAMAGES)} damages and {tries} recordings, {len(wrong)} differences", sep="\n")
    return 1 if wrong else 0


if __name__ == "__main__":
    sys.exit(main())
