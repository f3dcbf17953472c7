#!/usr/bin/env python3
"""Prints what ./bench trace must print of a trace, from documents 01 and 02 (T-12) alone: tests/trace_lines.py TRACE

The mode that is due is that of tests/mode_steps.py, which shares nothing with src/ or specs/. The exit status is 0, whatever the line says.
"""

import pathlib
import sys

import mode_steps

MARK = bytes.fromhex("4B 56")
FLAGS = 91
ENTRY_SIZE = 95


def entry(before, conditions, after, flag=1):
    """An entry; a mode is a name or any number, and the flags of the conditions have this value."""
    flags = bytearray(FLAGS)
    for condition in conditions:
        flags[condition - 1] = flag
    before, after = (mode_steps.NUMBER.get(mode, mode) for mode in (before, after))
    return MARK + bytes([before, *flags, after])


def mode(number):
    return f"{number} ({mode_steps.NAMES[number - 1]})"


def refusal(found, at):
    """Answer and words of the refusal of an entry that begins at this byte, or None. Its bytes are looked at in their order."""
    if len(found) < ENTRY_SIZE:
        return f"24: the trace ends within it, after {len(found)} of its {ENTRY_SIZE} bytes; give the whole trace, and nothing behind it"
    if found[:2] != MARK:
        return f"24: the mark 4B 56 does not stand at byte {at}, where it begins; see whether each entry before it has {ENTRY_SIZE} bytes"
    # Behind the mark the mode before is byte 0, the flag of condition n is byte n, and the mode after is the last.
    for place, byte in enumerate(found[2:]):
        if 1 <= place <= FLAGS:
            if byte > 1:
                return f"17: its flag of condition {place} is {byte}; a flag is 0 or 1"
        elif not 1 <= byte <= 13:
            return f"17: its mode {'after' if place else 'before'} is {byte}, which is no mode; modes are 1 to 13"
    return None


def verdict(trace):
    """Exit status and line of a trace."""
    left = None  # the mode after of the entry before
    for at in range(0, len(trace), ENTRY_SIZE):
        number, found = at // ENTRY_SIZE + 1, trace[at : at + ENTRY_SIZE]
        refused = refusal(found, at)
        if refused is not None:
            return 1, f"entry {number} is refused: answer {refused}"
        before, flags, after = found[2], found[3:-1], found[-1]
        if left not in (None, before):
            return 1, f"entry {number}: mode before: due {mode(left)}, not {mode(before)}"
        due = mode_steps.step(before, flags)[1]
        if after != due:
            return 1, f"entry {number}: mode after: due {mode(due)}, not {mode(after)}"
        left = after
    return 0, f"yes {len(trace) // ENTRY_SIZE}"


def main(words):
    if len(words) != 1:
        sys.exit(__doc__)
    print(verdict(pathlib.Path(words[0]).read_bytes())[1])


if __name__ == "__main__":
    main(sys.argv[1:])
