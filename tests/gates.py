#!/usr/bin/env python3
"""Tries tools/gates: tests/gates.py

The bytes of lines written out and written short; the message for each sort of bad line, and for each sort of damage to a gate file; many
files shown and made again; and input and output that cannot be read or written.
"""

import random
import sys

import gate_files
import line_tools

GATE = "gate 650 m, number 12, suffix a, manned, class B1, whistling yes, type distance"

# Lines, and the bytes they make.
GOOD_LINES = (
    ("new", "30 40"),
    ("old", "30 40"),
    (f"new\n{GATE}", "30 E1 05 14 06 12 80"),
    (f"old\n{GATE}", "30 C1 20 81 84 A0"),
    (f"old\r\n{GATE}\r\n", "30 C1 20 81 84 A0"),
    ("# remark\n\n new # form\n\tgate 650 12 a manned B1 yes distance, # gate", "30 E1 05 14 06 12 80"),
    ("new\ngate 650,12,A,Manned,b1,YES,Distance", "30 E1 05 14 06 12 80"),
    ("new\ngate 650 number 12 1 0 class 2 1 type 0", "30 E1 05 14 06 12 80"),
    ("new\ngate 32767 1023 7 unmanned 7 yes 3", "30 E1 FF FF FF FF E0"),
    ("old\ngate 5110 1023 7 unmanned 7 yes 3", "30 C1 FF FF FF F8"),
    ("old\ngate 0 0 none manned Spl no distance", "30 C1 00 00 00 00"),
    ("old\nold\nbytes ff 0A\nold", "30 40 30 40 FF 0A 30 40"),
    ("", ""),
)

# Each bad line behind the line that begins its sub-packet, and what its message says.
BAD_LINES = (
    ("old", "gate 655 12 a manned B1 yes distance", "'655' will not do: the distance of a gate in the old form is a multiple of 10 up to 5110"),
    ("old", "gate 5120 12 a manned B1 yes distance", "a multiple of 10 up to 5110"),
    ("new", "gate 32768 12 a manned B1 yes distance", "in the new form is a whole number up to 32767"),
    ("new", "gate -10 12 a manned B1 yes distance", "'-10' will not do"),
    ("new", f"gate {'9' * 9999} 12 a manned B1 yes distance", "a whole number up to 32767"),
    ("new", "gate 650 1024 a manned B1 yes distance", "'1024' will not do: the number of a gate is a whole number up to 1023"),
    ("new", "gate 650 number suffix a manned B1 yes distance", "'suffix' will not do: the number"),
    ("new", "gate 650 12 f manned B1 yes distance", "'f' will not do: suffix is one of none, a, b, c, d, e, xx, or a number up to 7"),
    ("new", "gate 650 12 8 manned B1 yes distance", "a number up to 7"),
    ("new", "gate 650 12 a maned B1 yes distance", "'maned' will not do: manning is one of manned, unmanned"),
    ("new", "gate 650 12 a manned B3 yes distance", "'B3' will not do: class is one of Spl, A, B1, B2, B, C, D"),
    ("new", "gate 650 12 a manned B1 2 distance", "'2' will not do: whistling is one of no, yes"),
    ("new", "gate 650 12 a manned B1 yes 4", "'4' will not do: type is one of distance, time, pattern"),
    ("new", "gate 650 12 manned B1 yes distance", f"write it like this: {GATE}"),
    ("new", "gate 650 12 a manned B1 yes distance 0", f"write it like this: {GATE}"),
    ("new", "gate 650 12 a class manned B1 yes distance", f"write it like this: {GATE}"),
    ("new", "gate", f"write it like this: {GATE}"),
    ("new", "old", "the sub-packets before it are new: put those of the old form into a file of their own"),
    ("", GATE, "this gate is in no sub-packet: write a line old or new before it"),
    ("bytes 30 40", GATE, "this gate is in no sub-packet"),
    ("new", "new 3", "'new 3' will not do: a line is old, new, gate ... or bytes ..."),
    ("new", "gates 650", "'gates 650' will not do"),
    ("new", "\0" * 99, "will not do: a line is"),
    ("new", "bytes 3 40", "write: bytes XX XX ... (two hexadecimal digits each)"),
    ("new" + f"\n{GATE}" * 28, GATE, "more than 28 gates cannot be written: begin another sub-packet by a line new"),
    ("old" + f"\n{GATE}" * 31, GATE, "more than 31 gates cannot be written: begin another sub-packet by a line old"),
)

# Each damage behind a good sub-packet of 2 bytes, in the old form, and what its message says.
DAMAGES = (
    ("30", "a sub-packet begins with 2 bytes, and only 1 is left"),
    ("40 40", "the type is 4, not 3"),
    ("30 C1 20 81 84", "the length is 6 bytes, and only 5 are left"),
    ("30 21", "a count of 1 takes 6 bytes in the old form, and the length is 1"),
    ("30 A1 20 81 84 A0", "a count of 1 takes 6 bytes in the old form, and the length is 5"),
    ("30 E1 05 14 06 12 80", "a count of 1 takes 6 bytes in the old form, and the length is 7, that of the new form: try show new"),
    ("30 C1 20 81 84 A1 30 40", "the bits that fill up its last byte are not all zero"),
)


def lines(tool):
    """Lines, good and bad."""
    yield from tool.good_lines((text, bytes.fromhex(bytes_)) for text, bytes_ in GOOD_LINES)
    for before, line, message in BAD_LINES:
        yield from tool.bad_line(before, line, "old", message)
    yield from tool.byte_order_marks(b"old\n")


def shown(tool, form, file):
    return tool.shown(file, tool.module.FORMS[form])


def damages(tool):
    """Files that are shown up to where they are damaged."""
    for damage, message in DAMAGES:
        file = b"\x30\x40" + bytes.fromhex(damage)
        where = f"sub-packet 2 at byte 2: {message}\n"
        wanted = f"old\n# the gates stop here: {where}bytes {damage}\n".encode()
        if shown(tool, "old", file) != (1, wanted, f"gates: {where}"):
            yield f"'{damage}': {shown(tool, 'old', file)}"


def any_gates(chance, form):
    """A list whose fields may be any that their bits hold."""
    bits, step = gate_files.FORMS[form]
    values = {"distance": range(0, step << bits, step), **{name: range(2**width) for name, (width, _) in gate_files.FIELDS.items()}}
    count = chance.randint(0, 31 if form == "old" else 28)
    return [{name: chance.choice(held) for name, held in values.items()} for _ in range(count)]


def sound(chance, form):
    return b"".join(gate_files.pack(form, any_gates(chance, form)) for _ in range(chance.randint(0, 6)))


def damaged(chance, form):
    """One byte changed, put in or taken out, or the end cut off."""
    file = bytearray(sound(chance, form) + b"\x30\x40")
    at = chance.randrange(len(file))
    replaced, new = chance.choice(((1, 1), (0, 1), (1, 0), (len(file), 0)))
    file[at : at + replaced] = chance.randbytes(new)
    return bytes(file)


def random_bytes(chance, _):
    return b"\x30" * chance.randint(0, 1) + chance.randbytes(chance.randint(0, 60))


def again(tool, tries):
    """Files shown and made again; sound ones are shown to their end."""
    chance = random.Random(7)
    sorts = (sound, damaged, random_bytes)
    for at in range(tries):
        sort, form = sorts[at % len(sorts)], ("old", "new")[at // len(sorts) % 2]
        file = sort(chance, form)
        status, text, messages = shown(tool, form, file)
        if status != int(messages != "") or (sort is sound and status) or tool.made(text) != (0, file, ""):
            yield f"not the same again: {form} {file.hex(' ')}"


def runs(tool):
    """The tool run by itself."""
    for words in (["make"], ["show", "old"], ["show", "new"]):
        yield from tool.streams(words)
    for form in ("old", "new"):
        yield from tool.unwritten(["show", form], gate_files.SAMPLES / f"28-gates.{form}")
    yield from tool.help_text(([], ["show"], ["show", "older"], ["make", "old"], ["show", "old", "new"], ["help"]))


def main():
    sys.dont_write_bytecode = True
    tool, tries = line_tools.LineTool("gates"), 600
    wrong = [*lines(tool), *damages(tool), *again(tool, tries), *runs(tool)]
    counts = f"{len(GOOD_LINES)} good lines, {len(BAD_LINES)} bad ones, {len(DAMAGES)} damages and {tries} gate files"
    print(*wrong, f"{counts}, {len(wrong)} differences", sep="\n")
    return 1 if wrong else 0


if __name__ == "__main__":
    sys.exit(main())
