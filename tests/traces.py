#!/usr/bin/env python3
"""Tries tools/traces: tests/traces.py

The bytes of lines; the message for each sort of bad line, and for each sort of damage to a trace; many traces shown and made again; a long trace
shown entry by entry; and input and output that cannot be read or written.
"""

import io
import random
import sys

import line_tools
import trace_files
from trace_lines import ENTRY_SIZE, MARK, entry

# Lines, and the bytes they make.
GOOD_LINES = (
    ("SB : 62 > FS", entry(1, [62], 4)),
    ("SB : > SB", entry(1, [], 1)),
    ("sb:62>fs", entry(1, [62], 4)),
    ("# remark\n\n  Fs\t: 71  76 >LS # tie\r\n", entry(4, [71, 76], 3)),
    ("SB : 1 91 > SR\nLS : > OV\nOS : > TR\nPT : > RV\nSH : > NL\nSF : > IS", b"".join(
        (entry(1, [1, 91], 2), entry(3, [], 5), entry(6, [], 7), entry(8, [], 9), entry(10, [], 11), entry(12, [], 13)))),
    ("1 : 062 > 00004", entry(1, [62], 4)),
    ("0 : > 14\n255 : > 13", entry(0, [], 14) + entry(255, [], 13)),
    ("SB : 5=2 > SB", entry(1, [5], 1, flag=2)),
    ("SB : 5=255 > SB", entry(1, [5], 1, flag=255)),
    ("SB : 5=1 6=0 > SB", entry(1, [5], 1)),
    ("bytes 4b 56\nSB : > SB\nbytes\nbytes FF", b"\x4b\x56" + entry(1, [], 1) + b"\xff"),
    ("", b""),
)

# Each bad line, and what its message says.
BAD_LINES = (
    ("SB 62 FS", "'SB 62 FS' will not do: write an entry like SB : 62 > FS, or bytes XX XX ..."),
    ("SB : 62", "'SB : 62' will not do: write an entry like"),
    ("SB : 62 >", "write an entry like"),
    (": 62 > FS", "write an entry like"),
    ("62 > FS", "write an entry like"),
    ("SB : 62 > FS > SB", "write an entry like"),
    ("SB : FS : 62 > FS", "write an entry like"),
    ("SB FS : 62 > FS", "write an entry like"),
    ("SB : 62 > FS SB", "write an entry like"),
    ("\0" * 99, "will not do: write an entry like"),
    ("SX : > SB", "'SX' will not do: a mode is one of SB, SR, LS, FS, OV, OS, TR, PT, RV, SH, NL, SF, IS, or a number up to 255"),
    ("SB : > 256", "'256' will not do: a mode is one of"),
    ("-1 : > SB", "'-1' will not do: a mode is one of"),
    (f"{'9' * 9999} : > SB", "a number up to 255"),
    ("SB : 0 > SB", "'0' will not do: a condition is a number from 1 to 91"),
    ("SB : 92 > SB", "'92' will not do: a condition is a number from 1 to 91"),
    ("SB : 60,62 > SB", "'60,62' will not do: a condition is a number from 1 to 91"),
    ("SB : ６２ > SB", "'６２' will not do: a condition is a number from 1 to 91"),
    ("ſb : > SB", "'ſb' will not do: a mode is one of"),
    ("SB : 62 -> FS", "'-' will not do: a condition is a number from 1 to 91; write an entry like SB : 62 > FS"),
    ("SB : 62 062 > FS", "condition 62 is named twice: name it once"),
    ("SB : 62 62=0 > FS", "condition 62 is named twice"),
    (f"SB : {'x' * 9999} > FS", f"'{'x' * 20}' will not do: a condition is"),
    (f"{'x' * 9999} : > FS", f"'{'x' * 20}' will not do: a mode is"),
    ("SB : 5=256 > SB", "'5=256' will not do: the byte of a flag holds a number up to 255"),
    ("SB : 5= > SB", "'5=' will not do: the byte of a flag holds a number up to 255"),
    ("SB : =2 > SB", "'=2' will not do: a condition is a number from 1 to 91"),
    ("bytes 4B 5", "write: bytes XX XX ... (two hexadecimal digits each)"),
    ("bytes : > SB", "write: bytes XX XX ... (two hexadecimal digits each)"),
)

# Each damage behind a good entry, what its message says, and the lines of bytes that follow.
WHOLE = " ".join(["4B 57"] + ["00"] * 14)
ZEROS = " ".join(["00"] * 16)
DAMAGES = (
    (b"\x4b", "the trace ends within it, after 1 of its 95 bytes", "bytes 4B\n"),
    (bytes(17), "the trace ends within it, after 17 of its 95 bytes", f"bytes {ZEROS}\nbytes 00\n"),
    (b"\x4b\x57" + bytes(93), "the mark is 4B 57, not 4B 56", f"bytes {WHOLE}\n" + f"bytes {ZEROS}\n" * 4 + f"bytes {ZEROS[:44]}\n"),
    (b"\x56\x4b" + bytes(94), "the mark is 56 4B, not 4B 56", f"bytes 56 4B{ZEROS[5:]}\n" + f"bytes {ZEROS}\n" * 5),
)


def lines(tool):
    """Lines, good and bad."""
    yield from tool.good_lines(GOOD_LINES)
    for line, message in BAD_LINES:
        yield from tool.bad_line("SB : > SB", line, "SB : > SB", message)
    yield from tool.byte_order_marks(b"SB : > SB\n")


def shown_lines(tool):
    """Lines as show writes them: names where there are some, and numbers where not."""
    for line in ("SB : 62 > FS", "FS : 71 76 > LS", "14 : 1 5=2 91=255 > 0", "SR : > OV", "OS : > TR", "PT : > RV", "SH : > NL", "SF : > IS"):
        found = tool.shown(tool.made(line.encode())[1])
        if found != (0, f"{line}\n".encode(), ""):
            yield f"'{line}' is shown as {found}"


def damages(tool):
    """Traces that are shown up to where they are damaged."""
    for damage, message, rest in DAMAGES:
        where = f"entry 2 at byte 95: {message}\n"
        wanted = f"SB : 62 > FS\n# the entries stop here: {where}{rest}".encode()
        found = tool.shown(entry("SB", [62], "FS") + damage)
        if found != (1, wanted, f"traces: {where}"):
            yield f"'{damage.hex(' ')}': {found}"


def sound(chance):
    """Entries whose modes and flags may be any that a byte holds."""
    return b"".join(
        MARK + bytes(chance.choice((0, 0, 0, 1, 1, 2, 255, chance.randrange(256))) for _ in range(ENTRY_SIZE - 2))
        for _ in range(chance.randint(0, 6))
    )


def damaged(chance):
    """One byte changed, put in or taken out, or the end cut off."""
    trace = bytearray(sound(chance) + entry("SB", [], "SB"))
    at = chance.randrange(len(trace))
    replaced, new = chance.choice(((1, 1), (0, 1), (1, 0), (len(trace), 0)))
    trace[at : at + replaced] = chance.randbytes(new)
    return bytes(trace)


def random_bytes(chance):
    return MARK * chance.randint(0, 1) + chance.randbytes(chance.randint(0, 200))


def again(tool, tries):
    """Traces shown and made again; sound ones are shown to their end."""
    chance = random.Random(12)
    sorts = (sound, damaged, random_bytes)
    for at in range(tries):
        sort = sorts[at % len(sorts)]
        trace = sort(chance)
        status, text, messages = tool.shown(trace)
        if status != int(messages != "") or (sort is sound and status) or tool.made(text) != (0, trace, ""):
            yield f"not the same again: {trace.hex(' ')}"


class Endless(io.RawIOBase):
    """So many entries, which are nowhere held; it keeps the most bytes that were asked for at once."""

    def __init__(self, count):
        super().__init__()
        self.left = count
        self.most = 0

    def read(self, size=-1):
        self.most = max(self.most, size if size >= 0 else ENTRY_SIZE * self.left)
        self.left -= 1
        return entry("SB", [], "SB") if self.left >= 0 else b""


def entry_by_entry(tool):
    """A long trace is read an entry at a time."""
    source, output = Endless(5000), io.BytesIO()
    status = tool.module.show(source, output)
    if (status, source.most, output.getvalue()) != (0, ENTRY_SIZE, b"SB : > SB\n" * 5000):
        yield f"5,000 entries: status {status}, {source.most} bytes asked for at once"


def runs(tool):
    """The tool run by itself."""
    for words in (["make"], ["show"]):
        yield from tool.streams(words)
    yield from tool.unwritten(["show"], trace_files.SAMPLES / "day.trace")
    yield from tool.unwritten(["make"], trace_files.SAMPLES / "day.txt")
    yield from tool.help_text(([], ["shown"], ["show", "old"], ["make", "show"], ["help"]))


def main():
    sys.dont_write_bytecode = True
    tool, tries = line_tools.LineTool("traces"), 600
    wrong = [*lines(tool), *shown_lines(tool), *damages(tool), *entry_by_entry(tool), *again(tool, tries), *runs(tool)]
    counts = f"{len(GOOD_LINES)} good lines, {len(BAD_LINES)} bad ones, {len(DAMAGES)} damages and {tries} traces"
    print(*wrong, f"{counts}, {len(wrong)} differences", sep="\n")
    return 1 if wrong else 0


if __name__ == "__main__":
    sys.exit(main())
