#!/usr/bin/env python3
"""Tries the program that moves gate files from one form to the other: tests/gate_files.py BENCH [LISTS [SEED]]

BENCH is the program as ./bench is. A file of LISTS random gate lists (60 unless said) is moved forward and back, and another back and
forward, both compared with what whole numbers give; then come files that are refused, each with its status, the numbers of its message and
what was written before; words, files and streams of all sorts; and the samples. The exit status is 1 where something differs.
"""

import collections
import pathlib
import random
import re
import subprocess
import sys
import tempfile

import programs
import recordings

ROOT = pathlib.Path(__file__).resolve().parent.parent
SAMPLES = ROOT / "samples" / "gates"

# From which form to which. Of a form the bits of a distance, and the metres of one step of it.
WAYS = {"forward": ("old", "new"), "back": ("new", "old")}
FORMS = {"old": (9, 10), "new": (15, 1)}

# The fields behind a distance: their bits, and what is allowed.
FIELDS = {
    "number": (10, range(1, 1023)),
    "suffix": (3, range(7)),
    "manning": (1, range(2)),
    "class": (3, range(7)),
    "whistling": (1, range(2)),
    "type": (2, range(3)),
}

# What a refusal says: the sub-packet, counted from 1, the byte at which it begins, the answer, and the place.
Refusal = collections.namedtuple("Refusal", "sub_packet byte answer place")
MESSAGE = re.compile(rb"bench: sub-packet (\d+) at byte (\d+) is refused: answer (\d+), place (\d+): \S.*\n")


# Gate files.


def gate_bits(form):
    return FORMS[form][0] + sum(bits for bits, _ in FIELDS.values())


def end(form, gates):
    """The bit behind so many gates."""
    return 16 + gate_bits(form) * gates


def size(form, gates):
    """The bytes that they take, rounded up."""
    return (end(form, gates) + 7) // 8


def padding(form, gates):
    """The bits that fill up to a byte."""
    return 8 * size(form, gates) - end(form, gates)


def place(form, gate, field):
    """Where a field of a gate, counted from 0, starts."""
    names = list(FIELDS)
    before = 0 if field == "distance" else FORMS[form][0] + sum(FIELDS[name][0] for name in names[: names.index(field)])
    return end(form, gate) + before


def pack(form, gates, length=None, count=None, pad=0, kind=3):
    """A sub-packet of gates, whose distances are in metres; or one that is wrong in a named way."""
    bits, step = FORMS[form]
    number = (kind << 7 | (size(form, len(gates)) if length is None else length)) << 5 | (len(gates) if count is None else count)
    for gate in gates:
        number = number << bits | gate["distance"] // step
        for name, (width, _) in FIELDS.items():
            number = number << width | gate[name]
    return (number << padding(form, len(gates)) | pad).to_bytes(size(form, len(gates)), "big")


def some(chance, values):
    """One of these, at an end more often than not."""
    return chance.choice((values[0], values[-1], chance.choice(values)))


def some_gates(chance, count):
    """Gates that both forms hold, and the rules allow."""
    allowed = {"distance": range(0, 5120, 10), **{name: values for name, (_, values) in FIELDS.items()}}
    return [{name: some(chance, values) for name, values in allowed.items()} for _ in range(count)]


def some_lists(chance, count):
    """So many lists, of 0 to 28 gates in turn and in any order."""
    lists = [some_gates(chance, at % 29) for at in range(count)]
    chance.shuffle(lists)
    return lists


def packed(form, lists):
    return b"".join(pack(form, gates) for gates in lists)


# The program.


class Bench(programs.Bench):
    """The program, and how its moves are judged."""

    def judge(self, what, found, output, refusal=None):
        """Compares what a run gave with its output, and with its refusal if it has one."""
        status, written, messages = found
        message = MESSAGE.fullmatch(messages)
        told = Refusal(*map(int, message.groups())) if message else messages
        self.compare(what, (status, told, written), (0, b"", output) if refusal is None else (1, refusal, output))

    def moved(self, what, way, data, output, refusal=None):
        """Moves a file, and compares."""
        self.file.write_bytes(data)
        self.judge(f"{what}, {way}", self.run(["gates", way, self.file]), output, refusal)


# What is tried.


def round_trips(bench, count, chance):
    """Files moved one way and the other, and refused behind their last list."""
    for way, (source, target) in WAYS.items():
        lists = some_lists(chance, count)
        data, output = packed(source, lists), packed(target, lists)
        other = next(name for name in WAYS if name != way)
        bench.moved(f"{count} lists", way, data, output)
        bench.moved(f"{count} lists moved {way} before", other, output, data)
        bench.moved(f"{count} lists and a wrong one", way, data + b"\x40\x40", output, Refusal(count + 1, len(data), 2, 0))


def framing_cases(form, gates):
    """Sub-packets that are refused by their header, each with answer and place."""
    good = pack(form, gates)
    other = "new" if form == "old" else "old"
    for kind in (0, 2, 4, 7, 8, 15):
        yield pack(form, gates, kind=kind), 2, 0
    yield pack(form, gates, kind=4, length=1, count=0, pad=1), 2, 0
    yield pack(form, gates, kind=4)[:2], 2, 0
    for length in (0, 1):
        yield pack(form, gates, length=length), 3, 4
        yield bytes([0x30, length << 5 | 31]), 3, 4
    for cut in (1, 2, 3, len(good) - 1):
        yield good[:cut], 1, 0
    yield b"\x40", 1, 0
    yield pack(form, gates, length=len(good) + 1), 1, 0
    yield pack(other, gates, length=127, count=31, pad=1), 1, 0
    yield pack(form, gates, length=len(good) + 1) + b"\0", 3, 11
    yield pack(form, gates, length=len(good) - 1), 3, 11
    yield pack(form, gates, length=2), 3, 11
    yield pack(form, gates, count=len(gates) - 1), 3, 11
    yield pack(form, gates, count=len(gates) + 1), 3, 11
    yield pack(other, gates), 3, 11
    yield pack(form, [gates[0] | {"class": 7}], count=2, pad=1), 3, 11


def spoiled(gates, *wrong):
    """The gates with some fields wrong, each said by gate, name and value."""
    changed = [dict(gate) for gate in gates]
    for at, name, value in wrong:
        changed[at][name] = value
    return changed


def field_cases(form, gates):
    """Sub-packets with a field not allowed."""
    last = len(gates) - 1
    for at in (0, 1, last):
        for name, value in (("number", 0), ("number", 1023), ("suffix", 7), ("class", 7), ("type", 3)):
            yield pack(form, spoiled(gates, (at, name, value))), 4, place(form, at, name)
    yield pack(form, spoiled(gates, (1, "type", 3), (2, "number", 0))), 4, place(form, 1, "type")
    yield pack(form, spoiled(gates, (1, "type", 3), (1, "suffix", 7))), 4, place(form, 1, "suffix")
    yield pack(form, spoiled(gates, (last, "type", 3)), pad=1), 4, place(form, last, "type")


def padding_cases(form, chance):
    """Padding that is not zero. Eight counts running have paddings of 0 to 7 bits, in some order."""
    for count in range(1, 9):
        gates, width = some_gates(chance, count), padding(form, count)
        for bit in range(width):
            yield pack(form, gates, pad=1 << bit), 5, 8 * size(form, count) - 1 - bit
        if width > 1:
            yield pack(form, gates, pad=2**width - 1), 5, end(form, count)


def forward_cases(chance):
    """Old lists that are too long for the new form."""
    for count in (29, 30, 31):
        gates = some_gates(chance, count)
        yield pack("old", gates), 3, 11
        yield pack("old", spoiled(gates, (0, "number", 0)), pad=2 ** padding("old", count) - 1), 3, 11
        yield pack("old", gates)[:-1], 1, 0


def back_cases(gates):
    """New lists with a distance that the old form does not hold."""
    last = len(gates) - 1
    for at, metres in ((0, 655), (1, 5120), (last, 1), (0, 9), (1, 5109), (last, 5111), (0, 32767), (1, 32760)):
        far = spoiled(gates, (at, "distance", metres))
        yield pack("new", far), 6, place("new", at, "distance")
        yield pack("new", spoiled(far, (last, "class", 7))), 4, place("new", last, "class")
        yield pack("new", far, pad=1), 5, 8 * size("new", len(gates)) - 1
    yield pack("new", spoiled(gates, (1, "distance", 5120), (last, "distance", 655))), 6, place("new", 1, "distance")
    yield pack("new", spoiled(gates, (0, "distance", 655)), count=last), 3, 11
    yield bytes([0x3F, 0xFD]) + bytes(125), 3, 11


def refusals(bench, chance):
    """Each wrong sub-packet before, between or behind good ones: of each answer the first, the second and the third so, and on in turn."""
    gates = some_gates(chance, 3)
    for way, (source, target) in WAYS.items():
        own_cases = forward_cases(chance) if way == "forward" else back_cases(gates)
        cases = [*framing_cases(source, gates), *field_cases(source, gates), *padding_cases(source, chance), *own_cases]
        seen = collections.Counter()
        for wrong, answer, at in cases:
            before = some_lists(chance, seen[answer] % 3)
            # What is cut ends the file.
            behind = b"" if answer == 1 else packed(source, some_lists(chance, 2 - len(before)))
            seen[answer] += 1
            data = packed(source, before)
            refusal = Refusal(len(before) + 1, len(data), answer, at)
            bench.moved(wrong.hex(" "), way, data + wrong + behind, packed(target, before), refusal)


def streams(bench, chance):
    """Files and streams of all sorts."""
    lists = some_lists(chance, 29)
    for way, (source, target) in WAYS.items():
        data, output = packed(source, lists), packed(target, lists)
        bench.moved("an empty file", way, b"", b"")
        bench.judge("nothing on standard input", bench.run(["gates", way]), b"")
        bench.judge("standard input", bench.run(["gates", way], given=data), output)
        bench.judge("standard input that is cut", bench.run(["gates", way], given=data + b"0"), output, Refusal(30, len(data), 1, 0))
        bench.judge("standard input in pieces", bench.run_in_pieces(["gates", way], programs.in_pieces(chance, data, 9)), output)
        bench.file.write_bytes(data)
        bench.not_read(["gates", way])
        bench.not_written(["gates", way, bench.file])


def wrong_words(bench, chance):
    """Words that the program does not know."""
    bench.file.write_bytes(packed("old", some_lists(chance, 1)))
    for words in ([], ["sideways"], ["Forward", bench.file], [bench.file], ["forward", bench.file, bench.file], ["forward", "back", bench.file]):
        bench.not_known(["gates", *words])


# The samples.


def table():
    """Of each sample its name, the way it is moved, the exit status, and its refusal or None."""
    lines = (SAMPLES / "README.md").read_text(encoding="utf-8").splitlines()
    for name, way, status, *numbers, _ in (re.split(r" *\| *", line.strip("| ")) for line in lines if line.startswith("| `")):
        yield name.strip("`"), way, int(status), Refusal(*map(int, numbers)) if all(numbers) else None


def tool(words, given):
    """What tools/gates gives, and its exit status."""
    ended = subprocess.run([ROOT / "tools" / "gates", *words], input=given, stdout=subprocess.PIPE, stderr=subprocess.DEVNULL, check=False)
    return ended.stdout, ended.returncode


def samples(bench):
    """Each sample is what its lines make, is shown and made again, and is moved as the table says; what is moved whole is moved back."""
    for name, way, status, refusal in table():
        source, target = WAYS[way]
        data, output = ((SAMPLES / f"{name}.{form}").read_bytes() for form in (source, target))
        bench.compare(f"sample {name}: its status", status, int(refusal is not None))
        bench.compare(f"sample {name}: its lines", tool(["make"], (SAMPLES / f"{name}.txt").read_bytes()), (data, 0))
        bench.compare(f"sample {name}: shown and made again", tool(["make"], tool(["show", source], data)[0]), (data, 0))
        bench.moved(f"sample {name}", way, data, output, refusal)
        bench.moved(f"sample {name}: what was written", "back" if way == "forward" else "forward", output, data[: refusal.byte if refusal else None])


def main(words):
    path, count, seed = words[0], recordings.number(words, 1, 60), recordings.number(words, 2, 7)
    chance = random.Random(seed)
    problem = programs.build(path, ["gates", "forward"])
    if problem is not None:
        return problem
    with tempfile.TemporaryDirectory() as folder:
        bench = Bench(path, pathlib.Path(folder) / "gates")
        round_trips(bench, count, chance)
        refusals(bench, chance)
        streams(bench, chance)
        wrong_words(bench, chance)
        samples(bench)
    print(*bench.wrong, f"gate files of {count} lists (seed {seed}), {bench.runs} runs, {len(bench.wrong)} differences", sep="\n")
    return 1 if bench.wrong else 0


if __name__ == "__main__":
    if not 2 <= len(sys.argv) <= 4:
        sys.exit(__doc__)
    sys.exit(main(sys.argv[1:]))
