#!/usr/bin/env python3
"""Tries the program that checks mode traces: tests/trace_files.py BENCH [TRACES [SEED [ENTRIES]]]

BENCH is the program as ./bench is. TRACES random traces (60 unless said) with one change each are compared with the plain reading of the documents
in tests/trace_lines.py; then come each ground and each order of grounds, with its line to the letter; files, streams and words of all sorts; the
samples; and a trace of ENTRIES entries (50,000 unless said), which must take no more memory than one of a single entry. The exit status is 1 where
something differs.
"""

import contextlib
import ctypes
import itertools
import os
import pathlib
import random
import re
import subprocess
import sys
import tempfile

import mode_steps
import programs
import recordings
from trace_lines import ENTRY_SIZE, FLAGS, entry, mode, verdict

ROOT = pathlib.Path(__file__).resolve().parent.parent
SAMPLES = ROOT / "samples" / "traces"

# What a program may take more for a long trace than for a short one, in KB: far less than the long trace itself.
TOLERANCE = 1024
# Of linux/prctl.h: what is left behind by its parent becomes a child of this process.
SET_CHILD_SUBREAPER = 36

UNREAD = b"bench: the trace cannot be read to its end; see whether it is a file, and its disk is sound\n"
UNWRITTEN = b"bench: the answer cannot be written; see whether there is room, and whether the output is still read\n"


# Random traces.


def right_entry(chance, before):
    """An entry that is right; some of its conditions may lead out of the mode, and tie."""
    leading = sorted({condition for _, _, conditions in mode_steps.transitions[before] for condition in conditions})
    conditions = chance.sample(leading, chance.randint(0, 3)) + chance.sample(range(1, FLAGS + 1), chance.randint(0, 3))
    return entry(before, conditions, mode_steps.step(before, mode_steps.those(*conditions))[1])


def right_trace(chance, count):
    """The entries of a trace that is right, from any mode on."""
    entries, before = [], chance.randint(1, 13)
    for _ in range(count):
        entries.append(bytearray(right_entry(chance, before)))
        before = entries[-1][-1]
    return entries


def another(chance, values, value):
    return chance.choice([other for other in values if other != value])


def put(places, values):
    """A change that gives one of these bytes of an entry another of these values."""

    def change(chance, entries, at):
        place = chance.choice(places)
        entries[at][place] = another(chance, values, entries[at][place])

    return change


def another_run(chance, entries, at):
    """The entry is right by itself, and begins in another mode."""
    entries[at] = bytearray(right_entry(chance, another(chance, range(1, 14), entries[at][2])))


def cut(chance, entries, at):
    entries[at:] = [entries[at][: chance.randrange(ENTRY_SIZE)]]


def byte_put_in(chance, entries, at):
    entries[at].insert(chance.randrange(ENTRY_SIZE), chance.randrange(256))


def byte_taken_out(chance, entries, at):
    del entries[at][chance.randrange(ENTRY_SIZE)]


def entry_taken_out(_, entries, at):
    del entries[at]


def entry_twice(_, entries, at):
    entries.insert(at, entries[at])


def nothing(*_):
    """The trace stays right."""


NO_MODES = (0, 14, 15, 128, 255)
CHANGES = (
    nothing,
    put([94], range(1, 14)),
    put([2], range(1, 14)),
    put(range(3, 94), range(2)),
    another_run,
    entry_taken_out,
    entry_twice,
    put([2], NO_MODES),
    put(range(3, 94), range(2, 256)),
    put([94], NO_MODES),
    put(range(2), range(256)),
    cut,
    byte_put_in,
    byte_taken_out,
)


# The program.


def in_words(trace):
    """A trace in a message: of every 95 bytes the first three, the flags that are not 0 by their conditions, and the last."""
    words = []
    for at in range(0, len(trace), ENTRY_SIZE):
        part = trace[at : at + ENTRY_SIZE]
        flags = [f"{condition}={flag}" for condition, flag in enumerate(part[3:94], 1) if flag]
        words.append(" ".join([part[:3].hex(" "), ":", *flags, ">", part[94:].hex()]))
    return " / ".join(words)


class Bench(programs.Bench):
    """The program, and how its checks are judged."""

    def judge(self, what, found, wanted):
        """Compares what a run gave with its exit status and line."""
        status, line = wanted
        self.compare(what, found, (status, f"{line}\n".encode(), b""))

    def checks(self, what, trace, wanted):
        """Checks a file, and compares."""
        self.file.write_bytes(trace)
        self.judge(what, self.run(["trace", self.file]), wanted)


# What is tried.


def changed(bench, count, chance):
    """Random traces with one change each, made in turn."""
    for at, change in zip(range(count), itertools.cycle(CHANGES)):
        entries = right_trace(chance, chance.randint(1, 9))
        change(chance, entries, chance.randrange(len(entries)))
        trace = b"".join(entries)
        bench.checks(f"random trace {at}, {in_words(trace)}", trace, verdict(trace))


def cut_cases():
    """Traces that end within their first entry or their third, whatever its bytes are."""
    before = entry("SB", [62], "FS") + entry("FS", [], "FS")
    text = "is refused: answer 24: the trace ends within it, after {} of its 95 bytes; give the whole trace, and nothing behind it"
    for left in (entry("FS", [7], "SB"), entry(14, [1], 0, flag=2), bytes(ENTRY_SIZE)):
        for count in (1, 2, 3, 94):
            yield before + left[:count], f"entry 3 {text.format(count)}"
    yield before[:94], f"entry 1 {text.format(94)}"


def mark_cases():
    """A third entry with another mark, or a first one, whatever stands behind it."""
    before, behind = entry("SB", [62], "FS") + entry("FS", [], "FS"), entry("SB", [], "FS")
    text = "is refused: answer 24: the mark 4B 56 does not stand at byte {}, where it begins; see whether each entry before it has 95 bytes"
    for mark in ("4B 57", "4A 56", "56 4B", "00 00"):
        for found in (entry("FS", [7], "SB"), entry(14, [1], 0, flag=2), entry("SB", [], "FS")):
            yield before + bytes.fromhex(mark) + found[2:] + behind, f"entry 3 {text.format(190)}"
    yield bytes(ENTRY_SIZE), f"entry 1 {text.format(0)}"
    yield before + b"\0" + entry("FS", [], "FS"), f"entry 3 {text.format(190)}"


def range_cases():
    """A third entry with a mode or a flag out of range, whatever else is wrong with it or behind it."""
    before, behind = entry("SB", [62], "FS") + entry("FS", [], "FS"), entry("SB", [], "FS")
    for number in NO_MODES:
        told = f"is {number}, which is no mode; modes are 1 to 13"
        yield before + entry(number, [], "FS") + behind, f"entry 3 is refused: answer 17: its mode before {told}"
        yield before + entry("FS", [], number) + behind, f"entry 3 is refused: answer 17: its mode after {told}"
    for condition, flag in ((1, 2), (2, 255), (46, 128), (91, 2)):
        for found in (entry("FS", [condition], "FS", flag), entry("SB", [condition], "OV", flag), entry("FS", [condition], 14, flag)):
            yield before + found + behind, f"entry 3 is refused: answer 17: its flag of condition {condition} is {flag}; a flag is 0 or 1"
    several = entry("FS", [3, 90], 14, flag=7)
    yield before + several, "entry 3 is refused: answer 17: its flag of condition 3 is 7; a flag is 0 or 1"
    yield entry(0, [91], 14, flag=2), "entry 1 is refused: answer 17: its mode before is 0, which is no mode; modes are 1 to 13"


def chain_cases():
    """A third entry that does not begin where the second ended."""
    before = entry("SB", [62], "FS") + entry("FS", [], "FS")
    for found in (entry("SB", [], "SB"), entry("SB", [62], "FS"), entry("SB", [], "FS")):
        for behind in (b"", bytes(3), entry("SB", [5], "SB", flag=2), entry("FS", [], "SB")):
            yield before + found + behind, "entry 3: mode before: due 4 (FS), not 1 (SB)"
    yield entry("SB", [62], "FS") + entry("SB", [62], "FS"), "entry 2: mode before: due 4 (FS), not 1 (SB)"


def step_cases():
    """Entries whose mode after is not the one due: each mode by its name, a tie, a priority, a mode that stays, and what lies behind."""
    for number in range(1, 14):
        other = number % 13 + 1
        yield entry(number, [], other), f"entry 1: mode after: due {mode(number)}, not {mode(other)}"
    before = entry("SB", [62], "FS") + entry("FS", [], "FS")
    for behind in (b"", bytes(3), entry("SB", [5], "SB", flag=2), entry("FS", [], "SB")):
        yield before + entry("FS", [71, 76], "OV") + behind, "entry 3: mode after: due 3 (LS), not 5 (OV)"
    yield entry("FS", [69, 2], "TR"), "entry 1: mode after: due 13 (IS), not 7 (TR)"
    yield entry("TR", [7], "SB"), "entry 1: mode after: due 7 (TR), not 1 (SB)"
    yield entry("OV", [91], "OV"), "entry 1: mode after: due 6 (OS), not 5 (OV)"


def right_cases():
    """Traces that are right: document 01's examples, a tie of each mode that can tie, and all flags set."""
    yield b"", "yes 0"
    for found in (("FS", [71, 76], "LS"), ("FS", [69, 2], "IS"), ("TR", [7], "TR"), ("SB", range(1, 92), "IS"), ("OS", [56, 58, 71], "OV"),
                  ("SB", [53, 61], "LS"), ("SR", [45, 56], "RV"), ("LS", [17, 90], "SR"), ("PT", [58, 86], "OV"), ("IS", [80], "SB")):
        yield entry(*found), "yes 1"
    yield entry("SB", [62], "FS") + entry("FS", [], "FS") + entry("FS", [7], "SB"), "yes 3"


def grounds(bench):
    """Each ground, and each order of grounds. The lines are also those of a plain reading, so that neither is trusted alone."""
    for cases in (cut_cases, mark_cases, range_cases, chain_cases, step_cases, right_cases):
        for trace, line in cases():
            wanted = int(not line.startswith("yes")), line
            bench.compare(f"{cases.__name__}: the plain reading", verdict(trace), wanted)
            bench.checks(f"{cases.__name__}, {in_words(trace)}", trace, wanted)


def streams(bench, chance):
    """Files and streams of all sorts."""
    right = b"".join(right_trace(chance, 9))
    wrong = right[:-1] + bytes([right[-1] % 13 + 1])
    for what, trace in (("right", right), ("wrong at its end", wrong), ("cut", right[:-1])):
        bench.judge(f"standard input that is {what}", bench.run(["trace"], given=trace), verdict(trace))
        pieces = programs.in_pieces(chance, trace, 200)
        bench.judge(f"standard input in pieces that is {what}", bench.run_in_pieces(["trace"], pieces), verdict(trace))
    bench.judge("standard input byte by byte", bench.run_in_pieces(["trace"], programs.in_pieces(chance, right[:190], 1)), (0, "yes 2"))
    bench.judge("nothing on standard input", bench.run(["trace"]), (0, "yes 0"))
    long = b"".join(right_trace(chance, 2000))
    bench.checks("2,000 entries", long, (0, "yes 2000"))
    bench.checks("2,000 entries and one of another mark", long + bytes(ENTRY_SIZE), verdict(long + bytes(ENTRY_SIZE)))


def not_done(bench):
    """What cannot be read or written, and words that the program does not know."""
    bench.file.write_bytes(entry("SB", [], "SB"))
    bench.not_read(["trace"])
    bench.compare("what is said where the answer cannot be written", bench.not_written(["trace", bench.file]), [UNWRITTEN, UNWRITTEN])
    bench.runs += 1
    folder = os.open(bench.file.parent, os.O_RDONLY)
    unread = subprocess.run([bench.path, "trace"], stdin=folder, stdout=subprocess.PIPE, stderr=subprocess.PIPE, check=False)
    os.close(folder)
    bench.compare("a folder on standard input", (unread.returncode, unread.stdout, unread.stderr), (2, b"", UNREAD))
    for words in (["trace", bench.file, bench.file], ["trace", "forward", bench.file], ["Trace", bench.file], ["traces", bench.file]):
        bench.not_known(words)


# The memory.


def run_fed(bench, pieces):
    """Exit status, output and peak memory in KB of a run that is fed through a pipe. Of what Python itself starts, Linux tells at least the memory
    that Python takes; so a shell starts the program and ends, and the program becomes a child of this process."""
    if ctypes.CDLL(None).prctl(SET_CHILD_SUBREAPER, 1, 0, 0, 0):
        sys.exit("the memory of a program cannot be measured here: prctl gives no subreaper, which Linux has")
    bench.runs += 1
    # A shell gives nothing on standard input to what it starts behind itself, so that comes by way of 5.
    command = ["sh", "-c", 'exec 5<&0; "$0" trace <&5 5<&- &', bench.path]
    with subprocess.Popen(command, bufsize=0, stdin=subprocess.PIPE, stdout=subprocess.PIPE) as shell:
        shell.wait()
        with contextlib.suppress(BrokenPipeError):
            for piece in pieces:
                shell.stdin.write(piece)
        shell.stdin.close()
        output = shell.stdout.read()
        _, status, usage = os.wait4(-1, 0)
    return os.waitstatus_to_exitcode(status), output, usage.ru_maxrss


def long_trace(count):
    """So many right entries from SB on, piece by piece."""
    pairs = (entry("SB", [62], "FS") + entry("FS", [7], "SB")) * 100
    for at in range(0, count, 200):
        yield pairs[: ENTRY_SIZE * (count - at)]


def memory(bench, count):
    """A long trace takes what a short one takes, and an entry behind it is judged like a first one. Gives the numbers in words."""
    left = "FS" if count % 2 else "SB"
    wrong = f"entry {count + 1}: mode after: due 13 (IS), not {mode(mode_steps.NUMBER[left])}"
    peaks = []
    for what, pieces, wanted in (
        ("one entry", long_trace(1), (0, b"yes 1\n")),
        ("a long trace", long_trace(count), (0, f"yes {count}\n".encode())),
        ("a wrong entry behind a long trace", itertools.chain(long_trace(count), [entry(left, [2], left)]), (1, f"{wrong}\n".encode())),
    ):
        status, output, peak = run_fed(bench, pieces)
        bench.compare(what, (status, output), wanted)
        peaks.append(peak)
    short, long = peaks[0], max(peaks)
    if long > short + TOLERANCE:
        bench.wrong.append(f"the memory: {long} KB, and it should be {short} KB, or {TOLERANCE} more at most")
    return f"peak memory {short} KB for 1 entry, {long} KB for {count} entries"


# The samples.


def table():
    """Of each sample its name, the exit status and the line."""
    lines = (SAMPLES / "README.md").read_text(encoding="utf-8").splitlines()
    for name, status, line, _ in (re.split(r" *\| *", line.strip("| ")) for line in lines if line.startswith("| `")):
        yield name.strip("`"), (int(status), line.strip("`"))


def tool(words, given):
    """What tools/traces gives, and its exit status."""
    ended = subprocess.run([ROOT / "tools" / "traces", *words], input=given, stdout=subprocess.PIPE, stderr=subprocess.DEVNULL, check=False)
    return ended.stdout, ended.returncode


def samples(bench):
    """Each sample is what its lines make, is shown and made again, and is judged as the table says, by a plain reading too."""
    for name, wanted in table():
        trace = (SAMPLES / f"{name}.trace").read_bytes()
        bench.compare(f"sample {name}: its lines", tool(["make"], (SAMPLES / f"{name}.txt").read_bytes()), (trace, 0))
        bench.compare(f"sample {name}: shown and made again", tool(["make"], tool(["show"], trace)[0]), (trace, 0))
        bench.compare(f"sample {name}: the plain reading", verdict(trace), wanted)
        bench.checks(f"sample {name}", trace, wanted)


def main(words):
    path, count, seed, entries = words[0], *(recordings.number(words, at, unless) for at, unless in ((1, 60), (2, 12), (3, 50_000)))
    chance = random.Random(seed)
    problem = programs.build(path, ["trace"])
    if problem is not None:
        return problem
    with tempfile.TemporaryDirectory() as folder:
        bench = Bench(path, pathlib.Path(folder) / "trace")
        changed(bench, count, chance)
        grounds(bench)
        streams(bench, chance)
        not_done(bench)
        samples(bench)
        told = memory(bench, entries)
    print(*bench.wrong, told, f"{count} random traces (seed {seed}), {bench.runs} runs, {len(bench.wrong)} differences", sep="\n")
    return 1 if bench.wrong else 0


if __name__ == "__main__":
    if not 2 <= len(sys.argv) <= 5:
        sys.exit(__doc__)
    sys.exit(main(sys.argv[1:]))
