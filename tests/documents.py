#!/usr/bin/env python3
"""Holds the documents to what they speak of: tests/documents.py

The answer numbers of ANSWERS.md, the bits of a gate's fields in both forms, and the way from a place to a turnout are those of the C header; the
examples of README.md, RECORDING.md, GATES.md and TRACES.md are what the samples, the tools and the programs give; README.md has every crate, and the
samples' own pages every sample; no public function asks anything of its caller, as PROMISES.md says; every link leads to a file. The exit status is 1
where something is not so.
"""

import pathlib
import re
import subprocess
import sys

ROOT = pathlib.Path(__file__).resolve().parent.parent
HEADER = ROOT / "include" / "kavach_bench.h"
DOCS = ROOT / "docs"
SAMPLES = ROOT / "samples"


def text(path):
    return path.read_text(encoding="utf-8")


def table(path):
    """The cells of each line of a document's tables."""
    lines = (line for line in text(path).splitlines() if line.startswith("|"))
    return [[cell.strip() for cell in line.strip("|").split(" | ")] for line in lines]


def answers():
    """Every number of the header is explained, no other is, and every refusal says what to do."""
    numbers = re.search(r"enum kb_reason \{(.*?)\};", text(HEADER), re.DOTALL).group(1)
    given = {int(number) for number in re.findall(r"KB_\w+ = (\d+)", numbers)}
    lines = [line for line in table(DOCS / "ANSWERS.md") if line[0].isdigit()]
    explained = {int(line[0]) for line in lines}
    if given != explained:
        yield f"ANSWERS.md and the header differ in {sorted(given ^ explained)}"
    for line in lines:
        if line[0] != "0" and (len(line) != 4 or not all(line)):
            yield f"ANSWERS.md does not say of {line} by whom, when, and what to do"


def defined():
    """The numbers that the header defines, by their names without KB_."""
    return dict(re.findall(r"^#define KB_(\w+) (\d+)$", text(HEADER), re.MULTILINE))


def places():
    """Where a gate's judged fields start in the new form and in the old one, and the way to the gate, have the header's numbers, in ANSWERS.md
    and in the header's own words."""
    numbers = defined()
    fields = {(name, numbers[f"{name}_AT"], numbers[f"OLD_{name}_AT"]) for name in ("NUMBER", "SUFFIX", "CLASS", "WHISTLING_TYPE")}
    told = {(line[0].upper().replace(" ", "_"), *line[1:3]) for line in table(DOCS / "ANSWERS.md") if len(line) == 4}
    if not fields <= told:
        yield "ANSWERS.md and the header have other bits for the fields of a gate"
    for bits in (numbers["GATE_BITS"], numbers["OLD_GATE_BITS"]):
        for path in (DOCS / "ANSWERS.md", HEADER):
            if not all(f"(place - {numbers['FIRST_GATE_AT']}) {sign} {bits}" in text(path) for sign in "/%"):
                yield f"{path.name} does not tell the gate and the field of a place in gates of {bits} bits"


def turnouts():
    """The way from a place to the turnout whose speed starts there has the header's numbers, in ANSWERS.md and in the header's own words."""
    numbers = defined()
    first, speed, whole = (int(numbers[name]) for name in ("FIRST_TURNOUT_AT", "SPEED_BITS", "TURNOUT_BITS"))
    for path in (DOCS / "ANSWERS.md", HEADER):
        if f"(place - {first}) % {whole - speed} / {speed}" not in text(path):
            yield f"{path.name} does not tell the turnout of a place by the header's numbers"


def first_sample():
    """The first sample, as README.md and RECORDING.md show it."""
    listing, recording = text(SAMPLES / "first.lst"), text(DOCS / "RECORDING.md")
    for path in (ROOT / "README.md", DOCS / "RECORDING.md"):
        if f"```\n{listing}```" not in text(path):
            yield f"{path.name} shows another listing of the first sample"
    lines = [line.split("#")[0].rstrip() for line in text(SAMPLES / "first.txt").splitlines()]
    if "```\n" + "".join(f"{line}\n" for line in lines if line) + "```" not in recording:
        yield "RECORDING.md shows other lines of the first sample"
    parts = re.findall(r"^\| \d+ \| ([`0-9A-F ]+) \|", recording, re.MULTILINE)
    if bytes.fromhex("".join(parts).replace("`", "")) != (SAMPLES / "first.rec").read_bytes():
        yield "RECORDING.md shows other bytes of the first sample"


def kinds():
    """The line that RECORDING.md gives of each kind makes a record of that kind and length."""
    lines = [line for line in table(DOCS / "RECORDING.md") if len(line) == 6 and line[0].isdigit()]
    if [line[0] for line in lines] != [str(kind) for kind in range(1, 10)]:
        yield "RECORDING.md does not list kinds 1 to 9"
    for kind, _, payload, length, example, _ in lines:
        made = subprocess.run([ROOT / "tools" / "record", "make"], input=example.strip("`").encode(), stdout=subprocess.PIPE, check=False).stdout
        widths = sum(int(number) for number in re.findall(r"(?:loco|bytes|ticket|flags|front|rear|end|location|grid|k) (\d+)", payload))
        widths += 6 * payload.count("then of L1")
        if list(made[2:4]) != [int(kind), int(length)] or len(made) != 4 + int(length) or widths != int(length):
            yield f"kind {kind} is not as RECORDING.md says"


def commands():
    """What a command prints that stands in README.md, RECORDING.md, GATES.md or TRACES.md behind a $."""
    for path in (ROOT / "README.md", DOCS / "RECORDING.md", DOCS / "GATES.md", DOCS / "TRACES.md"):
        blocks = re.findall(r"```\n\$ (.*)\n((?:.*\n)*?)```", text(path))
        if not blocks:
            yield f"{path.name} shows no command"
        for command, printed in blocks:
            run = subprocess.run(["sh", "-c", command], cwd=ROOT, stdout=subprocess.PIPE, stderr=subprocess.STDOUT, check=False)
            if run.stdout.decode() != printed:
                yield f"'{command}' prints something else than {path.name} says"


def lists():
    """Every crate and every sample is listed, and nothing else."""
    crates = set(re.findall(r"^(\w+)(?: staticlib)?:", text(ROOT / "crates.txt"), re.MULTILINE))
    listed = {line[0].strip("`") for line in table(ROOT / "README.md") if len(line) == 2 and re.fullmatch(r"`\w+`", line[0])}
    if crates != listed:
        yield f"README.md and crates.txt differ in {sorted(crates ^ listed)}"
    yield from samples(SAMPLES, (".rec", ".txt", ".lst"))
    yield from samples(SAMPLES / "gates", (".txt", ".old", ".new"))
    yield from samples(SAMPLES / "traces", (".txt", ".trace"))


def samples(folder, suffixes):
    """Every sample of a folder is in its README.md, and nothing else; a sample has all its files."""
    there = {path.stem for path in folder.iterdir() if path.suffix in suffixes}
    named = {name for line in table(folder / "README.md") for name in re.findall(r"`([\w-]+)`", line[0])}
    if there != named:
        yield f"{folder.relative_to(ROOT)} and its README.md differ in {sorted(there ^ named)}"
    for name in sorted(there):
        if not all((folder / (name + suffix)).is_file() for suffix in suffixes):
            yield f"sample {name} lacks a file"


def public_functions(code):
    """The name and the signature, clauses and all, of each `pub fn`, and of each function of a public trait."""
    code = re.sub(r"//.*", "", code)
    traits = [match.span() for match in re.finditer(r"^pub trait .*?^}", code, re.MULTILINE | re.DOTALL)]
    for match in re.finditer(r'^( *)(pub )?(?:const )?(?:extern "C" )?fn (\w+).*?(?:;| \{|\n\1\{)$', code, re.MULTILINE | re.DOTALL):
        if match[2] or any(start < match.start() < end for start, end in traits):
            yield match[3], match[0]


def asked():
    """No public function of a library has a `requires`: PROMISES.md says so of demand 1. One that its crate alone calls is not `pub`."""
    for library in sorted((ROOT / "crates").glob("*/src/lib.rt")):
        for path in sorted(library.parent.rglob("*.rt")):
            for name, signature in public_functions(text(path)):
                if re.search(r"\brequires\b", signature):
                    yield f"{path.relative_to(ROOT)}: `{name}` is public and has a `requires`; PROMISES.md says that no public function has one"


def links():
    """Every link to a file leads to one."""
    for path in [ROOT / "README.md", *sorted(SAMPLES.rglob("*.md")), *sorted(DOCS.rglob("*.md")), *sorted((ROOT / "tests").glob("*/*.md"))]:
        for target in re.findall(r"\]\(([^)#:]+)(?:#[^)]*)?\)", text(path)):
            if not (path.parent / target).exists():
                yield f"{path.relative_to(ROOT)} links to {target}, which is not there"


def main():
    wrong = [problem for part in (answers, places, turnouts, first_sample, kinds, commands, lists, asked, links) for problem in part()]
    print(*wrong, f"documents: {len(wrong)} differences", sep="\n")
    return 1 if wrong else 0


if __name__ == "__main__":
    sys.exit(main())
