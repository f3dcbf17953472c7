#!/usr/bin/env python3
"""Runs every sample through a listing program and compares: tests/samples.py PROGRAM ...

PROGRAM reads a recording on standard input and writes its listing to standard output, as ./bench does. The recordings
themselves are compared with what tools/record makes of their lines, and with what it makes of the lines that it shows.
Prints a line for each sample; the exit status is 1 where one differs, or where the program ends with another status than 0.
"""

import pathlib
import subprocess
import sys

ROOT = pathlib.Path(__file__).resolve().parent.parent


def run(command, given):
    """What a command writes, and its exit status."""
    ended = subprocess.run(command, input=given, stdout=subprocess.PIPE, stderr=subprocess.DEVNULL, check=False)
    return ended.stdout, ended.returncode


def differences(sample, program):
    """What is not as it should be with one sample."""
    record = str(ROOT / "tools" / "record")
    recording = sample.read_bytes()
    lines = sample.with_suffix(".txt").read_bytes()
    listing = sample.with_suffix(".lst").read_bytes()
    if run([record, "make"], lines) != (recording, 0):
        yield "its lines make another recording"
    shown, status = run([record, "show"], recording)
    # A recording that the bench stops at with 24 is shown with status 1.
    if status != int(b" 0 24 0 0 0\n" in listing):
        yield "it is shown with another status"
    if run([record, "make"], shown) != (recording, 0):
        yield "shown and made again it is another recording"
    if run(program, recording) != (listing, 0):
        yield "the listing is another, or the program failed"


def main(program):
    samples = sorted((ROOT / "samples").glob("*.rec"))
    differing = 0
    for sample in samples:
        problems = list(differences(sample, program))
        differing += bool(problems)
        print(f"{sample.name}: {'; '.join(problems) or 'as it should be'}")
    print(f"{len(samples)} samples, {differing} differ")
    return 1 if differing or not samples else 0


if __name__ == "__main__":
    if len(sys.argv) < 2:
        sys.exit(__doc__)
    sys.exit(main(sys.argv[1:]))
