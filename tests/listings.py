#!/usr/bin/env python3
"""Compares the listings of two programs to the byte: tests/listings.py PROGRAM PROGRAM [RECORDS] [SHORT ONES] [SEED]

The recordings are a day of RECORDS records (1,000,000 unless said), one that uses up all tickets, and SHORT ONES (1,000
unless said) sound, hostile, random, damaged and cut ones. Each listing must be whole, from `run` to `end`, with a line for
each record that `end` counts; that of the day has all its records, and that of the tickets ends in answer 14. For the day
it prints each program's processor time; for peak memory run the program by itself under /usr/bin/time -v.
"""

import os
import pathlib
import re
import sys
import tempfile

import recordings


def run(program, recording, listing):
    """Runs a program on a recording; gives its exit status and seconds of processor time."""
    with open(recording, "rb") as source, open(listing, "wb") as target:
        actions = [(os.POSIX_SPAWN_DUP2, source.fileno(), 0), (os.POSIX_SPAWN_DUP2, target.fileno(), 1)]
        child = os.posix_spawn(program, [program], os.environ, file_actions=actions)
        _, status, usage = os.wait4(child, 0)
    return os.waitstatus_to_exitcode(status), usage.ru_utime + usage.ru_stime


def whole(listing, ending):
    """Whether a listing goes from `run` to `end`, counts its lines, and has this ending."""
    lines = listing.splitlines()
    counted = re.fullmatch(rb"end (\d+) \d+", lines[-1]) if lines[:1] == [b"run"] else None
    return counted is not None and int(counted.group(1)) == len(lines) - 2 and re.search(ending, listing) is not None


def compare(programs, recording, ending):
    """The runs of both programs, and whether both ended well with the same listing, which is whole."""
    listings = [recording.with_suffix(f".{at}") for at in (1, 2)]
    runs = [run(program, recording, listing) for program, listing in zip(programs, listings)]
    one, other = (listing.read_bytes() for listing in listings)
    return runs, one == other and whole(one, ending) and all(status == 0 for status, _ in runs)


def make(folder, records, short_ones, seed):
    """The recordings, the day first."""
    day = folder / "day.rec"
    with open(day, "wb") as target:
        target.writelines(recordings.day(records, seed))
    tickets = folder / "tickets.rec"
    tickets.write_bytes(b"".join(recordings.tickets()))
    recordings.small(folder, short_ones, seed)
    return [day, tickets] + sorted(folder.glob("[0-9]*.rec"))


def main(words):
    programs = [os.path.abspath(word) for word in words[:2]]
    records = recordings.number(words, 2, 1_000_000)
    short_ones = recordings.number(words, 3, 1_000)
    seed = recordings.number(words, 4, 1)
    differing = 0
    with tempfile.TemporaryDirectory() as name:
        made = make(pathlib.Path(name), records, short_ones, seed)
        endings = {"day": b"\nend %d \\d+\n$" % records, "tickets": rb" 1 14 0 0 0\nend \d+ \d+\n$"}
        for recording in made:
            runs, same = compare(programs, recording, endings.get(recording.stem, rb"\n$"))
            if recording == made[0]:
                for program, (_, seconds) in zip(words, runs):
                    print(f"{program}: {records} records in {seconds:.2f} s")
            if not same:
                print(f"{recording.name} (seed {seed}): the listings differ or are not whole, or a program failed")
                differing += 1
    print(f"{len(made)} recordings, {differing} differences")
    return 1 if differing else 0


if __name__ == "__main__":
    if len(sys.argv) < 3:
        sys.exit(__doc__)
    sys.exit(main(sys.argv[1:]))
