#!/usr/bin/env python3
"""The recordings that crates/listing_runs lists, and what it must print: the samples with their listings, and some made by hand here.

  tests/listing_cases.py stdin  > crates/listing_runs/stdin
  tests/listing_cases.py stdout > crates/listing_runs/stdout

Each recording is listed into an output that is just large enough, into one that has room to spare, into one that is a byte too small, and into
none. The output holds dots before; where it is too small it still does.
"""
import pathlib
import sys

SAMPLES = pathlib.Path(__file__).resolve().parent.parent / "samples"


def by_hand():
    """Recordings whose listings document 01 gives word for word, or nearly: no record, a 24 at once, and requests of one train."""
    ask = bytes.fromhex("4B56 0106 00000007 0064")
    again = bytes.fromhex("4B56 0106 00000007 0014")
    release = bytes.fromhex("4B56 0206 00000007 0001")
    yield b"", b"run\nend 0 0\n"
    yield b"\x4B", b"run\n1 0 24 0 0 0\nend 1 0\n"
    yield ask[:-1], b"run\n1 0 24 0 0 0\nend 1 0\n"
    yield ask + again + release, b"run\n1 1 0 1 1 2\n2 1 12 0 0 0\n3 2 0 0 0 0\nend 3 2\n"
    # what stands behind a 24 is not read, whole records too
    yield ask + b"\x00" + release + release, b"run\n1 1 0 1 1 2\n2 0 24 0 0 0\nend 2 1\n"
    # ten lines and more: a number of two digits
    yield ask + again * 10, b"run\n1 1 0 1 1 2\n" + b"".join(b"%d 1 12 0 0 0\n" % n for n in range(2, 12)) + b"end 11 1\n"


def recordings():
    yield from by_hand()
    for sample in sorted(SAMPLES.glob("*.rec")):
        yield sample.read_bytes(), sample.with_suffix(".lst").read_bytes()


def cases():
    """Every recording with its listing, and the rooms that it is listed into."""
    for recording, listing in recordings():
        for room in (len(listing), len(listing) + 7, len(listing) - 1, 0):
            yield recording, listing, room


def printed(listing, room):
    if room < len(listing):
        return b"1 0\n" + b"." * room + b"\n"
    return b"0 %d\n" % len(listing) + listing + b"." * (room - len(listing)) + b"\n"


def main(what):
    for recording, listing, room in cases():
        if what == "stdin":
            sys.stdout.buffer.write(room.to_bytes(2, "big") + len(recording).to_bytes(2, "big") + recording)
        else:
            sys.stdout.buffer.write(printed(listing, room))


if __name__ == "__main__":
    if sys.argv[1:] not in (["stdin"], ["stdout"]):
        sys.exit(__doc__)
    main(sys.argv[1])
