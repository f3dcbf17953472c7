#!/usr/bin/env python3
"""The calls that the driver of tests/host makes on one session of the C library, and the lines that it must print of them.

  tests/session_cases.py stdin > tests/host/session.calls
  cargo build --release --offline --manifest-path tests/model/Cargo.toml
  tests/session_cases.py stdout tests/model/target/release/session_calls > tests/host/session.lines

The lines come from the independent model. Where document 01 itself says what a call answers, the call says so here, and the
model's line is held to it; each refusal of the table must have been given.
"""
import pathlib
import random
import re
import subprocess
import sys

HEADER = pathlib.Path(__file__).resolve().parent.parent / "include" / "kavach_bench.h"
SESSION = int(re.search(r"#define KB_SESSION_SIZE (\d+)", HEADER.read_text(encoding="ascii")).group(1))
START, REQUEST, RELEASE, FLAGS, POSITION, AUTHORITY, DANGER, SOS, CLEAR, BACK, END, ROW, BOOK, TURNS = range(14)
NONE = 0xFFFFFFFF
MOST = 0xFFFFFFFF
REFUSALS = {*range(10, 24), 34}

# Conditions that lead from SB, the mode of a new train.
TO_SR, TO_LS, TO_FS, TO_OV, TO_OS, TO_PT = 60, 61, 62, 63, 64, 66
# Conditions that lead from SR to OS, from FS to TR and to OV, and from PT to OV.
SR_TO_OS, FS_TO_TR, FS_TO_OV, PT_TO_OV = 87, 69, 71, 86


def call(kind, *numbers, flags=b"", lent=SESSION, gives=None):
    """A call in bytes, and the answer that the paper gives: a number, or the first numbers of the line."""
    rest = b"".join(number.to_bytes(4, "big") for number in numbers) + flags
    expected = [] if gives is None else [gives] if isinstance(gives, int) else list(gives)
    return bytes([kind]) + lent.to_bytes(2, "big") + len(rest).to_bytes(2, "big") + rest, [kind, *expected]


def set_flags(*conditions, length=91):
    return bytes(int(n in conditions) for n in range(1, length + 1))


def step(train, *conditions, gives=None):
    return call(FLAGS, *train, flags=set_flags(*conditions), gives=gives)


def trains(*wanted):
    """A session with trains 1, 2, 3 .. under the tickets 1, 2, 3 .., each after a mode step, and all on the line."""
    yield call(START, gives=(0, 0, 0, 0))
    for n, condition in enumerate(wanted, 1):
        yield call(REQUEST, n, 54, gives=(0, n, n, 1))
        if condition:
            yield step((n, n), condition)


def rows(*numbers):
    """What the named rows hold, and the rest of the session."""
    yield from (call(ROW, n) for n in numbers)
    yield call(BOOK)


def paper_listing():
    yield call(START)
    yield call(REQUEST, 7, 100, gives=(0, 1, 1, 2))
    yield call(REQUEST, 7, 20, gives=12)
    yield call(RELEASE, 7, 1, gives=0)
    yield from rows(0)


def slots():
    """Seven trains of 6 slots; an eighth of 6 and of 2. The lowest start, released slots at once."""
    yield call(START)
    for n in range(7):
        yield call(REQUEST, 1 + n, 324, gives=(0, 1 + n, 1 + 6 * n, 6))
    yield call(REQUEST, 8, 324, gives=15)
    yield call(REQUEST, 8, 109, gives=15)
    yield from rows(7)
    yield call(REQUEST, 8, 108, gives=(0, 8, 43, 2))
    yield call(REQUEST, 9, 1, gives=15)
    yield from rows(6, 7, 8)
    yield call(RELEASE, 3, 3, gives=0)
    yield call(REQUEST, 9, 325, gives=11)
    yield call(REQUEST, 9, 55, gives=(0, 9, 13, 2))
    yield call(REQUEST, 10, 270, gives=15)
    yield call(REQUEST, 10, 216, gives=(0, 10, 15, 4))
    yield call(RELEASE, 1, 1, gives=0)
    yield call(RELEASE, 10, 10, gives=0)
    yield call(REQUEST, 11, 54, gives=(0, 11, 1, 1))
    yield call(REQUEST, 12, 324, gives=15)
    yield call(REQUEST, 12, 270, gives=(0, 12, 2, 5))
    yield from rows(0, 2, 8)
    for k in (1, 2, 4):
        yield call(BACK, k, gives=0)
        yield from rows(0, 2, 8)


def full_register():
    """24 trains, a 25th; a loco that is there twice is told so first, and counting goes on after a release."""
    yield call(START)
    for n in range(1, 25):
        yield call(REQUEST, n, 54, gives=(0, n, n, 1))
    yield call(REQUEST, 25, 54, gives=13)
    yield call(REQUEST, 24, 54, gives=12)
    yield call(REQUEST, 25, 0, gives=11)
    yield call(REQUEST, 24, 325, gives=11)
    yield call(REQUEST, 0, 0, gives=10)
    yield from rows(0, 23, 24, MOST)
    yield call(RELEASE, 12, 12, gives=0)
    yield call(REQUEST, 131070, 54, gives=(0, 25, 12, 1))
    yield from rows(11, 12)


def stale_ticket():
    """A ticket of before a release names nobody, and the live train stays."""
    yield call(START)
    yield call(REQUEST, 7, 54, gives=(0, 1, 1, 1))
    yield call(RELEASE, 7, 1, gives=0)
    yield call(REQUEST, 7, 54, gives=(0, 2, 1, 1))
    yield call(RELEASE, 7, 1, gives=16)
    yield call(POSITION, 7, 1, 20, 10, gives=16)
    yield call(END, 7, 1, gives=16)
    yield from rows(0)
    yield call(POSITION, 7, 2, 20, 10, gives=0)
    # A step back brings the first train back, under its own ticket; the counter stays.
    yield call(BACK, 3, gives=(0, 1, 0, 0))
    yield call(RELEASE, 7, 2, gives=16)
    yield from rows(0)
    yield call(RELEASE, 7, 1, gives=0)
    yield call(REQUEST, 7, 54, gives=(0, 3, 1, 1))


def head_on():
    """Both trains get an order, and one step back takes both away."""
    yield from trains(TO_FS, TO_OS)
    for n, front, end in ((1, 5000, 9000), (2, 6000, 1000)):
        yield call(POSITION, n, n, front, front - 200, gives=(0, 0, 0, 0))
        yield call(AUTHORITY, n, n, end, gives=(0, 1, end, 0))
    yield from rows(0, 1)
    yield call(SOS, 1, 1, 2, 2, 3, gives=(0, 4, 1, 0))
    yield from rows(0, 1)
    yield call(END, 1, 1, gives=(0, 1, 5000, 0))
    yield call(END, 2, 2, gives=(0, 1, 1000, 0))
    yield call(BACK, 1, gives=0)
    yield from rows(0, 1)
    yield call(END, 1, 1, gives=(0, 1, 9000, 0))
    # The other way round, twice: the same ticket replaces, at the positions then reported. M6 makes both bare.
    yield call(SOS, 2, 2, 1, 1, 2, gives=(0, 4, 2, 0))
    yield call(POSITION, 1, 1, 5500, 5300, gives=(0, 1, 5000, 0))
    yield call(SOS, 2, 2, 1, 1, 2, gives=(0, 4, 2, 0))
    yield from rows(0, 1)
    yield from trains(TO_SR, TO_FS)
    yield call(SOS, 1, 1, 2, 2, 2, gives=(0, 6, 1, 0))
    yield from rows(0, 1)
    yield call(BACK, 1, gives=0)
    yield from rows(0, 1)


def behind():
    """L2 behind L1: the limit stays when L1 moves, and when it is released; the paper's ends."""
    yield from trains(TO_FS, TO_FS)
    yield call(AUTHORITY, 2, 2, 9000, gives=(0, 1, 9000, 0))
    yield call(DANGER, 2, 2, 7500, gives=(0, 1, 7500, 0))
    yield call(POSITION, 1, 1, 6400, 6100, gives=(0, 0, 0, 0))
    yield call(SOS, 2, 2, 1, 1, 4, gives=(0, 2, 3, 0))
    yield call(END, 2, 2, gives=(0, 1, 5800, 0))
    yield call(POSITION, 1, 1, 8400, 8100, gives=(0, 0, 0, 0))
    yield call(END, 2, 2, gives=(0, 1, 5800, 0))
    yield call(RELEASE, 1, 1, gives=0)
    yield call(END, 2, 2, gives=(0, 1, 5800, 0))
    yield from rows(0, 1)
    # The loco comes again: another ticket, and so another order beside the first. Rear 200 gives the limit 0.
    yield call(REQUEST, 1, 54, gives=(0, 3, 1, 1))
    yield step((1, 3), TO_FS)
    yield call(POSITION, 1, 3, 250, 200, gives=(0, 0, 0, 0))
    yield call(SOS, 2, 2, 1, 3, 4, gives=(0, 2, 3, 0))
    yield from rows(0, 1)
    yield call(CLEAR, 2, 2, 3, gives=(0, 1, 5800, 0))
    yield call(CLEAR, 2, 2, 3, gives=21)
    yield call(CLEAR, 2, 2, 1, gives=(0, 1, 7500, 0))
    # In Override the danger location does not count, and an order does.
    yield step((2, 2), FS_TO_OV, gives=(0, 5, 7, 0))
    yield call(END, 2, 2, gives=(0, 1, 9000, 0))
    yield call(SOS, 2, 2, 1, 3, 4, gives=(0, 2, 3, 0))
    yield call(END, 2, 2, gives=(0, 1, 0, 0))
    yield from rows(1)
    yield call(AUTHORITY, 2, 2, NONE, gives=(0, 0, 0, 0))
    yield call(DANGER, 2, 2, NONE, gives=(0, 0, 0, 0))
    yield from rows(1)


def five_orders():
    """Four orders are held, a fifth has no place, whoever is to get it; nothing is stored then."""
    yield from trains(TO_SR, TO_SR, TO_SR, TO_SR, TO_SR, TO_SR)
    for other in (2, 3, 4, 5):
        yield call(SOS, 1, 1, other, other, 1, gives=(0, 5, 1, 0))
    yield call(SOS, 1, 1, 6, 6, 1, gives=20)
    yield call(SOS, 6, 6, 1, 1, 2, gives=20)
    yield call(SOS, 1, 1, 6, 6, 2, gives=20)
    yield from rows(0, 5)
    yield call(SOS, 1, 1, 3, 3, 2, gives=(0, 6, 1, 0))
    yield call(CLEAR, 1, 1, 4, gives=0)
    yield call(CLEAR, 1, 1, 2, gives=0)
    yield call(SOS, 6, 6, 1, 1, 2, gives=(0, 6, 1, 0))
    yield from rows(0, 2, 5)


def missing_position_first():
    """A train that holds four orders, and a position is missing that the order needs: 18 comes before 20, whichever train it is."""
    yield from trains(TO_SR, TO_SR, TO_SR, TO_SR, TO_SR, TO_SR)
    for other in (2, 3, 4, 5):
        yield call(SOS, 1, 1, other, other, 1, gives=(0, 5, 1, 0))
    for n in (1, 6):
        yield step((n, n), SR_TO_OS, gives=(0, 6, 6, 0))
    yield from rows(0, 5)
    # M2 needs L1's position, M4 both. Train 1, which has no place, is L2, and then L1.
    yield call(SOS, 1, 1, 6, 6, 1, gives=18)
    yield call(SOS, 1, 1, 6, 6, 3, gives=18)
    yield call(SOS, 6, 6, 1, 1, 3, gives=18)
    yield call(POSITION, 6, 6, 6000, 5800, gives=0)
    yield call(SOS, 1, 1, 6, 6, 1, gives=20)
    yield call(SOS, 1, 1, 6, 6, 3, gives=18)
    yield call(SOS, 6, 6, 1, 1, 3, gives=18)
    # M3 needs L2's own.
    yield step((1, 1), 7, gives=(0, 1, 5, 0))
    yield step((1, 1), TO_PT, gives=(0, 8, 4, 0))
    yield call(SOS, 1, 1, 6, 6, 4, gives=18)
    yield call(POSITION, 1, 1, 5000, 4800, gives=0)
    yield call(SOS, 1, 1, 6, 6, 4, gives=20)
    yield call(SOS, 1, 1, 6, 6, 3, gives=20)
    yield call(SOS, 6, 6, 1, 1, 3, gives=20)
    yield from rows(0, 5)
    yield call(CLEAR, 1, 1, 3, gives=0)
    yield call(SOS, 1, 1, 6, 6, 4, gives=(0, 3, 2, 0))
    yield from rows(0, 5)


def measures():
    """Every grid for every row class of L2, with L1 in SR, and what each then holds."""
    yield from trains(TO_SR, TO_LS, TO_OS, TO_FS, TO_OV, TO_FS, TO_FS, TO_PT, TO_PT, TO_SR)
    for n, condition in ((6, FS_TO_OV), (7, FS_TO_TR), (9, PT_TO_OV)):
        yield step((n, n), condition)
    for n in range(1, 11):
        yield call(POSITION, n, n, 1000 * n, 1000 * n - 100, gives=0)
    for grid in (1, 2, 3, 4):
        for n in range(1, 10):
            yield call(SOS, n, n, 10, 10, grid)
            yield call(ROW, n - 1)
            yield call(CLEAR, 10, 10, n)
    yield from rows(9)


def faulty(loco, ticket, ground):
    """Each call on one train, with a later fault too, so that the name is seen to be judged first."""
    for kind, numbers in ((RELEASE, ()), (FLAGS, ()), (POSITION, (1, 2)), (AUTHORITY, (MOST - 1,)), (DANGER, (MOST - 1,)), (CLEAR, (9,)), (END, ())):
        yield call(kind, loco, ticket, *numbers, gives=ground)


def refused_locos():
    for loco in (0, 131071, MOST):
        yield call(REQUEST, loco, 0, gives=10)
        yield from faulty(loco, 1, 10)
        yield call(SOS, loco, 9, 1, 9, 9, gives=10)
        yield call(SOS, 1, 9, loco, 9, 9, gives=10)


def refused_tickets():
    for loco, ticket in ((1, 0), (1, 2), (2, 1), (1, 65537), (1, MOST), (3, 3)):
        yield from faulty(loco, ticket, 16)
        yield call(SOS, loco, ticket, 1, 1, 9, gives=16)
        yield call(SOS, 1, 1, loco, ticket, 9, gives=16)


def refused_numbers():
    for bytes_ in (0, 325, 65536 + 54, MOST):
        yield call(REQUEST, 1, bytes_, gives=11)
    for length in (0, 90, 92):
        yield call(FLAGS, 1, 1, flags=set_flags(2, length=length), gives=17)
    for before, flag in ((0, 2), (90, 2), (45, 255)):
        yield call(FLAGS, 1, 1, flags=bytes(before) + bytes([flag]) + bytes(90 - before), gives=17)
    for front, rear in ((524288, 0), (524288, 524288), (9, 10), (0, 524288), (MOST, MOST), (NONE, 0)):
        yield call(POSITION, 1, 1, front, rear, gives=17)
    for location in (524288, MOST - 1, 1 << 31):
        yield call(AUTHORITY, 1, 1, location, gives=17)
        yield call(DANGER, 1, 1, location, gives=17)
    for grid in (0, 5, 257, MOST):
        yield call(SOS, 1, 1, 2, 2, grid, gives=17)
        yield call(SOS, 1, 1, 1, 1, grid, gives=23)
    for other in (0, 2, 65536, MOST):
        yield call(CLEAR, 1, 1, other, gives=21)
    for k in (5, 129, 65536, MOST):
        yield call(BACK, k, gives=22)


def refusals():
    """Each refusal by the shortest way, and the session is as it was."""
    yield from trains(TO_FS, TO_FS)
    yield from rows(0, 1)
    yield from refused_locos()
    yield from refused_tickets()
    yield from refused_numbers()
    yield from rows(0, 1)
    # The ends of what is allowed.
    yield call(POSITION, 1, 1, 524287, 524287, gives=(0, 0, 0, 0))
    yield call(AUTHORITY, 1, 1, 524287, gives=(0, 1, 524287, 0))
    yield call(DANGER, 1, 1, 0, gives=(0, 1, 0, 0))
    yield from rows(0)


def refused_sos():
    """No class on either side, no cell, no position that the measure needs."""
    yield from trains(0, TO_SR, TO_FS, TO_OS, TO_PT)
    yield call(SOS, 1, 1, 2, 2, 3, gives=19)
    yield call(SOS, 2, 2, 1, 1, 3, gives=19)
    yield call(SOS, 3, 3, 2, 2, 1, gives=19)
    yield call(SOS, 3, 3, 2, 2, 2, gives=19)
    yield call(SOS, 5, 5, 2, 2, 1, gives=19)
    yield call(SOS, 4, 4, 2, 2, 1, gives=18)
    yield call(SOS, 5, 5, 2, 2, 4, gives=18)
    yield call(SOS, 4, 4, 2, 2, 3, gives=18)
    yield call(POSITION, 4, 4, 10, 5, gives=0)
    yield call(SOS, 4, 4, 2, 2, 3, gives=18)
    yield call(SOS, 4, 4, 2, 2, 1, gives=18)
    yield call(SOS, 5, 5, 4, 4, 3, gives=18)
    yield from rows(0, 1, 2, 3, 4)
    yield call(SOS, 2, 2, 3, 3, 1, gives=(0, 5, 1, 0))


def another_length():
    """A session of another length is refused by every call, and the session itself is as it was."""
    yield from trains(TO_FS, TO_FS)
    for lent in (0, 1, SESSION - 1, SESSION + 1):
        yield call(START, lent=lent, gives=34)
        yield call(REQUEST, 0, 0, lent=lent, gives=34)
        yield call(RELEASE, 1, 1, lent=lent, gives=34)
        yield call(FLAGS, 1, 1, flags=set_flags(2), lent=lent, gives=34)
        yield call(POSITION, 1, 1, 2, 1, lent=lent, gives=34)
        yield call(AUTHORITY, 1, 1, 9, lent=lent, gives=34)
        yield call(DANGER, 1, 1, 9, lent=lent, gives=34)
        yield call(SOS, 1, 1, 2, 2, 3, lent=lent, gives=34)
        yield call(CLEAR, 1, 1, 2, lent=lent, gives=34)
        yield call(BACK, 0, lent=lent, gives=34)
        yield call(END, 1, 1, lent=lent, gives=34)
    yield from rows(0, 1)


def mode_steps():
    """Steps that move, tie and stay; each is one entry."""
    yield from trains(TO_FS)
    yield step((1, 1), gives=(0, 4, 0, 0))
    yield step((1, 1), 71, 76, gives=(0, 3, 7, 1))
    yield call(BACK, 1, gives=(0, 3, 0, 0))
    yield step((1, 1), FS_TO_TR, gives=(0, 7, 4, 0))
    yield step((1, 1), 7, gives=(0, 7, 0, 0))
    yield from rows(0)
    yield call(BACK, 2, gives=(0, 3, 0, 0))
    yield step((1, 1), 69, 2, gives=(0, 13, 1, 0))
    yield from rows(0)


def stepping_back():
    """128 entries are kept and no more; what dropped out still stands; none is made by a refusal or a step back."""
    yield call(START)
    yield call(BACK, 0, gives=(0, 0, 0, 0))
    yield call(BACK, 1, gives=22)
    yield call(REQUEST, 7, 54, gives=(0, 1, 1, 1))
    for n in range(1, 141):
        yield call(AUTHORITY, 7, 1, n, gives=(0, 1, n, 0))
    yield from rows(0)
    yield call(AUTHORITY, 7, 2, 5, gives=16)
    yield call(BACK, 129, gives=22)
    yield call(BACK, 28, gives=(0, 100, 0, 0))
    yield call(BACK, 101, gives=22)
    yield call(END, 7, 1, gives=(0, 1, 112, 0))
    yield call(AUTHORITY, 7, 1, 900, gives=(0, 1, 900, 0))
    yield call(BACK, 0, gives=(0, 101, 0, 0))
    yield call(BACK, 101, gives=(0, 0, 0, 0))
    yield call(END, 7, 1, gives=(0, 1, 12, 0))
    yield call(BACK, 1, gives=22)
    yield from rows(0)
    # All kept entries at once, over the ring's end.
    yield call(TURNS, 8, 324, 200, gives=(0, 201, 2, 6))
    yield call(REQUEST, 9, 54, gives=(0, 202, 2, 1))
    yield call(BACK, 128, gives=(0, 0, 0, 0))
    yield from rows(0, 1)
    yield call(REQUEST, 9, 54, gives=0)


def last_ticket():
    """65,535 grants and no more, also after a step back."""
    yield call(START)
    yield call(TURNS, 7, 54, 65534, gives=(0, 65534, 1, 1))
    yield call(REQUEST, 7, 54, gives=(0, 65535, 1, 1))
    yield call(REQUEST, 8, 54, gives=14)
    yield call(POSITION, 7, 65535, 20, 10, gives=0)
    yield from rows(0)
    yield call(RELEASE, 7, 65535, gives=0)
    yield call(REQUEST, 7, 54, gives=14)
    yield call(REQUEST, 7, 325, gives=11)
    yield call(BACK, 128, gives=0)
    yield call(REQUEST, 9, 54, gives=14)
    yield from rows(0)
    yield call(START)
    yield call(REQUEST, 7, 54, gives=(0, 1, 1, 1))


def some_call(r):
    """A random call on one of six trains, most often a sound one."""

    def name():
        n = r.randint(1, 6)
        return n, n if r.random() < 0.95 else r.randint(0, 9)

    kind = r.choice((FLAGS, POSITION, POSITION, AUTHORITY, DANGER, SOS, SOS, SOS, CLEAR, BACK, END))
    if kind == FLAGS:
        return step(name(), *r.sample(range(1, 92), r.randint(0, 9)))
    if kind == POSITION:
        rear = r.randrange(3, 5000)
        return call(kind, *name(), rear + r.randint(-3, 300), rear)
    if kind == SOS:
        return call(kind, *name(), *name(), r.randint(1, 4))
    if kind == CLEAR:
        return call(kind, *name(), r.randint(1, 6))
    if kind == BACK:
        return call(kind, r.randrange(4))
    if kind == END:
        return call(kind, *name())
    return call(kind, *name(), r.choice((r.randrange(20), r.randrange(600000), NONE)))


def walk(r, length):
    """Random calls, and after each a look at a row."""
    yield from trains(TO_SR, TO_OS, TO_FS, TO_OV, TO_PT, 0)
    for _ in range(length):
        yield some_call(r)
        yield call(ROW, r.randrange(6))
    yield from rows(*range(7))


def cases():
    for group in (paper_listing, slots, full_register, stale_ticket, head_on, behind, five_orders, missing_position_first, measures, refusals, refused_sos,
                  another_length, mode_steps, stepping_back, last_ticket):
        yield from group()
    yield from walk(random.Random(7), 240)


def given(calls):
    return b"".join(bytes_ for bytes_, _ in calls)


def expected(model):
    """The model's lines, each held to what the paper says of its call."""
    calls = list(cases())
    run = subprocess.run([model], input=given(calls), stdout=subprocess.PIPE, check=True)
    lines = [line.split() for line in run.stdout.decode().splitlines()]
    assert len(lines) == len(calls), f"{len(calls)} calls and {len(lines)} lines"
    for n, (line, (_, said)) in enumerate(zip(lines, calls), 1):
        assert line[:len(said)] == [str(number) for number in said], f"line {n} is {line}, and the paper says {said}"
    answers = {int(line[1]) for line in lines if int(line[0]) not in (ROW, BOOK)}
    assert answers == REFUSALS | {0}, f"answers {sorted(answers)}"
    return run.stdout


if sys.argv[1:] == ["stdin"]:
    sys.stdout.buffer.write(given(list(cases())))
elif sys.argv[1:2] == ["stdout"] and len(sys.argv) == 3:
    sys.stdout.buffer.write(expected(sys.argv[2]))
else:
    sys.exit(__doc__)
