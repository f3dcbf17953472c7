#!/usr/bin/env python3
"""Makes recordings to try a listing program on. The same words and seed give the same bytes.

    tests/recordings.py day [COUNT] [SEED] > recording     a day of COUNT records (1,000,000 unless said)
    tests/recordings.py tickets > recording                uses up all 65,535 tickets and asks for one more
    tests/recordings.py small FOLDER [COUNT] [SEED]        COUNT (1,000 unless said) short recordings, one file each:
                                                           sound, hostile, random, damaged and cut ones
"""

import collections
import pathlib
import random
import struct
import sys

SLOTS = 44
SLOT_BYTES = 54
MOST_TRAINS = 24
MOST_KEPT = 128
LAST_TICKET = 65_535
LAST_LOCATION = 524_287
NONE = 0xFFFFFFFF
FLAGS = 91
# A day spends its tickets over all its records, so that requests are granted to the end.
GRANTS_IN_A_DAY = 60_000
# Conditions that lead out of Standby into SR, LS, FS, OV, OS and PT.
START_UPS = (60, 61, 62, 62, 62, 63, 64, 64, 66)
# Conditions of the mode table that lead on from there, and back to Standby.
CHANGES = (7, 7, 17, 34, 58, 59, 59, 69, 69, 71, 71, 74, 76, 79, 80, 81, 82, 86, 86, 87, 90, 91)


# Records.


def record(kind, payload):
    return b"\x4b\x56" + bytes([kind, len(payload)]) + payload


def request(loco, size):
    return record(1, struct.pack(">IH", loco, size))


def release(name):
    return record(2, struct.pack(">IH", *name))


def flags(name, conditions):
    values = bytearray(FLAGS)
    for condition in conditions:
        values[condition - 1] = 1
    return record(3, struct.pack(">IH", *name) + values)


def position(name, front, rear):
    return record(4, struct.pack(">IHII", *name, front, rear))


def authority(name, end):
    return record(5, struct.pack(">IHI", *name, end))


def danger(name, location):
    return record(6, struct.pack(">IHI", *name, location))


def sos(l2, l1, grid):
    return record(7, struct.pack(">IHIHB", *l2, *l1, grid))


def clear(name, other):
    return record(8, struct.pack(">IHH", *name, other))


def back(k):
    return record(9, struct.pack(">H", k))


# A day.


class Day:
    """Keeps just enough to name live trains: who is registered with which ticket and slots, and the counter.

    Whether an SOS is accepted is not known here. So a step back is made only where it does not matter: over records
    that are accepted for certain, or over one that leaves the trains registered as they are.
    """

    def __init__(self, chance, request_share):
        self.chance = chance
        self.request_share = request_share
        self.counter = 0
        self.trains = {}  # loco: (ticket, first slot, slots)
        self.taken = [False] * SLOTS
        self.raised = collections.deque(maxlen=60)  # names of L2 and L1 of the latest SOS records

    def records(self):
        """Records without end."""
        while True:
            if self.chance.random() < self.request_share or not self.trains:
                yield from self.arrival()
            else:
                yield from self.chance.choices(ACTIONS, WEIGHTS)[0](self)

    # Who is there.

    def name(self):
        loco = self.chance.choice(list(self.trains))
        return loco, self.trains[loco][0]

    def new_loco(self):
        """Few enough locos that some ask twice."""
        return self.chance.randint(1, 400)

    def snapshot(self):
        return dict(self.trains), list(self.taken)

    def restore(self, then):
        self.trains, self.taken = dict(then[0]), list(then[1])

    def granted(self, loco, size):
        """Takes note of a request; says whether it is granted."""
        slots = -(-size // SLOT_BYTES)
        starts = (s for s in range(SLOTS + 1 - slots) if not any(self.taken[s : s + slots]))
        start = next(starts, None)
        if loco in self.trains or len(self.trains) == MOST_TRAINS or self.counter == LAST_TICKET or start is None:
            return False
        self.counter += 1
        self.trains[loco] = self.counter, start, slots
        self.taken[start : start + slots] = [True] * slots
        return True

    def left(self, loco):
        _, start, slots = self.trains.pop(loco)
        self.taken[start : start + slots] = [False] * slots

    # What happens in a day; each gives its records.

    def arrival(self):
        """A request, and the new train's first records. A full station sees a train off first."""
        if len(self.trains) >= self.chance.randint(10, 30):
            yield from self.departure()
        loco, size = self.new_loco(), self.chance.choice((20, 54, 55, 100, 160, 216, 324))
        yield request(loco, size)
        if self.granted(loco, size):
            name = loco, self.counter
            yield flags(name, [self.chance.choice(START_UPS)])
            if self.chance.random() < 0.8:
                yield from self.report(name)
            yield authority(name, self.chance.randint(0, LAST_LOCATION))

    def departure(self):
        name = self.name()
        self.left(name[0])
        yield release(name)

    def report(self, name=None):
        front = self.chance.randint(0, LAST_LOCATION)
        yield position(name or self.name(), front, max(0, front - self.chance.randint(0, 700)))

    def grant_end(self):
        end = NONE if self.chance.random() < 0.1 else self.chance.randint(0, LAST_LOCATION)
        yield authority(self.name(), end)

    def danger_told(self):
        location = NONE if self.chance.random() < 0.3 else self.chance.randint(0, LAST_LOCATION)
        yield danger(self.name(), location)

    def conditions(self):
        pick = self.chance.random()
        if pick < 0.4:
            chosen = [self.chance.choice(START_UPS)]
        elif pick < 0.8:
            chosen = [self.chance.choice(CHANGES)]
        else:
            # From condition 6 on: 2 and 5 would soon have every train isolated or failed.
            chosen = self.chance.sample(range(6, FLAGS + 1), self.chance.randint(0, 6))
        yield flags(self.name(), chosen)

    def isolation(self):
        """A train fails or is isolated, and is brought back to Standby and into another mode."""
        name = self.name()
        for condition in (self.chance.choice((2, 5, 53)), 2, 80, self.chance.choice(START_UPS)):
            yield flags(name, [condition])

    def emergency(self):
        l2, l1 = self.name(), self.name()
        self.raised.append((l2, l1))
        yield sos(l2, l1, self.chance.randint(1, 4))

    def emergency_undone(self):
        """Whether or not the SOS is accepted, the step back undoes no request and no release."""
        yield from self.report()
        yield from self.emergency()
        yield back(1)

    def order_cleared(self):
        """An order of a late SOS; a head-on one has given L1 an order too."""
        names = self.chance.choice(self.raised) if self.raised else (self.name(), self.name())
        train, other = names if self.chance.random() < 0.7 else reversed(names)
        yield clear(train, other[1])

    def trial(self):
        """A run of records that are accepted for certain, all or some of them stepped back."""
        count = self.chance.choice((1, 2, 3, 5, 8, 20, 128, 140))
        before = []
        for _ in range(count):
            before.append(self.snapshot())
            yield self.certain()
        k = self.chance.randint(0, min(count, MOST_KEPT))
        if k > 0:
            self.restore(before[count - k])
        yield back(k)

    def certain(self):
        """One record that is accepted for certain."""
        loco, pick = self.new_loco(), self.chance.random()
        # Requests are rarer here than among the arrivals: a trial stepped back has used up its tickets.
        if pick < self.request_share and self.granted(loco, SLOT_BYTES):
            return request(loco, SLOT_BYTES)
        if pick > 0.97 and len(self.trains) > 1:
            return next(self.departure())
        return next(self.chance.choice((self.report, self.grant_end, self.danger_told, self.conditions))())

    def refusal(self):
        """A record with something wrong in it: a stale ticket, a number out of range, a loco that is not there."""
        loco, ticket = self.name()
        stale = loco, self.chance.choice((0, ticket - 1, self.counter + 1, LAST_TICKET))
        name = loco, ticket
        stranger = 131_070, ticket
        yield self.chance.choice(
            (
                request(loco, 54),
                request(self.chance.choice((0, 131_071, NONE)), 54),
                request(401, self.chance.choice((0, 325, 65_535))),
                release(stale),
                release(stranger),
                flags(stale, [62]),
                position(name, 100, 101),
                position(name, LAST_LOCATION + 1, 0),
                position(stale, 100, 50),
                authority(name, LAST_LOCATION + 1),
                authority(stale, 100),
                danger(name, NONE - 1),
                sos(name, name, 1),
                sos(name, stale, 1),
                sos(stranger, name, 2),
                sos(name, self.name(), self.chance.choice((0, 5, 255))),
                clear(name, 0),
                clear(stale, ticket),
                back(self.chance.randint(MOST_KEPT + 1, 65_535)),
            )
        )


ACTIONS, WEIGHTS = zip(
    (Day.report, 30),
    (Day.grant_end, 10),
    (Day.danger_told, 8),
    (Day.conditions, 12),
    (Day.isolation, 1),
    (Day.emergency, 10),
    (Day.emergency_undone, 1),
    (Day.order_cleared, 5),
    (Day.departure, 1),
    (Day.trial, 1),
    (Day.refusal, 8),
)


def day(count, seed):
    """`count` records of a day."""
    chance = random.Random(seed)
    request_share = min(0.1, GRANTS_IN_A_DAY / 2 / max(count, 1))
    return (record for record, _ in zip(Day(chance, request_share).records(), range(count)))


def tickets():
    """All tickets granted, 24 at a time and stepped back, and one request more (answer 14)."""
    granted = 0
    while granted < LAST_TICKET:
        batch = min(MOST_TRAINS, LAST_TICKET - granted)
        for loco in range(1, batch + 1):
            yield request(loco, SLOT_BYTES)
        granted += batch
        yield back(batch)
    yield request(1, SLOT_BYTES)


# Short recordings.


def any_number(chance):
    """Any number of 32 bits, most of them at an end of some range."""
    edges = (0, 1, 2, 44, 54, 300, 324, 325, 65_535, 65_536, 131_070, 131_071, LAST_LOCATION, LAST_LOCATION + 1, NONE)
    return chance.choice(edges + (NONE - 1, chance.getrandbits(32), chance.randint(0, LAST_LOCATION)))


def any_name(chance):
    """Mostly one of a few locos with one of the first tickets, so that some are live."""
    if chance.random() < 0.8:
        return chance.randint(1, 4), chance.randint(0, 6)
    return any_number(chance), any_number(chance) & 0xFFFF


def any_payload(chance, kind):
    """The payload of a kind, right in its length."""
    first, second = any_number(chance), any_number(chance)
    name = struct.pack(">IH", *any_name(chance))
    if kind == 1:
        return struct.pack(">IH", chance.choice((1, 2, 3, 4, first)), chance.choice((1, 100, 324, second & 0xFFFF)))
    if kind == 2:
        return name
    if kind == 3:
        return name + bytes(chance.choices((0, 1, 2, 255), (900, 60, 0.2, 0.1), k=FLAGS))
    if kind == 4:
        return name + struct.pack(">II", first, second)
    if kind in (5, 6):
        return name + struct.pack(">I", first)
    if kind == 7:
        return name + struct.pack(">IHB", *any_name(chance), chance.choice((0, 1, 2, 3, 4, 5, 255)))
    if kind == 8:
        return name + struct.pack(">H", chance.choice((1, 2, 3, first & 0xFFFF)))
    return struct.pack(">H", chance.choice((0, 1, 2, 3, first & 0xFFFF)))


def hostile(chance):
    """Records of a right form whose numbers may be any."""
    kinds = chance.choices(range(1, 10), k=chance.randint(1, 200))
    return b"".join(record(kind, any_payload(chance, kind)) for kind in kinds)


def sound(chance):
    return b"".join(day(chance.randint(0, 60), chance.getrandbits(32)))


def random_bytes(chance):
    marked = b"\x4b\x56" if chance.random() < 0.5 else b""
    return marked + chance.randbytes(chance.randint(0, 60))


def header_byte(chance, recording):
    """The offset of a byte in some record's header."""
    starts, at = [], 0
    while at < len(recording):
        starts.append(at)
        at += 4 + recording[at + 3]
    return chance.choice(starts) + chance.randrange(4)


def damaged(chance):
    """One byte changed, put in or taken out, more often than not in a header."""
    whole = bytearray(sound(chance) + request(7, 100))
    at = header_byte(chance, whole) if chance.random() < 0.7 else chance.randrange(len(whole))
    pick = chance.random()
    if pick < 0.5:
        whole[at] ^= chance.randint(1, 255)
    elif pick < 0.75:
        whole.insert(at, chance.randint(0, 255))
    else:
        del whole[at]
    return bytes(whole)


def cut(chance):
    whole = sound(chance) + request(7, 100)
    return whole[: chance.randrange(len(whole))]


def small(folder, count, seed):
    """Short recordings of all sorts, and the shortest of all first."""
    chance = random.Random(seed)
    shortest = [b"", b"K", b"KV", b"KV\x01", b"KV\x01\x06", b"KV\x00\x00"]
    sorts = (sound, hostile, random_bytes, damaged, cut)
    for at in range(count):
        recording = shortest[at] if at < len(shortest) else sorts[at % len(sorts)](chance)
        (folder / f"{at:05}.rec").write_bytes(recording)


def number(words, at, default):
    return int(words[at]) if len(words) > at else default


def main(words):
    sort = words[0] if words else ""
    if sort == "day":
        sys.stdout.buffer.writelines(day(number(words, 1, 1_000_000), number(words, 2, 1)))
    elif sort == "tickets":
        sys.stdout.buffer.writelines(tickets())
    elif sort == "small" and len(words) > 1:
        folder = pathlib.Path(words[1])
        folder.mkdir(parents=True, exist_ok=True)
        small(folder, number(words, 2, 1_000), number(words, 3, 1))
    else:
        sys.exit(__doc__)


if __name__ == "__main__":
    main(sys.argv[1:])
