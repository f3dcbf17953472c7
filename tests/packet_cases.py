#!/usr/bin/env python3
"""The cases that crates/packet_runs runs, and what it must print: sub-packets as documents 01 and 02 describe them, worked out with whole numbers.

  tests/packet_cases.py stdin  > crates/packet_runs/stdin
  tests/packet_cases.py stdout > crates/packet_runs/stdout

A case is a kind (1 framing, 2 gates read, 3 gates written, 4 turnouts read, 5 turnouts written, 6 gates moved forward from the old form, 7 gates
moved back to it), the output's room, and the input. The output holds AA before each case. The lines, where a place is the first bit of the field
at fault, counted from the start of the sub-packet that is read:

  1 ANSWER PLACE LENGTH HEX            the sub-packet that was framed: its bytes, and they in hex
  2 ANSWER PLACE GATES BYTES HEX       the gates read, the sub-packet's bytes, the output in hex
  3 ANSWER GATES BYTES HEX             the gates written, the sub-packet's bytes, the output in hex
  4 ANSWER PLACE TURNOUTS BYTES HEX    the same of turnouts read
  5 ANSWER TURNOUTS BYTES HEX          and of turnouts written
  6 ANSWER PLACE GATES USED WRITTEN HEX    the gates moved forward, the bytes of the sub-packet read and of that written, the output in hex
  7 ANSWER PLACE GATES USED WRITTEN HEX    the same of gates moved back
"""
import random
import sys

# The fields of a gate. The old form has another distance alone: 9 bits, in tens of metres.
WIDTHS = [("distance", 15), ("number", 10), ("suffix", 3), ("manning", 1), ("class", 3), ("whistling", 1), ("type", 2)]
OLD_WIDTHS = [("distance", 9), *WIDTHS[1:]]
ALLOWED = {"number": range(1, 1023), "suffix": range(7), "class": range(7), "type": range(3)}

# A turnout's fields; the distances follow a restricted speed only. Of the codes for speeds the last, 31, is unrestricted.
TURNOUT_WIDTHS = [("speed", 5), ("distance", 15), ("release", 12)]
RESTRICTED = range(1, 19)
SPEEDS = (*RESTRICTED, 31)


def bits(data, at, width):
    """the number that `width` bits from bit `at` on make; the first bit is the top bit of the first byte"""
    number = int.from_bytes(data, "big")
    return number >> (8 * len(data) - at - width) & ((1 << width) - 1)


def fields_at(data, at, widths):
    """the fields that stand from bit `at` on, one behind the other"""
    found = {}
    for name, width in widths:
        found[name] = bits(data, at, width)
        at += width
    return found


def whole(width):
    """the bytes that so many bits take"""
    return (width + 7) // 8


def joined(fields, pad):
    """fields, each a value and its width, one behind the other, and what fills up to a byte"""
    value = width = 0
    for field, bits_ in fields:
        value, width = value << bits_ | field, width + bits_
    return (value << 8 * whole(width) - width | pad).to_bytes(whole(width), "big")


def end(gates, widths=WIDTHS):
    """the bit behind so many gates"""
    return 16 + sum(width for _, width in widths) * gates


def size(gates, widths=WIDTHS):
    return whole(end(gates, widths))


def padding(gates, widths=WIDTHS):
    """the bits that fill up to a byte"""
    return 8 * size(gates, widths) - end(gates, widths)


def pack(gates, length=None, count=None, pad=0, kind=3, widths=WIDTHS):
    """a gate sub-packet, or one that is wrong in a named way"""
    head = [(kind, 4), (size(len(gates), widths) if length is None else length, 7), (len(gates) if count is None else count, 5)]
    return joined(head + [(g[name], width) for g in gates for name, width in widths], pad)


def outside(gates):
    """9 bytes a gate"""
    return b"".join(g["distance"].to_bytes(2, "big") + g["number"].to_bytes(2, "big") + bytes([g["suffix"], g["manning"], g["class"], g["whistling"], g["type"]])
                    for g in gates)


def frame(data, types=range(8)):
    """the answer, and the place"""
    if len(data) < 2:
        return 1, 0
    if bits(data, 0, 4) not in types:
        return 2, 0
    length = bits(data, 4, 7)
    if length < 2:
        return 3, 4
    if len(data) < length:
        return 1, 0
    return 0, 0


def first_wrong(data, count, widths):
    """the first bit of the first field that is not allowed, or None"""
    at = 16
    for _ in range(count):
        for name, width in widths:
            if name in ALLOWED and bits(data, at, width) not in ALLOWED[name]:
                return at
            at += width
    return None


def first_set(data, at):
    """the first bit that is set of the padding, which fills up a byte from bit `at` on, or None: where the number that it makes has its top bit"""
    end_ = 8 * whole(at)
    value = bits(data, at, end_ - at)
    return end_ - value.bit_length() if value else None


def gates_in(data, widths):
    """the answer, the place, and the gates, before their room is judged"""
    refusal, place = frame(data, range(3, 4))
    if refusal:
        return refusal, place, []
    count = bits(data, 11, 5)
    if bits(data, 4, 7) != size(count, widths) or count in (29, 30, 31):
        return 3, 11, []
    wrong = first_wrong(data, count, widths)
    if wrong is not None:
        return 4, wrong, []
    pad = first_set(data, end(count, widths))
    if pad is not None:
        return 5, pad, []
    return 0, 0, [fields_at(data, end(n, widths), widths) for n in range(count)]


def read_gates(data, room):
    """the answer, the place, and the gates"""
    answer, place, gates = gates_in(data, WIDTHS)
    return (1, 0, []) if room < 9 * len(gates) else (answer, place, gates)


def move_forward(data, room):
    """the answer, the place, and the sub-packet in the new form"""
    answer, place, gates = gates_in(data, OLD_WIDTHS)
    packet = b"" if answer else pack([g | {"distance": 10 * g["distance"]} for g in gates])
    return (1, 0, b"") if room < len(packet) else (answer, place, packet)


def move_back(data, room):
    """the answer, the place, and the sub-packet in the old form"""
    answer, place, gates = gates_in(data, WIDTHS)
    for n, gate in enumerate(gates):
        if gate["distance"] not in range(0, 5111, 10):
            return 6, end(n), b""
    packet = b"" if answer else pack([g | {"distance": g["distance"] // 10} for g in gates], widths=OLD_WIDTHS)
    return (1, 0, b"") if room < len(packet) else (answer, place, packet)


def write_gates(data, room):
    """the answer, and the sub-packet"""
    if len(data) % 9 or len(data) // 9 > 28:
        return 3, b""
    gates = []
    for i in range(0, len(data), 9):
        d = data[i:i + 9]
        gate = dict(zip((name for name, _ in WIDTHS), [d[0] << 8 | d[1], d[2] << 8 | d[3], *d[4:]]))
        if any(gate[name] >> width for name, width in WIDTHS) or any(gate[name] not in allowed for name, allowed in ALLOWED.items()):
            return 4, b""
        gates.append(gate)
    if room < size(len(gates)):
        return 1, b""
    return 0, pack(gates)


def pack_turnouts(turnouts, length=None, count=None, pad=0, kind=4):
    """a turnout sub-packet, or one that is wrong in a named way. A turnout has the fields that it holds, whatever its speed."""
    body = [(t[name], width) for t in turnouts for name, width in TURNOUT_WIDTHS if name in t]
    n = whole(13 + sum(width for _, width in body))
    return joined([(kind, 4), (n if length is None else length, 7), (len(turnouts) if count is None else count, 2), *body], pad)


def turnouts_outside(turnouts):
    """5 bytes a turnout; what is absent is zero"""
    return b"".join(bytes([t["speed"]]) + t.get("distance", 0).to_bytes(2, "big") + t.get("release", 0).to_bytes(2, "big") for t in turnouts)


def fields_for(speed):
    """the fields of a turnout with this speed"""
    return TURNOUT_WIDTHS if speed in RESTRICTED else TURNOUT_WIDTHS[:1]


def turnouts_in(packet):
    """each turnout with its first bit, and the bit behind the last; or None where one runs past the sub-packet"""
    found, at, last = [], 13, 8 * len(packet)
    for _ in range(bits(packet, 11, 2)):
        if at + 5 > last:
            return None
        fields = fields_for(bits(packet, at, 5))
        behind = at + sum(width for _, width in fields)
        if behind > last:
            return None
        found.append((at, fields_at(packet, at, fields)))
        at = behind
    return found, at


def read_turnouts(data, room):
    """the answer, the place, and the turnouts"""
    refusal, place = frame(data, range(4, 5))
    if refusal:
        return refusal, place, []
    packet = data[:bits(data, 4, 7)]
    walked = turnouts_in(packet)
    if walked is None or whole(walked[1]) != len(packet):
        return 3, 11, []
    found, behind = walked
    for at, turnout in found:
        if turnout["speed"] not in SPEEDS:
            return 4, at, []
    pad = first_set(packet, behind)
    if pad is not None:
        return 5, pad, []
    if room < 5 * len(found):
        return 1, 0, []
    return 0, 0, [turnout for _, turnout in found]


def write_turnouts(data, room):
    """the answer, and the sub-packet"""
    if len(data) % 5 or len(data) // 5 > 3:
        return 3, b""
    turnouts = []
    for i in range(0, len(data), 5):
        d = data[i:i + 5]
        given = {"speed": d[0], "distance": d[1] << 8 | d[2], "release": d[3] << 8 | d[4]}
        # a field that is absent has no bits, so that only zero has room in it
        widths = dict(fields_for(given["speed"]))
        if given["speed"] not in SPEEDS or any(value >> widths.get(name, 0) for name, value in given.items()):
            return 4, b""
        turnouts.append({name: given[name] for name in widths})
    packet = pack_turnouts(turnouts)
    return (1, b"") if room < len(packet) else (0, packet)


def expected(kind, room, data):
    out = b"\xaa" * room
    if kind == 1:
        answer, place = frame(data)
        sub = data[:bits(data, 4, 7)] if answer == 0 else b""
        return f"1 {answer} {place} {len(sub)} {sub.hex()}"
    if kind in (2, 4):
        answer, place, found = (read_gates if kind == 2 else read_turnouts)(data, room)
        list_ = (outside if kind == 2 else turnouts_outside)(found)
        return f"{kind} {answer} {place} {len(found)} {0 if answer else bits(data, 4, 7)} {(list_ + out[len(list_):]).hex()}"
    if kind in (6, 7):
        answer, place, packet = (move_forward if kind == 6 else move_back)(data, room)
        moved, used = (0, 0) if answer else (bits(data, 11, 5), bits(data, 4, 7))
        return f"{kind} {answer} {place} {moved} {used} {len(packet)} {(packet + out[len(packet):]).hex()}"
    answer, packet = (write_gates if kind == 3 else write_turnouts)(data, room)
    written = 0 if answer else len(data) // (9 if kind == 3 else 5)
    return f"{kind} {answer} {written} {len(packet)} {(packet + out[len(packet):]).hex()}"


def gate(**changed):
    """the paper's gate: 650 m, number 12, suffix a, manned, B1, whistling, type 0"""
    return {"distance": 650, "number": 12, "suffix": 1, "manning": 0, "class": 2, "whistling": 1, "type": 0} | changed


def some_gate(r):
    return {"distance": r.randrange(1 << 15), "number": r.randrange(1, 1023), "suffix": r.randrange(7), "manning": r.randrange(2), "class": r.randrange(7),
            "whistling": r.randrange(2), "type": r.randrange(3)}


# A value that is not allowed in each field that has one; a number has two.
WRONG = (("number", 0), ("number", 1023), ("suffix", 7), ("class", 7), ("type", 3))


def spoiled(gates, *wrong):
    """the gates with some fields wrong, each said by gate, name and value"""
    changed = [dict(g) for g in gates]
    for n, name, value in wrong:
        changed[n][name] = value
    return changed


def place_cases():
    """sub-packets that tell where they broke"""
    r = random.Random(3)
    # framing and reading: every type with lengths below 2, read with a byte behind them
    for kind in range(16):
        for length in (0, 1):
            yield 1, 0, bytes([kind << 4, length << 5 | 31])
            yield 2, 0, bytes([kind << 4, length << 5, 0xFF])
    # every field that has a wrong value, in the first, a middle and the last gate
    many = [some_gate(r) for _ in range(28)]
    for n in (0, 13, 27):
        for name, value in WRONG:
            yield 2, 2, pack(spoiled(many, (n, name, value)))
    # two wrong fields in one gate, and in two gates: also one that comes earlier in the later gate
    three = [some_gate(r) for _ in range(3)]
    for i, (name, value) in enumerate(WRONG):
        for other, wrong in WRONG[i + 1:]:
            if name != other:
                yield 2, 27, pack(spoiled(three, (1, name, value), (1, other, wrong)))
        for other, wrong in WRONG[1:]:
            yield 2, 2, pack(spoiled(three, (0, name, value), (2, other, wrong)))
            yield 2, 2, pack(spoiled(three, (1, name, value), (2, other, wrong)))
    yield 2, 2, pack(spoiled(many, *((n, name, value) for n in range(28) for name, value in WRONG)))
    yield 2, 2, pack(spoiled(many, *((n, name, value) for n in range(20, 28) for name, value in WRONG[1:])))
    # what is free beside a wrong field, at its least and its greatest, and beside none
    for distance in (0, 32767):
        for manning in (0, 1):
            for whistling in (0, 1):
                free = gate(distance=distance, manning=manning, whistling=whistling)
                yield 2, 9, pack([free])
                for name, value in WRONG:
                    yield 2, 0, pack([free | {name: value}])
    for name, value in WRONG:
        yield 2, 0, pack([gate(distance=32767, suffix=6, manning=1, whistling=1, **{"class": 6}) | {name: value}, gate(distance=0)])
    # eight counts running have a padding of 5, 2, 7, 4, 1, 6, 3 and 0 bits: each bit alone, all together, and the first with the last
    assert sorted(map(padding, range(1, 9))) == list(range(8))
    for n in (*range(1, 9), 28):
        gates, width = [some_gate(r) for _ in range(n)], padding(n)
        yield 2, 9 * n, pack(gates) + b"\xff"
        for bit in range(width):
            yield 2, 0, pack(gates, pad=1 << bit)
        if width:
            yield 2, 0, pack(gates, pad=(1 << width) - 1)
            yield 2, 0, pack(gates, pad=1 << width - 1 | 1)
        yield 2, 0, pack(spoiled(gates, (n - 1, "type", 3)), pad=(1 << width) - 1)
    # two bits of the longest padding
    for first in range(7):
        for second in range(first):
            yield 2, 0, pack(three, pad=1 << first | 1 << second)
    # the order of the grounds: each case lacks the ground that the one before was refused for
    wrong = spoiled([gate()], *((0, name, value) for name, value in WRONG))
    for packet in (pack(wrong, kind=8, length=1, count=2, pad=31)[:1], pack(wrong, kind=8, length=1, count=2, pad=31),
                   pack(wrong, length=1, count=2, pad=31), pack(wrong, count=2, pad=31)[:6], pack(wrong, count=2, pad=31), pack(wrong, pad=31),
                   pack([gate(suffix=7, type=3)], pad=31), pack([gate(type=3)], pad=31), pack([gate()], pad=31), pack([gate()])):
        yield 2, 8, packet
        yield 1, 0, packet


# A way to move gates: the kind, the fields of the form that is read and of that which is written, and a distance that can be moved.
FORWARD = (6, OLD_WIDTHS, WIDTHS, 65)
BACK = (7, WIDTHS, OLD_WIDTHS, 650)


def movable(r, way, count):
    """so many gates that can be moved, in the numbers of the form that is read"""
    unit = 1 if way is FORWARD else 10
    return [some_gate(r) | {"distance": unit * r.randrange(512)} for _ in range(count)]


def move_form_cases(way):
    """the shortest input for each ground of the framing and the length rule, and counts with lengths of either form"""
    kind, widths, others, distance = way
    one = [gate(distance=distance)]
    for packet in (b"", b"\x30", *(bytes([type_ << 4, 0x40]) for type_ in range(16)), b"\x30\x00", b"\x30\x3f", b"\x30\x60", b"\x30\x60\x00", b"\x30\x41"):
        yield kind, 4, packet
    yield kind, 9, pack(one, widths=widths)[:-1]
    for step in (-1, 1):
        yield kind, 9, pack(one, length=size(1, widths) + step, widths=widths) + b"\x00"
    for count in (0, 2, 28, 29, 30, 31):
        yield kind, 9, pack(one, count=count, widths=widths)
    for count in (1, 2, 7, 28):
        yield kind, 130, pack([gate(distance=distance)] * count, widths=others) + bytes(25)
    # the most of the old form take 115 bytes, of the new one 125; whatever is wrong besides, more than 28 gates cannot be moved
    assert size(31, OLD_WIDTHS) == 115 and size(28) == 125
    for count in (29, 30, 31):
        old = [gate(distance=65)] * count
        yield kind, 140, pack(old, widths=OLD_WIDTHS) + bytes(12)
        yield kind, 0, pack(spoiled(old, (0, "number", 0)), pad=1, widths=OLD_WIDTHS)
        yield kind, 140, pack(old, widths=OLD_WIDTHS)[:-1]
        yield kind, 140, pack(old, length=size(count, OLD_WIDTHS) - 1, widths=OLD_WIDTHS)


def move_count_cases(way):
    """every count that can be moved, with room one byte short, just enough, and more; and what follows the sub-packet"""
    kind, widths, others, _ = way
    r = random.Random(kind)
    for count in range(29):
        gates = movable(r, way, count)
        yield kind, size(count, others) + count % 3, pack(gates, widths=widths) + b"\xff" * (count % 4)
        if count in (0, 1, 8, 27, 28):
            for room in (size(count, others) - 1, size(count, others), size(count, others) + 5, 0):
                yield kind, room, pack(gates, widths=widths)


def move_field_cases(way):
    """fields that are not allowed in the first, a middle and the last gate, two in one gate and in two, and what is free at its ends"""
    kind, widths, _, distance = way
    r = random.Random(10 + kind)
    many, three = movable(r, way, 28), movable(r, way, 3)
    for n in (0, 13, 27):
        for name, value in WRONG:
            yield kind, 2, pack(spoiled(many, (n, name, value)), widths=widths)
    for i, (name, value) in enumerate(WRONG[1:], 1):
        for other, wrong in WRONG[i + 1:]:
            yield kind, 40, pack(spoiled(three, (1, name, value), (1, other, wrong)), widths=widths)
        for other, wrong in WRONG[1:]:
            yield kind, 2, pack(spoiled(three, (1, name, value), (2, other, wrong)), widths=widths)
    yield kind, 130, pack(spoiled(many, *((n, name, value) for n in range(20, 28) for name, value in WRONG[1:])), widths=widths)
    for name, values in (("number", (1, 1022)), ("suffix", (0, 6)), ("manning", (0, 1)), ("class", (0, 6)), ("whistling", (0, 1)), ("type", (0, 2))):
        for value in values:
            yield kind, 12, pack([gate(distance=distance), gate(**{"distance": distance, name: value})], widths=widths)


def move_padding_cases(way):
    """eight counts running have a padding of each width: each bit alone, all together, and the first with the last"""
    kind, widths, _, _ = way
    r = random.Random(20 + kind)
    assert sorted(padding(n, widths) for n in range(1, 9)) == list(range(8))
    for n in (*range(1, 9), 28):
        gates, width = movable(r, way, n), padding(n, widths)
        for bit in range(width):
            yield kind, 0, pack(gates, pad=1 << bit, widths=widths)
        if width:
            yield kind, 130, pack(gates, pad=(1 << width) - 1, widths=widths)
            yield kind, 130, pack(gates, pad=1 << width - 1 | 1, widths=widths)
            yield kind, 130, pack(spoiled(gates, (n - 1, "type", 3)), pad=(1 << width) - 1, widths=widths)


def move_order_cases(way):
    """each case lacks the ground that the one before was refused for"""
    kind, widths, others, distance = way
    # the distance is all ones, which can go forward alone, and then one that can be moved
    width = widths[0][1]
    bad = spoiled([gate(distance=(1 << width) - 1)], *((0, name, value) for name, value in WRONG))
    pad = (1 << padding(1, widths)) - 1
    for packet in (pack(bad, kind=8, length=1, count=30, pad=pad, widths=widths)[:1], pack(bad, kind=8, length=1, count=30, pad=pad, widths=widths),
                   pack(bad, length=1, count=30, pad=pad, widths=widths), pack(bad, count=30, pad=pad, widths=widths)[:-1],
                   pack(bad, count=30, pad=pad, widths=widths), pack(bad, pad=pad, widths=widths),
                   pack([gate(distance=bad[0]["distance"], suffix=7, type=3)], pad=pad, widths=widths),
                   pack([gate(distance=bad[0]["distance"], type=3)], pad=pad, widths=widths),
                   pack([gate(distance=bad[0]["distance"])], pad=pad, widths=widths),
                   pack([gate(distance=bad[0]["distance"])], widths=widths), pack([gate(distance=distance)], widths=widths)):
        yield kind, size(1, others) - 1, packet
    yield kind, size(1, others), packet


def distance_cases():
    """distances that go forward, and those that can go back and cannot: alone, and where the first of several is told"""
    for tens in (0, 1, 9, 10, 255, 256, 257, 510, 511):
        yield 6, 7, pack([gate(distance=tens)], widths=OLD_WIDTHS)
    for metres in (0, 1, 5, 9, 10, 11, 90, 100, 255, 256, 2550, 2560, 5100, 5101, 5105, 5109, 5110, 5111, 5115, 5119, 5120, 5121, 5130, 8190, 10230,
                   10240, 10250, 16380, 32760, 32767):
        yield 7, 6, pack([gate(distance=metres)])
    near = [gate(distance=5110)] * 28
    for n in (0, 1, 13, 26, 27):
        for metres in (5105, 5115, 5120):
            yield 7, 104, pack(spoiled(near, (n, "distance", metres)))
    for first in (0, 1, 12, 25, 26):
        yield 7, 0, pack(spoiled(near, (first, "distance", 5120 + first), (27, "distance", 1), (first + 1, "distance", 32760)))
    # a field of a later gate, and the padding, are judged before; the room behind
    for n in (0, 1, 2):
        far = spoiled(near[:3], (n, "distance", 5120))
        for name, value in WRONG:
            yield 7, 30, pack(spoiled(far, (2, name, value)))
        yield 7, 30, pack(far, pad=1)
        yield 7, 12, pack(far)


def random_move_cases(way):
    """some sub-packets there and back, and some damaged"""
    kind, widths, others, _ = way
    back, r = 13 - kind, random.Random(30 + kind)
    for n in (1, 2, 5, 14, 28):
        gates = movable(r, way, n)
        packet = pack(gates, widths=widths)
        moved = (move_forward if way is FORWARD else move_back)(packet, 130)[2]
        yield back, len(packet), moved
        for _ in range(3):
            hurt = bytearray(packet + bytes(2))
            hurt[r.randrange(len(packet))] ^= 1 << r.randrange(8)
            yield kind, size(n, others) + 2, bytes(hurt)


def move_cases():
    # the paper's gate in both forms
    yield 6, 9, bytes.fromhex("30C1208184A0FF")
    yield 7, 9, bytes.fromhex("30E10514061280FF")
    for way in (FORWARD, BACK):
        for part in (move_form_cases, move_count_cases, move_field_cases, move_padding_cases, move_order_cases, random_move_cases):
            yield from part(way)
    yield from distance_cases()


def restricted(speed=6, distance=1200, release=400):
    return {"speed": speed, "distance": distance, "release": release}


UNRESTRICTED = {"speed": 31}


def with_speed(speed):
    """a turnout with any code, in the form that the code has"""
    return restricted(speed, 1000 * speed + 321, 200 * speed + 123) if speed in RESTRICTED else {"speed": speed}


def layouts(count):
    """so many turnouts, each restricted or not, in every way"""
    if count == 0:
        return [[]]
    return [[first, *rest] for first in (UNRESTRICTED, with_speed(5 * count)) for rest in layouts(count - 1)]


def speed_cases():
    """every code alone, read and written; and between two others of which one is restricted, written too where a range ends"""
    for speed in range(32):
        alone = pack_turnouts([with_speed(speed)])
        yield 4, 5, alone
        yield 5, len(alone), turnouts_outside([with_speed(speed)])
        neighbours = [UNRESTRICTED, restricted()]
        three = [neighbours[speed % 2], with_speed(speed), neighbours[1 - speed % 2]]
        yield 4, 15, pack_turnouts(three)
        if speed in (0, 1, 18, 19, 30, 31):
            yield 5, 14, turnouts_outside(three)
    # the distances at their least and greatest
    for distance, release in ((0, 0), (1, 1), (0, 4095), (32767, 0), (32767, 4095)):
        turnouts = [UNRESTRICTED, restricted(1, distance, release), restricted(18, release, distance >> 3)]
        yield 4, 15, pack_turnouts(turnouts)
        yield 5, 11, turnouts_outside(turnouts)


def layout_cases():
    """each turnout with distances and without, what follows the sub-packet, the room, and every bit of a padding of each width that there is"""
    widths = set()
    for turnouts in (turnouts for count in range(4) for turnouts in layouts(count)):
        packet = pack_turnouts(turnouts)
        yield 4, 5 * len(turnouts) + 2, packet + b"\xf8\x0f"
        if len(turnouts) == 3:
            yield 5, len(packet) + 2, turnouts_outside(turnouts)
        width = 8 * len(packet) - 13 - sum(32 if "distance" in t else 5 for t in turnouts)
        if width not in widths:
            widths.add(width)
            for bit in range(width):
                yield 4, 0, pack_turnouts(turnouts, pad=1 << bit)
    assert sorted(widths) == [1, 3, 4, 6]
    # room one byte short, for reading and for writing; three turnouts with distances take 14 bytes
    for turnouts in ([UNRESTRICTED], [restricted()], [restricted()] * 3):
        packet = pack_turnouts(turnouts)
        yield 4, 5 * len(turnouts) - 1, packet
        yield 5, len(packet) - 1, turnouts_outside(turnouts)
    assert len(packet) == 14
    yield 4, 0, packet
    yield 5, 1, b""
    # the longest padding: all of it, and its ends
    for pad in (0b111111, 0b100001):
        yield 4, 5, pack_turnouts([UNRESTRICTED], pad=pad)


def form_cases():
    """the shortest input for each ground of the framing and the length rule"""
    yield 4, 15, b""
    yield 4, 15, b"\x40"
    for kind in (0, 3, 5, 12):
        yield 4, 15, pack_turnouts([], kind=kind)
    for length in (0, 1):
        yield 4, 15, pack_turnouts([], length=length)
    yield 4, 15, pack_turnouts([], length=3)
    for turnouts in ([UNRESTRICTED], [restricted()]):
        yield 4, 15, pack_turnouts(turnouts)[:-1]
        yield 4, 15, pack_turnouts(turnouts, length=127) + bytes(8)
    # a length that is longer or shorter than the turnouts, whose bytes are all there
    for turnouts in ([], [UNRESTRICTED], [restricted()], [restricted()] * 3):
        n = len(pack_turnouts(turnouts))
        yield 4, 15, pack_turnouts(turnouts, length=n + 1) + b"\x00"
        if n > 2:
            yield 4, 15, pack_turnouts(turnouts, length=n - 1)
    # a speed, a distance and a release distance that run past the sub-packet, and bytes behind it that would do
    for packet in (b"\x40\x48", b"\x40\x48\xf8", b"\x40\x48\xf8\x00\x00\x00\x00", b"\x40\x58\xff", pack_turnouts([UNRESTRICTED] * 2, count=3),
                   pack_turnouts([restricted()] * 2, count=3) + b"\xff" * 4, pack_turnouts([restricted()], length=4)):
        yield 4, 15, packet
    yield 4, 15, pack_turnouts([UNRESTRICTED], count=0)
    # the two forms of a turnout with codes that have the other one
    for speed in (1, 18):
        yield 4, 15, pack_turnouts([{"speed": speed}])
        yield 4, 15, pack_turnouts([restricted(), {"speed": speed}, UNRESTRICTED])
    for speed in (0, 19, 30, 31):
        yield 4, 15, pack_turnouts([restricted(speed, 0, 0)])


def order_cases():
    """two wrongs and more, of which the first to be judged is told"""
    # a length that is not the turnouts', before a speed in an earlier turnout
    for speed in (0, 19, 30):
        yield 4, 15, pack_turnouts([{"speed": speed}], length=4) + b"\x00"
        yield 4, 15, pack_turnouts([{"speed": speed}, UNRESTRICTED, {"speed": 18}])
    # the first of the wrong speeds
    for speeds in ((0, 19, 31), (31, 30, 0), (31, 31, 26), (7, 19, 0), (7, 18, 24)):
        yield 4, 15, pack_turnouts([with_speed(speed) for speed in speeds])
    # each case lacks the ground that the one before was refused for
    wrong = [{"speed": 0}, restricted(), {"speed": 25}]
    for packet in (pack_turnouts(wrong, kind=8, length=1, pad=1)[:1], pack_turnouts(wrong, kind=8, length=1, pad=1),
                   pack_turnouts(wrong, length=1, pad=1), pack_turnouts(wrong, length=8, pad=1), pack_turnouts(wrong, length=8, pad=1) + b"\x00",
                   pack_turnouts(wrong, pad=1),
                   pack_turnouts([UNRESTRICTED, *wrong[1:]], pad=1), pack_turnouts([UNRESTRICTED, restricted(), UNRESTRICTED], pad=1),
                   pack_turnouts([UNRESTRICTED, restricted(), UNRESTRICTED])):
        yield 4, 14, packet
    # writing: the list, then its fields, then the room
    yield 5, 0, turnouts_outside([{"speed": 0}]) + b"\x00"
    yield 5, 0, turnouts_outside([{"speed": 0}] * 4)
    yield 5, 0, turnouts_outside([{"speed": 0}] * 3)


def list_cases():
    """lists of every length up to 21, and fields that have no room in their width"""
    for length in range(22):
        yield 5, 6, (turnouts_outside([UNRESTRICTED]) * 5)[:length]
    for turnout in ({"speed": 32}, {"speed": 255}, restricted(distance=32768), restricted(distance=65535), restricted(release=4096),
                    restricted(release=65535)):
        yield 5, 14, turnouts_outside([turnout])
    # beside an unrestricted speed each byte of a distance must be zero, in the first turnout or a later one
    for offset in range(1, 5):
        list_ = bytearray(turnouts_outside([UNRESTRICTED, restricted(), UNRESTRICTED]))
        list_[offset + 10 * (offset % 2)] = 1 << offset
        yield 5, 14, bytes(list_)


def random_turnout_cases():
    """some lists there and back, and some sub-packets damaged"""
    r = random.Random(4)
    for count in (1, 2, 3):
        turnouts = [restricted(r.randrange(1, 19), r.randrange(1 << 15), r.randrange(1 << 12)) if r.randrange(3) else UNRESTRICTED for _ in range(count)]
        packet = pack_turnouts(turnouts)
        yield 4, 16, packet
        yield 5, 15, turnouts_outside(turnouts)
        for _ in range(2):
            hurt = bytearray(packet + bytes(2))
            hurt[r.randrange(len(packet))] ^= 1 << r.randrange(8)
            yield 4, 16, bytes(hurt)


def turnout_cases():
    yield from speed_cases()
    yield from layout_cases()
    yield from form_cases()
    yield from order_cases()
    yield from list_cases()
    yield from random_turnout_cases()


def cases():
    r = random.Random(35)
    one = bytes.fromhex("30E10514061280")
    # the paper's examples
    yield 2, 0, bytes.fromhex("3040")
    yield 2, 9, one
    yield 2, 9, bytes.fromhex("30E10514061281")
    yield 3, 0, b""
    yield 3, 7, outside([gate()])
    # framing: nothing, one byte, every type, lengths 0, 1, 2, 127 with and without their bytes, what follows is left out
    yield 1, 0, b""
    yield 1, 0, b"\x30"
    for kind in range(16):
        yield 1, 0, bytes([kind << 4, 0x40])
        yield 2, 300, bytes([kind << 4, 0x40])
    for length in (0, 1, 2, 127):
        head = (length << 5).to_bytes(2, "big")
        yield 1, 0, head
        yield 1, 0, head + bytes(125)
        yield 1, 0, head + bytes(124)
        yield 1, 0, head + bytes(140)
        yield 2, 300, bytes([head[0] | 0x30, head[1]]) + bytes(125)
    # 28 gates there and back, with room one byte short and with room to spare
    many = [some_gate(r) for _ in range(28)]
    packet = pack(many)
    assert len(packet) == 125
    for room in (252, 251, 260):
        yield 2, room, packet
    for room in (125, 124, 130):
        yield 3, room, outside(many)
    # a count that its length does not fit, 29 to 31 gates too
    for count in (0, 2, 29, 30, 31):
        yield 2, 300, pack([gate()], count=count)
    yield 2, 300, pack([gate()], length=8) + bytes(1)
    yield 2, 300, pack([gate()], length=6)
    # each field's first value that is not allowed, and the last that is
    for name, good, bad in (("number", 1, 0), ("number", 1022, 1023), ("suffix", 6, 7), ("class", 6, 7), ("type", 2, 3)):
        for value in (good, bad):
            yield 2, 18, pack([gate(), gate(**{name: value})])
            yield 3, 20, outside([gate(), gate(**{name: value})])
    # what the padding of one gate may hold, what follows the sub-packet, room one byte short
    for pad in range(8):
        yield 2, 9, pack([gate()], pad=pad)
    yield 2, 9, one + b"\xff\x00\xff"
    yield 2, 8, one
    yield 2, 20, one
    # the order of the grounds
    yield 2, 0, pack([gate(number=0)], count=2)
    yield 2, 0, pack([gate(number=0)], pad=1)
    yield 2, 0, pack([gate()], pad=1)
    yield 3, 0, outside([gate(number=0)]) + b"\x00"
    yield 3, 0, outside([gate(number=0)] * 29)
    yield 3, 0, outside([gate(number=0)])
    # writing: not whole gates, too many, a byte too large for its field
    for length in (1, 8, 10, 17):
        yield 3, 300, bytes([1]) * length
    yield 3, 300, outside([gate()] * 28)
    yield 3, 300, outside([gate()] * 29)
    for offset, value in ((0, 128), (2, 4), (4, 8), (5, 2), (6, 8), (7, 2), (8, 4)):
        list_ = bytearray(outside([gate(), gate()]))
        list_[9 + offset] = value
        yield 3, 300, bytes(list_)
    for room in (7, 6, 0, 12):
        yield 3, room, outside([gate()])
    # some lists there and back, and some damaged
    for n in (0, 1, 2, 3, 7, 8, 9, 15, 16, 27):
        gates = [some_gate(r) for _ in range(n)]
        yield 2, 9 * n + 3, pack(gates)
        yield 3, size(n) + 3, outside(gates)
        hurt = bytearray(pack(gates))
        hurt[r.randrange(len(hurt))] ^= 1 << r.randrange(8)
        yield 2, 9 * n + 3, bytes(hurt)
    yield from place_cases()
    yield from turnout_cases()
    yield from move_cases()


if sys.argv[1:] == ["stdin"]:
    for kind, room, data in cases():
        sys.stdout.buffer.write(bytes([kind]) + room.to_bytes(2, "big") + len(data).to_bytes(2, "big") + data)
elif sys.argv[1:] == ["stdout"]:
    for case in cases():
        print(expected(*case))
else:
    sys.exit(__doc__)
