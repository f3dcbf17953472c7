#!/usr/bin/env python3
"""Writes what the program train_runs must print, from the paper's tables in sos_tables.txt (word for word).

  tests/train_tables.py > crates/train_runs/stdout

The classes, the cells, the margin and the measures are read out of that text; the rules of orders and ends are written here anew.
"""
import pathlib
import re

PAPER = (pathlib.Path(__file__).parent / "sos_tables.txt").read_text(encoding="utf-8")
MODES = {name: int(n) for n, name in re.findall(r"(\d+) ([A-Z]{2})\b", PAPER.split("\n")[0])}
FOUR = {"Four": 4}[re.search(r"(\w+) per train", PAPER).group(1)]

# Row classes: a mode by itself, or a mode left for OV.
own, left_for_override = {}, {}
for n, name, override in re.findall(r"(\d) ([A-Z]{2})(\+OV)?", PAPER[PAPER.index("Row classes"):PAPER.index("OV is 5")]):
    (left_for_override if override else own)[MODES[name]] = int(n)
left_for_override[MODES["SB"]] = int(re.search(r"from SB it is (\d)", PAPER).group(1))

# Cells: the table's columns name classes; no S printed means S1.
rows = [[c.strip() for c in line.strip("|").split("|")] for line in PAPER.split("\n") if line.startswith("|")]
columns = [[int(c) for c in head.split(",")] for head in rows[0][1:]]
cells = {}
for grid, *entries in rows[2:]:
    for classes, entry in zip(columns, entries):
        m, s = re.search(r"M(\d)", entry), re.search(r"S(\d)", entry)
        for c in classes:
            cells[int(grid[0]), c] = (int(m.group(1)), int(s.group(1)) if s else 1) if m else (0, 0)

MARGIN = int(re.search(r"rear less (\d+)", PAPER).group(1))
measures = {int(n): rule for n, rule in re.findall(r"M(\d): ([^.]*)\.", PAPER[PAPER.index("No S printed"):PAPER.index("Locations are those")])}


def share(measure, who, l1, l2):
    """what a train of an SOS gets; a train here is its (front, rear), or None"""
    rule = measures.get(measure, "")
    front = {"L1": l1, "L2": l2}[who]
    if "bare for both" in rule or ("bare for L2" in rule and who == "L2"):
        return "bare"
    if "each train to its own front" in rule or ("L2 to its own front" in rule and who == "L2"):
        return str(front[0]) if front else "no-position"
    if "L1's rear less" in rule and who == "L2":
        return str(max(l1[1] - MARGIN, 0)) if l1 else "no-position"
    return "nothing"


def end(granted, danger, mode, orders):
    """the effective end; an order is a limit, or None for a bare one"""
    if granted is None:
        return "none"
    stops = [danger] if danger is not None and mode != "OV" else []
    return str(min([granted] + stops + [limit for limit in orders.values() if limit is not None]))


def ordered(orders, ticket, limit):
    """the orders with one more, under the other train's ticket"""
    if ticket == 0 or (ticket not in orders and len(orders) == FOUR):
        return orders
    return {**orders, ticket: limit}


def cleared(orders, ticket):
    return {t: limit for t, limit in orders.items() if t != ticket}


def say(*words):
    print(*words)


for mode in range(15):
    say("class", mode, *[left_for_override.get(left, 0) if mode == MODES["OV"] else own.get(mode, 0) for left in range(15)])
for grid in range(6):
    for c in range(11):
        say("cell", grid, c, *cells.get((grid, c), (0, 0)))
for measure in range(8):
    for l1, l2 in (((6400, 6100), (5000, 4800)), ((6400, 6100), None), (None, (5000, 4800)), (None, None)):
        say("share", measure, share(measure, "L1", l1, l2), share(measure, "L2", l1, l2))

GRANTED, DANGER, REAR, END = (int(n.replace(",", "")) for n in re.search(
    r"Granted ([\d,]+), danger ([\d,]+), L1 rear ([\d,]+) under M2: end ([\d,]+)", PAPER).groups())
IN_OVERRIDE = int(re.search(r"In OV without orders: ([\d,]+)", PAPER).group(1).replace(",", ""))
NEAR, LIMIT = (int(n) for n in re.search(r"Rear (\d+): limit (\d+)", PAPER).groups())
for rear, expected in ((REAR, END), (NEAR, LIMIT)):
    got = end(GRANTED, DANGER, "FS", {1: int(share(2, "L2", (rear, rear), None))})
    assert got == str(expected), (rear, got)
    say("behind", rear, got)
assert end(GRANTED, DANGER, "OV", {}) == str(IN_OVERRIDE)
say("ends", end(GRANTED, DANGER, "FS", {}), end(GRANTED, DANGER, "OV", {}), end(GRANTED, DANGER, "OV", {1: None}),
    end(GRANTED, DANGER, "OV", {1: 8000}), end(None, DANGER, "FS", {}))

two = ordered(ordered({}, 3, 700), 4, None)
four = ordered(ordered(two, 5, 800), 6, 600)
for orders in (two, four, ordered(four, 9, 1), ordered(four, 6, 900), cleared(four, 3), cleared(four, 0)):
    say("orders", end(GRANTED, DANGER, "FS", orders), "yes" if 3 in orders else "no",
        "yes" if 9 in orders or len(orders) < FOUR else "no")

register = {0: (7, 1), 2: (8, 2)}
for loco, ticket in ((7, 1), (7, 2), (8, 2), (8, 65538), (9, 1), (0, 0)):
    pair = [i for i, row in sorted(register.items()) if row == (loco, ticket)]
    named = [i for i, row in sorted(register.items()) if row[0] == loco]
    say("find", loco, ticket, pair[0] if pair else "nothing", named[0] if named else "nothing",
        min(i for i in range(24) if i not in register))
say("row", end(GRANTED, DANGER, "FS", {}), "none")
