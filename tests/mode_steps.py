#!/usr/bin/env python3
"""Prints what the program modes_runs must write, from documents 01 and 02 (T-02, T-09) alone.

  python3 tests/mode_steps.py > crates/modes_runs/stdout     (from the repository's root)

The transitions are read from tests/mode_lines.txt, the thirteen lines of document 01 word for word:
`- MODE: TARGET:conditions/priority ..`. The rules below restate the documents and share nothing with src/ or specs/.

The line of a mode step is what was asked, then answer, next mode, priority and tie mark by the engine in use, and the same four by
the plain engine. The first four are computed by document 01's rule (step), the others by T-09's walk (walk).
"""
import pathlib

NAMES = "SB SR LS FS OV OS TR PT RV SH NL SF IS".split()
NUMBER = {name: n for n, name in enumerate(NAMES, 1)}
REFUSED = (17, 0, 0, 0)

transitions = {}
for line in (pathlib.Path(__file__).parent / "mode_lines.txt").read_text(encoding="ascii").splitlines():
    mode, entries = line.removeprefix("- ").split(": ", 1)
    transitions[NUMBER[mode]] = leaving = []
    for entry in entries.split():
        target, rest = entry.split(":")
        conditions, priority = rest.split("/")
        leaving.append((int(priority), NUMBER[target], {int(c) for c in conditions.split(",")}))
assert len(transitions) == 13 and sum(map(len, transitions.values())) == 80
# Each line of the paper has its targets in rising order, so that the lowest target of a tie always comes first in a walk.
assert all(line == sorted(line) for line in ([target for _, target, _ in leaving] for leaving in transitions.values()))


def refused(mode, flags):
    return mode not in transitions or len(flags) != 91 or any(f > 1 for f in flags)


def step(mode, flags):
    """answer, next mode, priority, tie mark; flags is the list of bytes, condition n at byte n counted from 1"""
    if refused(mode, flags):
        return REFUSED
    is_set = {n for n, f in enumerate(flags, 1) if f == 1}
    open_ones = [(p, t) for p, t, conditions in transitions[mode] if conditions & is_set]
    if not open_ones:
        return 0, mode, 0, 0
    best = min(p for p, _ in open_ones)
    sharing = [t for p, t in open_ones if p == best]
    return 0, min(sharing), best, int(len(sharing) > 1)


def walk(mode, flags):
    """the same, read on paper: all 80 transitions one after another, with the best so far kept; priority 0 until one is open"""
    if refused(mode, flags):
        return REFUSED
    best, priority, tie = mode, 0, 0
    for leaves, p, target, conditions in ((m, *t) for m in transitions for t in transitions[m]):
        if leaves != mode or not any(flags[c - 1] for c in conditions):
            continue
        if priority == 0 or p < priority:
            best, priority, tie = target, p, 0
        elif p == priority:
            best, tie = min(best, target), 1
    return 0, best, priority, tie


def both(mode, flags):
    return *step(mode, flags), *walk(mode, flags)


def age(station, onboard):
    """answer, age, the frame part of condition 24, conditions 26 and 27"""
    frames = range(1, 86400 + 1)
    if station not in frames or onboard not in frames:
        return 17, 0, 0, 0, 0
    half = (station - onboard) % 86400 // 2
    return 0, half, int(half in (0, 1)), int(half > 14), int(half < 5)


def those(*numbers):
    """the flags with these conditions set"""
    return [int(k in numbers) for k in range(1, 92)]


def main():
    for m in range(1, 14):
        for n in range(92):
            print("step", m, n, *both(m, those(n)))
        print("step", m, "all", *both(m, [1] * 91))
    for name, a, b in [("FS", 71, 76), ("FS", 69, 2), ("SB", 60, 62), ("SR", 45, 56), ("LS", 17, 90), ("FS", 56, 58), ("OS", 71, 58),
                       ("PT", 86, 58), ("SB", 77, 60)]:
        print("two", NUMBER[name], a, b, *both(NUMBER[name], those(a, b)))
    for name, a, b, c in [
            # a tie, then a better one, which clears the mark: each mode and priority that can tie
            ("SB", 60, 62, 2), ("SB", 60, 62, 5), ("SB", 61, 53, 5), ("SR", 45, 56, 53), ("LS", 17, 90, 53), ("LS", 58, 56, 53),
            ("FS", 71, 76, 69), ("FS", 58, 56, 53), ("OS", 71, 58, 53), ("PT", 86, 58, 5),
            # a better one between the two that share a priority, twice, and before them: no mark
            ("SB", 60, 62, 61), ("OS", 71, 58, 69), ("FS", 71, 76, 17),
            # a worse one behind a tie, twice, before it, twice, and between the two that tie: the mark stands
            ("FS", 71, 76, 58), ("LS", 17, 90, 58), ("SR", 45, 56, 87), ("SB", 61, 53, 60), ("SB", 61, 62, 53),
            # three that tie, twice; two that tie, of which one is open by both its conditions
            ("SB", 60, 62, 63), ("OS", 71, 58, 56), ("SB", 77, 60, 62)]:
        print("three", NUMBER[name], a, b, c, *both(NUMBER[name], those(a, b, c)))
    for m in 0, 14, 257, 4294967295:
        print("mode", m, *both(m, those(2)))
    print("flags 90", *both(1, [1] * 90))
    print("flags 92", *both(1, [1] * 92))
    print("flag 2", *both(1, [2] * 91))
    for station, onboard in [(20, 11), (500, 500), (503, 500), (504, 500), (509, 500), (510, 500), (529, 500), (530, 500), (1, 1),
                             (86400, 86400), (86400, 1), (1, 86400), (1, 86399), (2, 86399), (3, 86399), (8, 86399), (9, 86399),
                             (28, 86399), (29, 86399), (11, 20), (1, 2), (86399, 86400), (0, 0), (1, 0), (0, 1), (0, 86400), (86400, 0),
                             (86401, 1), (1, 86401), (86401, 86400), (86401, 86401), (4294967295, 1), (4294967295, 4294967295)]:
        print("age", station, onboard, *age(station, onboard))


if __name__ == "__main__":
    main()
