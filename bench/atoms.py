#!/usr/bin/env python3
"""Makes the rules whose alphabets are cut and measured, into the directory that is its one word, and prints for each the
points that cutting goes to (over events), and the classes. Each rule is its atoms, one behind the other."""
import itertools
import sys
from pathlib import Path

PRESSURES = 65536


def crossed(ends):
    """Ranges with these ends that all overlap in the middle, so that each stretch has an answer set of its own, but for
    what is before the first and behind the last."""
    half = len(ends) // 2
    return [(ends[i], ends[half + i] - 1) for i in range(half)]


def event(code, station, first, last):
    return f"{code}{station}:{first:04x}-{last:04x}"


def panel():
    """What a bench asks of each station: too low, right, too high, and a fault. 32 atoms."""
    atoms = []
    for station in range(8):
        atoms += [event(2, station, 0, 0x63), event(2, station, 0x3e8, 0x7d0), event(2, station, 0x7d1, 0xFFFF)]
        atoms += [event(6, station, 0, 0xFFFF)]
    return atoms


def limits():
    """Four bands of pressure for each station, whatever the code, each with limits of its own. 32 atoms."""
    return [event(".", k % 8, 500 + 37 * k, 40000 + 411 * k) for k in range(32)]


def worst():
    """30 ranges for every code and station, an atom of code 0 and one of station 0: 240 classes, 60 for each of the four ways in
    which the last two answer. Nearly all points lie where neither of them admits, and so have the classes met last."""
    ends = [100 + 1000 * i for i in range(60)]
    return [event("0", ".", 0, 0xFFFF), event(".", "0", 0, 0xFFFF)] + [event(".", ".", *pair) for pair in crossed(ends)]


def letters():
    """The letters, and a few signs. 32 atoms."""
    return [f"{byte:02x}" for byte in [*range(0x61, 0x7B), 0x20, 0x2C, 0x2E, 0x3A, 0x3B, 0x0A]]


def mixed():
    """32 ranges that all overlap, with 64 different ends: 64 classes, and no atoms make more."""
    ends = [16 + 3 * i for i in range(64)]
    return [f"{first:02x}-{last:02x}" for first, last in crossed(ends)]


def met(letters, admits):
    """How many answer sets the letters have."""
    return len({tuple(admits(letter)) for letter in letters})


def told_of_bytes(atoms):
    pairs = [(int(a[:2], 16), int(a[-2:], 16)) for a in atoms]
    return met(range(256), lambda b: [f <= b <= l for f, l in pairs])


def told_of_events(atoms):
    tests = [(a[0], a[1], int(a[3:7], 16), int(a[8:], 16)) for a in atoms]
    events = []
    for code, station in itertools.product("0123456789abcdef", "01234567"):
        there = [t for t in tests if t[0] in (code, ".") and t[1] in (station, ".")]
        points = sorted({0} | {p for t in there for p in (t[2], t[3] + 1) if p < PRESSURES})
        events += [(code, station, p) for p in points]
    classes = met(events, lambda e: [t[0] in (e[0], ".") and t[1] in (e[1], ".") and t[2] <= e[2] <= t[3] for t in tests])
    return len(events), classes


to = Path(sys.argv[1])
for name, atoms in [("letters", letters()), ("mixed", mixed())]:
    (to / f"{name}.bytes").write_text("".join(f"[{a}]" for a in atoms))
    print(f"{name}.bytes: {len(atoms)} atoms, {told_of_bytes(atoms)} classes")
for name, atoms in [("panel", panel()), ("limits", limits()), ("worst", worst())]:
    (to / f"{name}.events").write_text("".join(f"[{a}]" for a in atoms))
    points, classes = told_of_events(atoms)
    print(f"{name}.events: {len(atoms)} atoms, {points} points, {classes} classes")
