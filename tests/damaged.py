#!/usr/bin/env python3
"""Makes the cases of crates/damaged, and what must come of each, from the rules of docs/STEP-FILE.md and docs/REFUSALS.md.

It writes crates/damaged/stdin (the cases) and crates/damaged/stdout (what must be printed). It shares no code and no step
with the library: marks are found by searching the rows that each row reaches.
"""
from pathlib import Path

PATTERN = 0xEE  # what every byte of the scratch holds before an opening


def file(kind, classes, text, rows):
    """The bytes of a step file; a row is its mark and its targets."""
    body = bytes([1, kind]) + len(rows).to_bytes(2, "big") + bytes([classes]) + len(text).to_bytes(2, "big") + text
    for mark, targets in rows:
        body += bytes([mark]) + b"".join(t.to_bytes(2, "big") for t in targets)
    return (len(body) + 4).to_bytes(4, "big") + body


EXAMPLE = file(1, 4, b"[61][62]|[61][63]", [(6, [1, 2, 1, 1]), (4, [1] * 4), (6, [1, 1, 3, 3]), (7, [1] * 4)])
NOTHING = file(1, 1, b"0", [(4, [0])])
# what every place views before an opening, and so after a refusal
EARLIER = file(2, 3, b"earlier", [(6, [0, 1, 0]), (3, [1, 1, 1])])


def table(shape, rows, classes, text):
    """A good file of any size. Its text counts up from 0, so that a text read at another byte is told."""
    return file(2, classes, bytes(i % 256 for i in range(text)), {
        # no row accepts, and all lead to row 0
        "lost": [(4, [0] * classes) for r in range(rows)],
        # each row leads to the next, and the last, which accepts, to itself
        "chain": [(6 if r + 1 < rows else 3, [min(r + 1, rows - 1)] * classes) for r in range(rows)],
        # each row leads to the one before it, and row 0, which accepts, to itself: it takes the most passes
        "back": [(6 if r > 0 else 3, [max(r - 1, 0)] * classes) for r in range(rows)],
        # every row reaches every other, and those of an even number accept
        "ring": [(7 if r % 2 == 0 else 6, [(r + c + 1) % rows for c in range(classes)]) for r in range(rows)],
    }[shape])


def made(words):
    """The file and the room that a case's words ask for, one after the other: a file by its name or by SHAPE=ROWS,CLASSES,TEXT,
    room=N bytes of scratch, PLACE=HEX writes bytes, size=N cuts or adds zeros, true makes the length field true."""
    data, room = bytearray(), 0
    for word in words:
        name, _, value = word.partition("=")
        if name in ("example", "nothing"):
            data = bytearray(EXAMPLE if name == "example" else NOTHING)
        elif name == "true":
            data[0:4] = len(data).to_bytes(4, "big")[:len(data)]
        elif name == "room":
            room = int(value)
        elif name == "size":
            data = data[:int(value)] + bytes(max(0, int(value) - len(data)))
        elif name.isdigit():
            new = bytes.fromhex(value)
            data[int(name):int(name) + len(new)] = new
        else:
            data = bytearray(table(name, *map(int, value.split(","))))
    return bytes(data), room


def word(b, p):
    return b[p] * 256 + b[p + 1]


def reached(targets, row):
    seen, todo = {row}, [row]
    while todo:
        for t in targets[todo.pop()]:
            if t not in seen:
                seen.add(t)
                todo.append(t)
    return seen


def marks_of(targets, accepts):
    marks = []
    for row, accepted in enumerate(accepts):
        found = {accepts[s] for s in reached(targets, row)}
        if found == {True}:
            marks.append(3)
        elif found == {False}:
            marks.append(4)
        else:
            marks.append(7 if accepted else 6)
    return marks


def answer(b, room):
    """None and the marks, or the question, the place and, for question 36, the marks."""
    if len(b) < 11 or int.from_bytes(b[0:4], "big") != len(b):
        return 30, 0, []
    if b[4] != 1:
        return 31, 4, []
    r, c, t = word(b, 6), b[8], word(b, 9)
    for good, place in [(b[5] in (1, 2), 5), (1 <= r <= 1024, 6), (c >= 1, 8), (1 <= t <= 4096, 9)]:
        if not good:
            return 32, place, []
    if len(b) != 11 + t + r * (1 + 2 * c):
        return 33, 6, []
    if room < r:
        return 34, 0, []
    rows = [11 + t + i * (1 + 2 * c) for i in range(r)]
    for place in rows:
        for k in range(c):
            if word(b, place + 1 + 2 * k) >= r:
                return 35, place + 1 + 2 * k, []
    targets = [[word(b, place + 1 + 2 * k) for k in range(c)] for place in rows]
    marks = marks_of(targets, [b[place] & 1 == 1 for place in rows])
    for place, mark in zip(rows, marks):
        if b[place] != mark:
            return 36, place, marks
    return None, 0, marks


def weighed(numbers):
    """A number by which lists are told apart: each item counts by its place."""
    total = 0
    for n in numbers:
        total = (total * 31 + n) % 2**32
    return total


def seen(b):
    """What a view tells: kind, counts, text, and all marks and targets."""
    r, c, t = word(b, 6), b[8], word(b, 9)
    rows = [11 + t + i * (1 + 2 * c) for i in range(r)]
    table = [n for p in rows for n in [b[p]] + [word(b, p + 1 + 2 * k) for k in range(c)]]
    return f"kind {b[5]} rows {r} classes {c} text {t} {weighed(b[11:11 + t])} table {weighed(table)}"


def outcome(case):
    b, room = made(case.split())
    question, place, marks = answer(b, room)
    scratch = marks + [PATTERN] * (room - len(marks))
    told = "opened" if question is None else f"{question} at {place}"
    return f"{told}: {seen(b if question is None else EARLIER)} outside 0 scratch {weighed(scratch)}"


def offset(row, column=0):
    return 28 + 9 * row + column


def header_cases():
    """Every field one less, one and two more, 0 and as large as it can be."""
    for name, b in [("example", EXAMPLE), ("nothing", NOTHING)]:
        for place, size in [(0, 4), (4, 1), (5, 1), (6, 2), (8, 1), (9, 2)]:
            value = int.from_bytes(b[place:place + size], "big")
            for new in [value - 1, value + 1, value + 2, 0, 256**size - 1]:
                yield f"{name} room=5 {place}={new.to_bytes(size, 'big').hex()}"


def length_cases():
    yield "lost=47,4,9 room=49 6=0030"  # 48 rows promised and 47 present
    yield "lost=48,4,9 room=49 6=002f"
    for n in range(64):
        yield f"example room=5 size={n}"
        yield f"example room=5 size={n} true"
    for name, b in [("example", EXAMPLE), ("nothing", NOTHING)]:
        for more in (1, 100):
            yield f"{name} room=5 size={len(b) + more}"
            yield f"{name} room=5 size={len(b) + more} true"


def table_cases():
    places = [offset(r, 1 + 2 * c) for r in range(4) for c in range(4)]
    for i, place in enumerate(places):
        yield f"example room=5 {place}=0004"
        yield f"example room=5 {place}=ffff"
        for earlier in places[:i]:
            yield f"example room=5 {place}=ffff {earlier}=0004"
    for row in range(4):
        for mark in range(256):
            if mark != EXAMPLE[offset(row)]:
                yield f"example room=5 {offset(row)}={mark:02x}"


def size_cases():
    yield from ["example room=4", "example room=64", "nothing room=1", "lost=1,1,1 room=2", "lost=1,255,1 room=2"]
    yield from ["chain=1024,1,4096 room=1025", "back=1024,1,1 room=1024", "ring=1024,255,4096 room=1024"]
    yield from ["lost=1025,1,1 room=1025", "lost=1,1,4097 room=2"]
    yield from ["example room=3", "example room=0", "nothing room=0", "chain=1024,1,5 room=1023"]


def order_cases():
    """One file with every fault at once, mended in the order of the questions."""
    faults = ["size=65", "0=00000000", "4=00", "5=00", "6=0000", "8=00", "9=0000", f"{offset(3, 7)}=ffff", f"{offset(3)}=05"]
    mends = ["true", "4=01", "5=01", "6=0004", "8=04", "9=0011", "size=64 true"]
    for n in range(len(mends) + 1):
        yield " ".join(["example room=3"] + faults + mends[:n])
    for rest in ["", f" {offset(3, 7)}=0001", f" {offset(3, 7)}=0001 {offset(3)}=07"]:
        yield " ".join(["example room=5"] + faults + mends) + rest


def main():
    cases = []
    for group in (size_cases, header_cases, length_cases, table_cases, order_cases):
        cases += group()
    crate = Path(__file__).resolve().parent.parent / "crates" / "damaged"
    (crate / "stdin").write_text("".join(case + "\n" for case in cases))
    (crate / "stdout").write_text(f"built in: {seen(NOTHING)}\n" + "".join(f"{outcome(case)}\n" for case in cases) + f"{len(cases)} files\n")


main()
