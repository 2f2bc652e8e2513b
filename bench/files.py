#!/usr/bin/env python3
"""Makes the step files that are measured, into the directory that is its one word, and prints the passes each needs."""
import random
import sys
from pathlib import Path


def searched(targets, accepts):
    """The rows that reach, over targets, a row of accepts: by search backward from those."""
    sources = [[] for _ in targets]
    for row, reached in enumerate(targets):
        for target in set(reached):
            sources[target].append(row)
    found = [bool(a) for a in accepts]
    todo = [row for row, a in enumerate(found) if a]
    while todo:
        for source in sources[todo.pop()]:
            if not found[source]:
                found[source] = True
                todo.append(source)
    return found


def marks_of(targets, accepts):
    """3 settled, 7 holds, 6 open, 4 lost."""
    good = searched(targets, accepts)
    bad = searched(targets, [not a for a in accepts])
    return [(1 if a else 0) + (2 if g else 0) + (4 if b else 0) for a, g, b in zip(accepts, good, bad)]


def passes_of(targets, accepts):
    """How many passes opening makes, the last of which changes nothing; and the marks that they leave."""
    marks = [3 if a else 4 for a in accepts]
    distinct = [set(reached) for reached in targets]
    for count in range(1, len(targets) + 1):
        before = marks[:]
        for row in reversed(range(len(targets))):
            for target in distinct[row]:
                marks[row] |= marks[target] & 6
        if marks == before:
            break
    return count, marks


def write(path, targets, accepts, text):
    marks = marks_of(targets, accepts)
    passes, passed = passes_of(targets, accepts)
    assert marks == passed
    rows, classes = len(targets), len(targets[0])
    body = bytes([1, 1]) + rows.to_bytes(2, "big") + bytes([classes]) + len(text).to_bytes(2, "big") + text
    for mark, row in zip(marks, targets):
        body += bytes([mark]) + b"".join(t.to_bytes(2, "big") for t in row)
    path.write_bytes((4 + len(body)).to_bytes(4, "big") + body)
    print(f"{path.name}: {4 + len(body)} bytes, {rows} rows, {classes} classes, {passes} passes")


def numbered(start, classes, step, accepts):
    """An automaton with its rows numbered as building does: as they are first met, row by row and class by class."""
    number, states, targets = {start: 0}, [start], []
    for state in states:
        row = []
        for c in range(classes):
            target = step(state, c)
            if target not in number:
                number[target] = len(states)
                states.append(target)
            row.append(number[target])
        targets.append(row)
    return targets, [accepts(s) for s in states]


def from_the_end(n, classes):
    """The lists whose n-th letter from the end is of class 1. A state is the last n letters, a bit for each."""
    top = 1 << n
    return numbered(0, classes, lambda s, c: (2 * s + (c == 1)) % top, lambda s: 2 * s >= top)


def wide():
    """A random automaton: each state has 4 successors, and one state is never left, as that of the lost lists."""
    rng = random.Random(2)
    ways = [[rng.randrange(1000) for _ in range(4)] for _ in range(1000)]
    ways[999] = [999] * 4
    good = {s for s in range(999) if rng.random() < 0.1}
    return numbered(0, 64, lambda s, c: ways[s][c % 4], lambda s: s in good)


def largest():
    rng = random.Random(1)
    targets = [[rng.randrange(1024) for _ in range(255)] for _ in range(1024)]
    return targets, [rng.random() < 0.1 for _ in range(1024)]


def chain():
    """Each row learns from the row before it, but is passed before it: what row 0 says goes up one row a pass."""
    return [[max(0, row - 1)] * 255 for row in range(1024)], [row != 0 for row in range(1024)]


to = Path(sys.argv[1])
write(to / "small.step", *from_the_end(3, 2), b"the third from the end")
write(to / "built.step", *from_the_end(9, 3), b"the ninth from the end")
write(to / "wide.step", *wide(), b"random")
write(to / "largest.step", *largest(), b"x" * 4096)
write(to / "chain.step", *chain(), b"x" * 4096)
