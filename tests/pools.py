#!/usr/bin/env python3
"""Makes the cases of crates/pools, and what must come of each, from the rules of docs/NODES.md.

It writes crates/pools/stdin (the cases) and crates/pools/stdout (what must be printed). Pools here are odd on purpose,
unsound, full, or with a count that is wrong, so that what holds only of pools that were read is not relied upon. Which
node is the first unsound one is written with each case, by hand; entering and deriving are worked out by a model that
shares no code with the library: a node's members are listed first, the lists are merged, and then chained from the end.

The cases, one a line of stdin, are a call and the records of a pool, each of which may be there several times:

    sound KIND,LEFT,RIGHT,FLAG[*TIMES]..
    enter=COUNT,KIND,LEFT,RIGHT KIND,LEFT,RIGHT,FLAG[*TIMES]..
    derive=COUNT,NODE,ANSWERS KIND,LEFT,RIGHT,FLAG[*TIMES]..

and `first` in place of a record stands for the nodes 0 to 3. What must come of a case, one a line of stdout, is `sound` or
`unsound NUMBER`; or for a call that may change the pool

    OK NUMBER COUNT (PLACE KIND LEFT RIGHT FLAG)..
    REFUSED NUMBER PLACE COUNT (PLACE KIND LEFT RIGHT FLAG)..

with the count afterwards, and each place that does not hold what it held before.
"""
import itertools
import random
from pathlib import Path

NONE, EMPTY, ANY, ATOM, SEQUENCE, OR, AND, STAR, NOT = range(9)
FIRST = [(NONE, 0, 0, 0), (EMPTY, 0, 0, 1), (ANY, 0, 0, 0), (NOT, 0, 0, 1)]
MOST = 4096


class Full(Exception):
    """No place is free."""


# Entering and deriving


class Pool:
    """A slice of records with a count. Any number is read as some node."""

    def __init__(self, items, count):
        self.items, self.count = list(items), count

    def size(self):
        return min(len(self.items), MOST)

    def record(self, node):
        if 0 < node < min(self.count, self.size()):
            return self.items[node]
        return FIRST[NONE]

    def form(self, node):
        """The kind and the parts, an atom's number among them; one that is not smaller is node 0."""
        kind, left, right, _ = self.record(node)
        smaller = [part if part < node else 0 for part in (left, right)]
        return {NONE: (kind,), EMPTY: (kind,), ANY: (kind,), ATOM: (kind, left), STAR: (kind, smaller[0]), NOT: (kind, smaller[0])}.get(kind, (kind, *smaller))

    def flag(self, node):
        return self.record(node)[3]

    def keep(self, kind, left, right=0):
        flags = [self.flag(left), self.flag(right)]
        flag = {ATOM: 0, SEQUENCE: min(flags), OR: max(flags), AND: min(flags), STAR: 1, NOT: 1 - flags[0]}[kind]
        new = (kind, left, right, flag)
        used = self.items[:self.size()][:self.count]
        if new in used:
            return used.index(new)
        if len(used) == self.size():
            raise Full
        self.items[self.count] = new
        self.count += 1
        return self.count - 1

    def enter(self, kind, left=0, right=0):
        if kind in (NONE, EMPTY, ANY):
            return kind
        if kind == SEQUENCE and 0 in (left, right):
            return 0
        if kind == SEQUENCE and 1 in (left, right):
            return right if left == 1 else left
        if kind in (OR, AND):
            other, all_of_it = (0, 3) if kind == OR else (3, 0)
            if other in (left, right):
                return right if left == other else left
            if all_of_it in (left, right):
                return all_of_it
            return self.chained(kind, merged(self.members(kind, left), self.members(kind, right)))
        if kind == STAR and left < 2:
            return 1
        if kind == STAR and self.form(left)[0] == STAR:
            return left
        if kind == NOT and self.form(left)[0] == NOT:
            return self.form(left)[1]
        return self.keep(kind, left, right)

    def members(self, kind, node):
        found = []
        while self.form(node)[0] == kind:
            _, left, node = self.form(node)
            found.append(left)
        return found + [node]

    def chained(self, kind, members):
        node = members[-1]
        for member in reversed(members[:-1]):
            node = self.keep(kind, member, node)
        return node

    def derive(self, node, answers):
        kind, *parts = self.form(node)
        if kind in (NONE, EMPTY, ANY):
            return int(kind == ANY)
        if kind == ATOM:
            return answers >> parts[0] & 1
        more = kind in (OR, AND) or kind == SEQUENCE and self.flag(parts[0])
        after = self.derive(parts[0], answers)
        if kind == NOT:
            after = self.enter(NOT, after)
        if kind in (SEQUENCE, STAR):
            after = self.enter(SEQUENCE, after, parts[1] if kind == SEQUENCE else node)
        if more:
            after = self.enter(AND if kind == AND else OR, after, self.derive(parts[1], answers))
        return after


def merged(left, right):
    """Two lists from their fronts on: the smaller first member, equal ones once. Neither need be in order."""
    taken, left, right = [], left[:], right[:]
    while left and right:
        least = min(left[0], right[0])
        for side in (left, right):
            if side[0] == least:
                side.pop(0)
        taken.append(least)
    return taken + left + right


# Lines


def written(items):
    """The records as words, those that follow each other and are equal in one."""
    words = []
    if list(items[:4]) == FIRST:
        words, items = ["first"], items[4:]
    for record, times in itertools.groupby(items):
        n = len(list(times))
        words.append(",".join(map(str, record)) + (f"*{n}" if n > 1 else ""))
    return words


def line(call, items):
    return " ".join([call] + written(items))


def outcome(call, items, count):
    """What a call of the model, given as a function of a pool, comes to."""
    pool = Pool(items, count)
    try:
        answer = f"OK {call(pool)}"
    except Full:
        answer = f"REFUSED 8 {pool.size()}"
    changes = [f" ({place} %d %d %d %d)" % new for place, (old, new) in enumerate(zip(items, pool.items)) if old != new]
    return f"{answer} {pool.count}" + "".join(changes)


def entering(items, count, kind, left=0, right=0):
    return line(f"enter={count},{kind},{left},{right}", items), outcome(lambda pool: pool.enter(kind, left, right), items, count)


def deriving(items, count, node, answers):
    return line(f"derive={count},{node},{answers}", items), outcome(lambda pool: pool.derive(node, answers), items, count)


def sound(items):
    return line("sound", items), "sound"


def unsound(number, items):
    return line("sound", items), f"unsound {number}"


# Cases: soundness, each with its answer

# behind the nodes 0 to 3: two without the flag, then two with it
A, B, C, D = 4, 5, 6, 7
FOUR = FIRST + [(ATOM, 0, 0, 0), (ATOM, 1, 0, 0), (STAR, A, 0, 1), (STAR, B, 0, 1)]


def size_cases():
    for size in range(4):
        yield unsound(size, FIRST[:size])
    yield sound(FIRST)
    for size in (5, 4095, 4096, 4097, 5000):
        yield sound(FIRST + [(ATOM, 7, 0, 0)] * (size - 4))
        yield unsound(size - 1, FIRST + [(ATOM, 7, 0, 0)] * (size - 5) + [(ATOM, 7, 0, 1)])
    # parts with the largest numbers
    yield sound(FIRST + [(ATOM, 7, 0, 0)] * 4091 + [(OR, 4094, 4094, 0)])
    yield unsound(4095, FIRST + [(ATOM, 7, 0, 0)] * 4091 + [(OR, 4094, 4095, 0)])
    yield sound(FIRST + [(ATOM, 7, 0, 0)] * 4092 + [(OR, 4095, 4095, 0)])


def first_cases():
    """Each of the nodes 0 to 3, wrong in each field; the first wrong one is told, also before one that is missing."""
    for number, (kind, left, right, flag) in enumerate(FIRST):
        wrong = [(other, left, right, flag) for other in range(9) if other != kind]
        wrong += [(kind, n, right, flag) for n in (1, 2, 3, 65535)] + [(kind, left, n, flag) for n in (1, 65535)] + [(kind, left, right, 1 - flag)]
        for record in wrong:
            yield unsound(number, FIRST[:number] + [record] + FIRST[number + 1:])
            yield unsound(number, FIRST[:number] + [record])
        yield unsound(number, FIRST[:number] + [wrong[0]] * 2 + FOUR[number + 2:])
    yield unsound(0, FIRST[::-1])
    yield unsound(1, [FIRST[0]] * 8)


def later_cases():
    """A node 8 that is wrong behind eight that are right."""
    for kind, flag in itertools.product((NONE, EMPTY, ANY), (0, 1)):
        yield unsound(8, FOUR + [(kind, 0, 0, flag)])
    for atom in (0, 1, 30, 31):
        yield sound(FOUR + [(ATOM, atom, 0, 0)])
        yield unsound(8, FOUR + [(ATOM, atom, 0, 1)])
        yield unsound(8, FOUR + [(ATOM, atom, 1, 0)])
    for atom in (32, 33, 63, 64, 255, 256, 287, 65535):
        yield unsound(8, FOUR + [(ATOM, atom, 0, 0)])
    for kind, flag in itertools.product((SEQUENCE, OR, AND), (0, 1)):
        for part in (8, 9, 4096, 65535):
            for other in (A, C):
                yield unsound(8, FOUR + [(kind, part, other, flag)])
                yield unsound(8, FOUR + [(kind, other, part, flag)])
            yield unsound(8, FOUR + [(kind, part, part, flag)])
    for kind, flag in itertools.product((STAR, NOT), (0, 1)):
        for part in (8, 9, 4096, 65535):
            yield unsound(8, FOUR + [(kind, part, 0, flag)])
            # the part stands in the slice, but behind the node
            yield unsound(8, FOUR + [(kind, 9, 0, flag), (ATOM, 2, 0, 0)])
    for part in (A, C):
        for right in (1, A, 8, 65535):
            yield unsound(8, FOUR + [(STAR, part, right, 1)])
            yield unsound(8, FOUR + [(NOT, part, right, int(part == A))])


def flag_cases():
    """Every kind with every pair of flags of its parts: one flag is right."""
    right_flag = {
        SEQUENCE: {(A, B): 0, (A, C): 0, (C, A): 0, (C, D): 1},
        OR: {(A, B): 0, (A, C): 1, (C, A): 1, (C, D): 1},
        AND: {(A, B): 0, (A, C): 0, (C, A): 0, (C, D): 1},
        STAR: {(A, 0): 1, (C, 0): 1},
        NOT: {(A, 0): 1, (C, 0): 0},
    }
    for kind, flags in right_flag.items():
        for (left, right), flag in flags.items():
            yield sound(FOUR + [(kind, left, right, flag)])
            yield unsound(8, FOUR + [(kind, left, right, 1 - flag)])
    # the nodes 0 to 3 as parts
    yield sound(FIRST + [(OR, 0, 2, 0), (OR, 1, 2, 1), (AND, 1, 3, 1), (SEQUENCE, 3, 2, 0), (NOT, 1, 0, 0), (NOT, 3, 0, 0), (STAR, 0, 0, 1)])
    yield unsound(6, FIRST + [(OR, 0, 2, 0), (OR, 1, 2, 1), (AND, 1, 3, 0), (SEQUENCE, 3, 2, 0)])


def other_sound_cases():
    """Soundness asks neither for an order nor that a node stands there once, and tells the first unsound one of several."""
    yield sound(FOUR + [(OR, B, A, 0), (OR, A, B, 0), (OR, A, B, 0), (OR, 8, 8, 0), (AND, A, A, 0)])
    yield sound(FOUR + [(SEQUENCE, 0, A, 0), (SEQUENCE, A, 1, 0), (STAR, C, 0, 1), (NOT, 3, 0, 0), (NOT, 11, 0, 1), (ATOM, 0, 0, 0)])
    yield unsound(9, FOUR + [(OR, A, B, 0), (OR, A, B, 1), (ATOM, 40, 0, 0)])
    # the flag of a part counts as it stands, but the part is told first
    yield unsound(8, FOUR + [(ATOM, 2, 0, 1), (STAR, 8, 0, 1), (NOT, 8, 0, 0)])


# Cases: entering and deriving

# one node of each kind; 4 and 5 are atoms, and 6 has two members
EACH = FIRST + [(ATOM, 0, 0, 0), (ATOM, 1, 0, 0), (OR, 4, 5, 0), (AND, 4, 5, 0), (SEQUENCE, 4, 5, 0), (STAR, 4, 0, 1), (NOT, 4, 0, 1), (NOT, 9, 0, 0)]
STALE = (NOT, 1, 0, 0)


def form_cases():
    """Every form over the nodes of a pool, over one that stands behind the count, and over numbers that no pool has."""
    items, count = EACH + [STALE] * 3, len(EACH)
    numbers = [*range(count + 1), 65535]
    for kind in (NONE, EMPTY, ANY):
        yield entering(items, count, kind)
        yield entering([], 0, kind)
    for kind in (SEQUENCE, OR, AND):
        for left, right in itertools.product(numbers, repeat=2):
            yield entering(items, count, kind, left, right)
    for kind, part in itertools.product((STAR, NOT), numbers):
        yield entering(items, count, kind, part)
    for atom in (0, 1, 2, 31, 32, 65535):
        yield entering(items, count, ATOM, atom)


def room_cases():
    """What is there is found in a full pool too; what is not is refused, and leaves what was entered before."""
    for size in range(len(EACH), len(EACH) + 3):
        items = (EACH + [STALE] * 3)[:size]
        yield entering(items, len(EACH), NOT, 4)
        yield entering(items, len(EACH), NOT, 5)
        yield entering(items, len(EACH), OR, 6, 8)
        yield entering(items, len(EACH), AND, 10, 7)
    # four atoms and two ors of them: their members are 4, 5, 6 and 7
    ors = FIRST + [(ATOM, n, 0, 0) for n in range(4)] + [(OR, 4, 6, 0), (OR, 5, 7, 0)]
    for room in range(5):
        yield entering(ors + [STALE] * room, len(ors), OR, 8, 9)
        yield entering(ors + [STALE] * room, len(ors), OR, 9, 8)
        yield entering(ors + [(OR, 6, 7, 0)] + [STALE] * room, len(ors) + 1, OR, 8, 9)
    for items in ([], [STALE], FIRST[:3], FIRST, FIRST + [STALE]):
        for count in (0, 1, 3, 4, 5, 6, 2**64 - 1):
            yield entering(items, count, ATOM, 0)
            yield entering(items, count, NOT, 1)
            yield entering(items, count, STAR, 2)
            yield entering(items, count, OR, 1, 2)
            yield deriving(items, count, 3, 0)
    big = FIRST + [(ATOM, 7, 0, 0)] * 4090
    for size, count in itertools.product((4094, 4095, 4096, 4097, 4100), (4094, 4095, 4096, 4097, 5000)):
        items = big + [(STAR, 2, 0, 1), STALE, (STAR, 4, 0, 1), STALE, STALE, STALE][:size - 4094]
        yield entering(items, count, ATOM, 7)
        yield entering(items, count, STAR, 2)
        yield entering(items, count, STAR, 4)
        yield entering(items, count, NOT, 4096)
        yield deriving(items, count, 4094, 0)


def finding_cases():
    """The first equal node below the count is found: one behind it is not, nor one that differs in a field."""
    twice = EACH + EACH[4:]
    for kind, left, right, _ in EACH[4:]:
        yield entering(twice, len(twice), kind, left, right)
        yield entering(twice, len(EACH), kind, left, right)
        yield entering(EACH + [STALE] * 2, 4, kind, left, right)
    for record in ((SEQUENCE, 9, 9, 0), (SEQUENCE, 9, 4, 1), (AND, 9, 9, 1), (SEQUENCE, 9, 9, 1)):
        yield entering(EACH + [record, STALE], len(EACH) + 1, SEQUENCE, 9, 9)
    # records that node 0 or 3 holds and should not
    for record in ((ATOM, 9, 0, 0), (STAR, 2, 0, 1), (OR, 1, 2, 1), (NOT, 2, 0, 1)):
        for number in (0, 1, 3):
            items = FIRST[:number] + [record] + FIRST[number + 1:] + [STALE] * 2
            yield entering(items, 4, *record[:3])
            yield entering(items, 4, NOT, number)
            yield entering(items, 4, STAR, number)
            yield entering(items, 4, OR, 2, number)
            yield deriving(items, 4, number, 2**32 - 1)


def odd_cases():
    """Members in no order, members that are ors on the left, and parts that are not smaller than their node."""
    atoms = FIRST + [(ATOM, n, 0, 0) for n in range(4)]
    for kind in (OR, AND):
        falling = atoms + [(kind, 6, 5, 0), (kind, 7, 8, 0), (kind, 7, 4, 0), (kind, 8, 4, 0), (kind, 8, 8, 0), (kind, 5, 5, 0)]
        for left, right in itertools.product(range(4, len(falling)), repeat=2):
            yield entering(falling + [STALE] * 8, len(falling), kind, left, right)
        for left, right in ((8, 8), (8, 9), (9, 4), (4, 8), (65535, 8), (8, 10), (10, 65535), (0, 8), (3, 8)):
            odd = atoms + [(kind, left, right, 0)]
            yield entering(odd + [STALE] * 4, len(odd), kind, 8, 5)
            yield entering(odd + [STALE] * 4, len(odd), kind, 5, 8)
            yield deriving(odd + [STALE] * 4, len(odd), 8, 5)
    for kind, part in itertools.product((STAR, NOT, SEQUENCE), (8, 9, 65535)):
        odd = atoms + [(kind, part, part, 1)]
        yield entering(odd + [STALE] * 4, len(odd), STAR, 8)
        yield entering(odd + [STALE] * 4, len(odd), NOT, 8)
        yield deriving(odd + [STALE] * 4, len(odd), 8, 5)


def deriving_cases():
    """Every node by several answer sets, with room for all that is entered, and with less."""
    rules = EACH + [(SEQUENCE, 9, 5, 0), (SEQUENCE, 9, 9, 1), (STAR, 8, 0, 1), (OR, 9, 12, 1), (AND, 14, 13, 1), (NOT, 15, 0, 0), (SEQUENCE, 10, 6, 0), (SEQUENCE, 16, 14, 1)]
    count = len(rules)
    for node, answers in itertools.product([*range(count + 1), 65535], (0, 1, 2, 3, 2**32 - 1)):
        yield deriving(rules + [STALE] * 16, count, node, answers)
    for node, room in itertools.product(range(12, count), range(6)):
        yield deriving(rules + [STALE] * room, count, node, 3)
    for atom, answers in itertools.product((0, 1, 15, 16, 30, 31, 32, 33, 63, 64, 65535), (0, 1, 2**16, 2**31, 2**32 - 1, 2**31 - 1)):
        yield deriving(FIRST + [(ATOM, atom, 0, 0)], 5, 4, answers)
    # flags that are wrong are taken as they stand
    for flag in (0, 1):
        turned = FIRST + [(ATOM, 0, 0, flag), (ATOM, 1, 0, 0), (SEQUENCE, 4, 5, 0), (STAR, 4, 0, 0), (SEQUENCE, 7, 5, 0), (SEQUENCE, 0, 5, 1)]
        for node in (6, 8, 9):
            yield deriving(turned + [STALE] * 4, len(turned), node, 3)
    # a shared part is derived as often as it is met
    shared = FIRST + [(ATOM, 0, 0, 0), (STAR, 4, 0, 1)] + [(SEQUENCE, n, n, 1) for n in range(5, 11)]
    for node in range(4, len(shared)):
        yield deriving(shared + [STALE] * 64, len(shared), node, 1)


def order_cases():
    """What deriving enters on the way, also where the answer needs none of it, and in which order: with room for all of
    it, for less and for none."""
    # the worked examples of docs/NODES.md
    worked = [(ATOM, 0, 0, 0), (ATOM, 1, 0, 0), (SEQUENCE, 4, 5, 0), (ATOM, 2, 0, 0), (SEQUENCE, 4, 7, 0), (OR, 6, 8, 0)]
    again = [(ATOM, 0, 0, 0), (STAR, 4, 0, 1), (SEQUENCE, 5, 4, 0)]
    # node 6 is `[61][62]`, and node 7, `[61][62][62]`, enters `[62][62]` when it is derived by an `a`
    longer = [(ATOM, 0, 0, 0), (ATOM, 1, 0, 0), (SEQUENCE, 4, 5, 0), (SEQUENCE, 6, 5, 0)]
    ends = ([(STAR, 6, 0, 1), (SEQUENCE, 8, 7, 0)], [(SEQUENCE, 4, 7, 0)], [(AND, 5, 7, 0)], [(AND, 7, 5, 0)])
    anything = [(SEQUENCE, 4, 3, 0)]
    ors = (anything + [(OR, 7, 8, 0)], anything + [(OR, 8, 7, 0)])
    for rule in (worked, again, *(longer + end for end in (*ends, *ors))):
        items = FIRST + rule
        for room in range(6):
            yield deriving(items + [STALE] * room, len(items), len(items) - 1, 1)


def chosen(rng, items):
    return items[int(rng.random() * len(items))]


def random_cases():
    """Records at random, most of them with smaller parts."""
    rng = random.Random(6)
    for _ in range(300):
        items = FIRST[:]
        for number in range(4, 5 + int(rng.random() * 12)):
            top = number if rng.random() < 0.9 else number + 3
            items.append((chosen(rng, range(9)) if rng.random() < 0.1 else 3 + int(rng.random() * 6), int(rng.random() * top), int(rng.random() * top), int(rng.random() * 2)))
        if rng.random() < 0.2:
            items[int(rng.random() * 4)] = items[-1]
        count = len(items) - int(rng.random() * 2)
        items += [STALE] * chosen(rng, (0, 1, 2, 3, 5, 8, 30))
        yield deriving(items, count, int(rng.random() * (count + 1)), int(rng.random() * 16))
        for _ in range(2):
            kind = ATOM + int(rng.random() * 6)
            parts = [int(rng.random() * (count + 1)) for _ in range(2 if kind in (SEQUENCE, OR, AND) else 1)]
            yield entering(items, count, kind, *parts)


def main():
    cases = []
    for group in (size_cases, first_cases, later_cases, flag_cases, other_sound_cases, form_cases, room_cases, finding_cases, odd_cases, deriving_cases, order_cases, random_cases):
        cases += group()
    cases = list(dict.fromkeys(cases))
    crate = Path(__file__).resolve().parent.parent / "crates" / "pools"
    (crate / "stdin").write_text("".join(f"{case}\n" for case, _ in cases))
    (crate / "stdout").write_text("".join(f"{answer}\n" for _, answer in cases))


if __name__ == "__main__":
    main()
