#!/usr/bin/env python3
"""Makes the rules whose reading and deriving are measured, into the directory that is its one word. All but the first
have 4096 bytes, blanks at the end included."""
import random
import sys
from pathlib import Path

MOST = 4096


def halved(parts, sign):
    """The parts joined by halves, in parentheses: joined one after the other they would take too many nodes."""
    if len(parts) == 1:
        return parts[0]
    middle = len(parts) // 2
    return "(" + halved(parts[:middle], sign) + sign + halved(parts[middle:], sign) + ")"


def different(rng, letters, length):
    """Different words, without end."""
    seen = set()
    while True:
        word = "".join(f"[{0x61 + int(rng.random() * letters):02x}]" for _ in range(length))
        if word not in seen:
            seen.add(word)
            yield word


def most(parts, joined):
    """The rule of as many parts as go into the largest text."""
    taken = []
    for part in parts:
        if len(joined(taken + [part])) > MOST:
            break
        taken.append(part)
    return joined(taken).ljust(MOST)


def interlocks():
    """What a bench asks: no start after a fault before a reset, no two starts in turn, every start stopped."""
    fault, reset, start, stop = "[66]", "[72]", "[73]", "[74]"
    after = f"!(!0{fault}!(!0{reset}!0){start}!0)"
    twice = f"!(!0{start}!(!0{stop}!0){start}!0)"
    return f"{after} & {twice} & !(!0{start}!(!0{stop}!0))"


def words():
    """Words of three letters, any of them."""
    return most(different(random.Random(5), 10, 3), lambda parts: halved(parts, "|"))


def forbidden():
    """Words of 24 letters, none of which may occur."""
    patterns = (f"!(!0{word}!0)" for word in different(random.Random(6), 10, 24))
    return most(patterns, lambda parts: halved(parts, "&"))


def steps():
    """One long sequence."""
    return most(different(random.Random(7), 10, 3), lambda parts: halved(parts, ""))


to = Path(sys.argv[1])
for name, rule in [("interlocks", interlocks()), ("words", words()), ("forbidden", forbidden()), ("steps", steps())]:
    (to / f"{name}.rule").write_text(rule)
