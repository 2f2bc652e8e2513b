#!/usr/bin/env python3
"""A model of reading, nodes and derivatives, written from docs/RULES.md, docs/NODES.md and docs/REFUSALS.md, and the
cases of crates/texts that it makes. It shares no code and no step with the library: a text is judged by a stack and cut
at its loosest signs, an equal node is found by a dictionary, and members are merged as sets.

    reading.py                    write the cases: crates/texts/stdin, and what must come of each, crates/texts/stdout
    reading.py --nodes            print what `wafulexi nodes` prints of the rule on standard input
    reading.py --list [NODES ROWS]
                                  print the rows of the byte rule on standard input, or NUMBER PLACE of a refusal;
                                  NODES and ROWS are the most that there may be, 1024 and 64 if they are not given
    reading.py --validate FOLDER  hold the rows of every NAME.rule of FOLDER against its NAME.out

The cases, one a line of stdin:

    POOL ATOMS TEXT     nodes in the pool, places in the atom list, the text in hexadecimal (`-` for no bytes)

Before each reading every node of the pool holds kind 8, left 1, right 0, flag 0, and every place of the atom list place
61166, length 61166. (That node is the one of the rule `!1`: a search that goes on behind the nodes in use finds it.)
What must come of a case, one a line of stdout, is the answer and then all that the memory holds:

    OK ROOT NODES ATOMS (KIND LEFT RIGHT FLAG).. [PLACE LENGTH]..
    REFUSED NUMBER PLACE (KIND LEFT RIGHT FLAG).. [PLACE LENGTH]..

The nodes are those of the pool from the first to the last that does not hold what it held before, and so are the entries
of the atom list. So whatever a line does not show was left as found, and a refusal that changes nothing shows nothing.
"""
import itertools
import random
import sys
from pathlib import Path

NONE, EMPTY, ANY, ATOM, SEQUENCE, OR, AND, STAR, NOT = range(9)
NAMES = ["none", "empty", "any", "atom", "sequence", "or", "and", "star", "not"]
FIRST = [(NONE, 0, 0, 0), (EMPTY, 0, 0, 1), (ANY, 0, 0, 0), (NOT, 0, 0, 1)]
STALE_NODE, STALE_ENTRY = (NOT, 1, 0, 0), (61166, 61166)


class Refused(Exception):
    """A question, by its number, and the place of its no."""

    def __init__(self, number, place):
        super().__init__(number, place)
        self.number, self.place = number, place


# Nodes


class Pool:
    """The nodes in use, and how many there may be. Equal ones are found by `number`, which has the first of each."""

    def __init__(self, size):
        self.size, self.nodes = size, list(FIRST)
        self.number = {record: n for n, record in enumerate(FIRST)}

    def flag(self, kind, left, right):
        if kind in (ATOM, STAR):
            return int(kind == STAR)
        first, second = self.nodes[left][3], self.nodes[right][3]
        return {SEQUENCE: first & second, OR: first | second, AND: first & second, NOT: 1 - first}[kind]

    def keep(self, kind, left, right=0):
        record = (kind, left, right, self.flag(kind, left, right))
        if record not in self.number:
            if len(self.nodes) == self.size:
                raise Refused(8, self.size)
            self.number[record] = len(self.nodes)
            self.nodes.append(record)
        return self.number[record]

    def enter(self, kind, left, right=0):
        parts = (left, right)
        if kind == SEQUENCE:
            if 0 in parts:
                return 0
            if 1 in parts:
                return right if left == 1 else left
        if kind == STAR and (left < 2 or self.nodes[left][0] == STAR):
            return max(left, 1)
        if kind == NOT and self.nodes[left][0] == NOT:
            return self.nodes[left][1]
        if kind in (OR, AND):
            drops, takes = (0, 3) if kind == OR else (3, 0)
            if drops in parts:
                return right if left == drops else left
            if takes in parts:
                return takes
            return self.chain(kind, sorted(self.members(kind, left) | self.members(kind, right)))
        return self.keep(kind, left, right)

    def members(self, kind, node):
        """A set is enough: in a pool that was only entered into, a node's members stand by rising number, each once."""
        found = set()
        while self.nodes[node][0] == kind:
            found.add(self.nodes[node][1])
            node = self.nodes[node][2]
        return found | {node}

    def chain(self, kind, members):
        node = members.pop()
        while members:
            node = self.keep(kind, members.pop(), node)
        return node

    def derive(self, node, answers):
        kind, left, right, _ = self.nodes[node]
        if kind <= ATOM:
            return int(kind == ANY or kind == ATOM and answers >> left & 1)
        after = self.derive(left, answers)
        if kind == NOT:
            return self.enter(NOT, after)
        if kind in (OR, AND):
            return self.enter(kind, after, self.derive(right, answers))
        after = self.enter(SEQUENCE, after, node if kind == STAR else right)
        if kind == SEQUENCE and self.nodes[left][3]:
            after = self.enter(OR, after, self.derive(right, answers))
        return after


# Reading


def judged(text):
    """Asks questions 3 to 7. Gives the tokens, a sign or an atom's number each, and the atoms' entries."""
    tokens, atoms, entries = [], {}, []
    levels = []  # the signs that have opened a level, `(` or `!`
    whole = False  # an operand stands before this place, so that the rule could end, but for an open `(`
    at = 0
    while at < len(text):
        sign, end = chr(text[at]), at
        if sign in " \n":
            at += 1
            continue
        if sign not in "|&!*()01.[":
            raise Refused(3, at)
        if sign == "[":
            end = text.find(b"]", at)
            if end < 0:
                raise Refused(4, at)
        if not (sign in "!(01.[" or whole and (sign in "|&*" or "(" in levels)):
            raise Refused(5, at)
        while whole and sign != "*" and levels[-1:] == ["!"]:
            levels.pop()
        if sign in "!(":
            levels.append(sign)
            if len(levels) > 32:
                raise Refused(6, at)
        if sign == ")":
            levels.pop()
        if sign == "[":
            inside = text[at + 1:end]
            if inside not in atoms:
                if len(atoms) == 32:
                    raise Refused(7, at)
                atoms[inside] = len(atoms)
                entries.append((at + 1, len(inside)))
        tokens.append(atoms[inside] if sign == "[" else sign)
        whole = sign not in "|&!("
        at = end + 1
    if not whole or "(" in levels:
        raise Refused(5, len(text))
    return tokens, entries


def cut(tokens, sign):
    """The tokens between the signs that stand outside all parentheses."""
    pieces, depth = [[]], 0
    for token in tokens:
        depth += {"(": 1, ")": -1}.get(token, 0)
        if token == sign and depth == 0:
            pieces.append([])
        else:
            pieces[-1].append(token)
    return pieces


def closed(tokens, at):
    """The place behind the `)` that closes the `(` at a place."""
    depth = 0
    for place in range(at, len(tokens)):
        depth += {"(": 1, ")": -1}.get(tokens[place], 0)
        if depth == 0:
            return place + 1


def steps(tokens):
    """The nodes of a rule in the order in which they are entered: both parts before their whole."""
    for sign, kind in (("|", OR), ("&", AND)):
        pieces = cut(tokens, sign)
        if len(pieces) > 1:
            return steps(pieces[0]) + [step for piece in pieces[1:] for step in steps(piece) + [(kind, None)]]
    done, at, operands = [], 0, 0
    while at < len(tokens):
        bangs = 0
        while tokens[at] == "!":
            bangs, at = bangs + 1, at + 1
        end = at + 1
        if tokens[at] == "(":
            end = closed(tokens, at)
            done += steps(tokens[at + 1:end - 1])
        else:
            done.append((ATOM, tokens[at]))
        at = end
        while tokens[at:at + 1] == ["*"]:
            done.append((STAR, None))
            at += 1
        done += [(NOT, None)] * bangs + [(SEQUENCE, None)] * (operands > 0)
        operands += 1
    return done


def build_nodes(pool, tokens):
    """Enters a rule and gives its root."""
    stack = []
    for kind, token in steps(tokens):
        if kind == ATOM:
            stack.append({"0": 0, "1": 1, ".": 2}[token] if isinstance(token, str) else pool.keep(ATOM, token))
        elif kind in (STAR, NOT):
            stack.append(pool.enter(kind, stack.pop()))
        else:
            right, left = stack.pop(), stack.pop()
            stack.append(pool.enter(kind, left, right))
    return stack.pop()


class Reading:
    """What comes of reading: the refusal or the root, the pool and the atoms' entries (none if nothing was written)."""

    def __init__(self, text, size, places):
        self.pool, self.entries, self.root, self.refusal = None, [], None, None
        try:
            if not 1 <= len(text) <= 4096:
                raise Refused(1, 0)
            if not 4 <= size <= 4096 or places < 32:
                raise Refused(2, 0)
            tokens, self.entries = judged(text)
            self.pool = Pool(size)
            self.root = build_nodes(self.pool, tokens)
        except Refused as refusal:
            self.refusal = refusal


def changed(items, stale):
    """The items up to the last that is not as it was."""
    while items and items[-1] == stale:
        items = items[:-1]
    return items


def outcome(text, size, places):
    got = Reading(text, size, places)
    nodes = got.pool.nodes if got.pool else []
    if got.refusal:
        line = f"REFUSED {got.refusal.number} {got.refusal.place}"
    else:
        line = f"OK {got.root} {len(nodes)} {len(got.entries)}"
    line += "".join(" (%d %d %d %d)" % record for record in changed(nodes, STALE_NODE))
    return line + "".join(" [%d %d]" % entry for entry in changed(got.entries, STALE_ENTRY))


def escaped(text):
    return "".join(chr(b) if 32 <= b <= 126 else f"\\x{b:02x}" for b in text)


def pointed(text, place):
    """The line of the text in which a place stands, and a caret under the place."""
    start = text.rfind(b"\n", 0, place) + 1
    return [escaped(text[start:].split(b"\n")[0]), " " * len(escaped(text[start:place])) + "^"]


def shown(text):
    """The lines of `wafulexi nodes`; the first line of a refusal without its words."""
    got = Reading(text, 4096, 32)
    if got.refusal:
        number, place = got.refusal.number, got.refusal.place
        return [f"refused {number} at {place}"] + (pointed(text, place) if 3 <= number <= 7 else [])
    lines = [f"root {got.root} nodes {len(got.pool.nodes)} atoms {len(got.entries)}"]
    for number, (kind, left, right, flag) in enumerate(got.pool.nodes):
        lines.append(f"{number} {NAMES[kind]} {left} {right} {flag}")
    for number, (place, length) in enumerate(got.entries):
        lines.append(f"atom {number} {place} {escaped(text[place:place + length])}")
    return lines


# Rows, only to hold the model against listings


def answer_sets(text, entries):
    """The answer set of each class of bytes, as first met from byte 0 up."""
    ranges = []
    for place, length in entries:
        first, dash, last = text[place:place + length].partition(b"-")
        ends = [first, last] if dash else [first]
        if any(len(end) != 2 or not set(end) <= set(b"0123456789abcdef") for end in ends):
            raise Refused(11, place)
        if int(ends[0], 16) > int(ends[-1], 16):
            raise Refused(12, place)
        ranges.append(range(int(ends[0], 16), int(ends[-1], 16) + 1))
    sets = [sum(1 << k for k, admitted in enumerate(ranges) if byte in admitted) for byte in range(256)]
    classes = list(dict.fromkeys(sets))
    if len(classes) > 255:
        raise Refused(13, 255)
    return classes


def table(pool, root, classes, limit):
    """The targets of each row, and the node that each row stands for."""
    rows, number, targets = [root], {root: 0}, []
    for row, node in enumerate(rows):
        targets.append([])
        for answers in classes:
            after = pool.derive(node, answers)
            if after not in number:
                if len(rows) == limit:
                    raise Refused(22, row)
                number[after] = len(rows)
                rows.append(after)
            targets[row].append(number[after])
    return rows, targets


def reached(targets, row):
    seen, todo = {row}, [row]
    while todo:
        fresh = set(targets[todo.pop()]) - seen
        seen |= fresh
        todo += fresh
    return seen


def listing(text, size=1024, limit=64):
    try:
        got = Reading(text, size, 32)
        if got.refusal:
            raise got.refusal
        classes = answer_sets(text, got.entries)
        rows, targets = table(got.pool, got.root, classes, limit)
    except Refused as refusal:
        return [f"{refusal.number} {refusal.place}"]
    lines = [f"rows {len(rows)} classes {len(classes)}"]
    accepts = [got.pool.nodes[node][3] for node in rows]
    for row in range(len(rows)):
        found = {accepts[other] for other in reached(targets, row)}
        mark = accepts[row] + (2 if 1 in found else 0) + (4 if 0 in found else 0)
        lines.append(" ".join(map(str, [row, mark] + targets[row])))
    return lines


def validate(folder):
    names = sorted(Path(folder).glob("*.rule"))
    wrong = [n.name for n in names if listing(n.read_bytes()) != n.with_suffix(".out").read_text().splitlines()]
    print(f"{len(names) - len(wrong)} of {len(names)} listings agree", *wrong, sep="\n")
    return not wrong and names != []


# Cases: each a text, the nodes of the pool and the places of the atom list

ROOM = (64, 32)


def texts(*all_texts, room=ROOM):
    return [(text.encode() if isinstance(text, str) else text, *room) for text in all_texts]


def brackets(first, last):
    return "".join(f"[{n:02x}]" for n in range(first, last))


def short_cases():
    """Every text of one to three tokens, and none."""
    signs = ["|", "&", "!", "*", "(", ")", "0", "1", ".", "[]"]
    for length in range(4):
        for chosen in itertools.product(signs, repeat=length):
            yield from texts("".join(chosen), room=(8, 32))


def token_cases():
    """Which byte begins a token, what a bracket is, what stands between, and that one token is judged before the next."""
    yield from texts(*(bytes([b]) for b in range(256)), *(b"." + bytes([b]) for b in range(256)), room=(8, 32))
    yield from texts("[61", "[61]|", "()", ")x", "|[", "*x", ".x)", "(.x", ".)x", "(]", "[", "[]", "[[]", "[[61]", "[]]")
    yield from texts(" ", "\n", " \n ", " . ", "\n.\n", ". .", ".\n\n*", "! .", "( . )", ".\t", "\r\n", ". |", ".|\n", "(. ", "!  ", "[61]|\n", "   ")
    yield from texts("[ 61]", "[6 1][61]", "[\n]", "[|&!*()01.]", b"[\x00\xff]", "[61][61-61]", "[6a][6A]", "[61][61]", "[61] [61]|[61]")
    yield from texts("[61]|[62", "[61]([62", "|[62", "[62|", ".]", "[61]]", "x[61", "(x", "!x", "!", "!|", "(", "(.", "(.|", ".|&.")
    yield from texts(b"\x80", b".\xc3\xa9", "[\u00e9]", "2", "a", "[61]+", "[61]?", "{.}", "#", "\0", ".\0")


def binding_cases():
    """How tightly the forms bind, and that equal ones group to the left."""
    a, b, c = "[61]", "[62]", "[63]"
    for one, two in itertools.product(["|", "&", ""], repeat=2):
        yield from texts(a + one + b + two + c, a + one + "(" + b + two + c + ")", "(" + a + one + b + ")" + two + c)
        yield from texts("!" + a + one + b + two + c, a + one + "!" + b + two + c + "*", a + "*" + one + b + two + "!" + c + "*")
        yield from texts("!(" + a + one + b + ")*" + two + c, a + one + "!!" + b + "**" + two + c)
    yield from texts("[61]![62]", "![61][62]", "![61]*", "(![61])*", "[61]**", "!!.*", "!(!.)*", "(!!.)*", "((([61])))", "(.)(.)", "(.).", ".(.)")
    yield from texts("[61][62]|[61][63]", "!([61]*)", "!(.*[2.:07d1-ffff].*)", "([61]|[62])*&!([61]*([62][61]*)*)")


def level_cases():
    """Levels: 32 are open at most, and a `!` is done when what follows its operand is no star."""
    bangs, opens, closes = "!" * 32, "(" * 32, ")" * 32
    yield from texts(bangs + ".", bangs + "!.", bangs + "." + bangs + ".", bangs + ".*" + bangs + ".", bangs + "." + bangs + "!.")
    yield from texts(opens + "." + closes, opens + "(.)" + closes, opens + "(x", opens + "!x", opens + "(", opens, opens + ")", opens + "x")
    yield from texts(bangs + "(.)", bangs + "(x", bangs + "!x", bangs, bangs + "x", bangs + ")", bangs + "[61", bangs + "|")
    yield from texts("(" * 31 + "!.!.!." + ")" * 31, "(" * 31 + "!!.", "(" * 31 + "!(.)", "(" * 31 + "!.*(.)", opens + "!.")
    yield from texts("!" * 31 + "(.)(.)", "!" * 31 + "(.)*(.)", "!" * 31 + "(.(", "!" * 31 + "(!", "!" * 31 + "(.)!" + bangs)
    yield from texts("!(" * 16 + "." + ")" * 16, "!(" * 16 + "!.", "(!" * 16 + "." + ")" * 16, "(!" * 16 + "(", "!(" * 16 + "." + ")" * 15)
    yield from texts("(!.)" * 40, "!(.)" * 40, "!.|" * 40 + "!.", "!.&" * 40 + "!.", "(" * 16 + "." + ")" * 16 + "(" * 32 + "." + closes)
    yield from texts(opens + "." + closes + opens + "." + closes, opens + "." + ")" * 33, opens + "." + ")" * 31, opens + brackets(0, 33))
    for outer in range(29, 33):
        for inner in range(34 - outer):
            yield from texts("(" * outer + "!" * inner + "." + ")" * outer, "!" * outer + "(" * inner + "." + ")" * inner)


def atom_cases():
    """32 atoms pass; the 33rd is asked about after all other questions about it, and before the next token."""
    full = brackets(0, 32)
    yield from texts(full, full + "[00]", full + "[20]", full + "[1f][20]", "0&(" + full + ")", full + "[20", full + "][20]", full + "|[20]")
    yield from texts(full + "|)[20]", full + ")[20]", full + "[20])", full + "[20]x", full + "x[20]", full + "[20]|", full + "|[20]" + "(" * 33)
    yield from texts("(" * 33 + full + "[20]", full + "(" * 33 + "[20]", full + "!" * 33 + "[20]", full + "!" * 32 + "[20]", full + "\n [20]")
    yield from texts(full[4:] + "[]", full + "[]", "[]" + full, full + "[0]", full + "[ 00]", "[20]" + full, full * 2, full * 2 + "[20]")
    yield from texts("|".join(full[i:i + 4] for i in range(0, 128, 4)), "&".join(full[i:i + 4] for i in range(124, -1, -4)), room=(1024, 33))


def room_cases():
    """The sizes that are asked about, and what stands when the nodes run out."""
    for size in (0, 1, 3, 4, 4096, 4097):
        for places in (0, 31, 32, 33, 100):
            yield from texts("", "|", "1", "!0", "[61]", room=(size, places))
    for text in ("[61][62]|[61][63]", "[61]*", "!1", "!1[61]", "[61]!1", "!1|.*", "([61]|[62]|[63]|[64])&[65]*", "!(.*[61].*)&!(.*[62].*)"):
        for size in range(4, 20):
            yield from texts(text, room=(size, 40))
    yield from texts("[61][62]|", "[61][62])", "[61][62]x", "[61][62][", brackets(0, 33), "!" * 33, room=(4, 32))
    yield from texts(b" " * 4096, b" " * 4095 + b"x", b"." + b" " * 4093 + b"|.", b"[" * 4096, b"[" + b"x" * 4094 + b"]", room=(5, 32))
    yield from texts(b"\n" * 4096 + b".", room=ROOM)
    yield from texts(b"x" * 4097, room=(3, 31))
    yield from texts(b"." * 4093 + b" \n ", b"." * 4094, b"." + b"*" * 4095, room=(4096, 32))


def entering_cases():
    """Each rule of entering: what becomes of 0, 1, . and of not of 0, of stars and of nots, under every kind."""
    simple = ["0", "1", ".", "!0", "[61]", "[61]*", "![61]", "([61]|[62])", "([61]&[62])", "[61][62]"]
    for left, right in itertools.product(simple, repeat=2):
        for sign in ("|", "&", ""):
            yield from texts(left + sign + right, room=(24, 32))
    for part in simple:
        yield from texts(*(before + "(" + part + ")" + behind for before in ("", "!", "!!", "!!!") for behind in ("", "*", "**")))
    yield from texts("0&[61]", "0([61][62])", "([61][62])0", "([61]|[62])&0", "!0|([61]&[62])", "[61]0|[62]", "(0|0)*", "!(0&[61])", "![61]&!![61]")
    yield from texts("(1|[61])[62]", "(1|[61])(1|[62])", "(1&[61])[62]", "!(1|[61])", "!([61][62])", "([61]*&!1)|1", "[61]*[62]*", "!([61]*)[62]*")


def merging_cases():
    """Members by rising number, each once: from every order and grouping. What goes before enters them by their numbers."""
    members = ["[61]", "[62]", "[63]", "[64]"]
    yield from texts("([61]|[62]|[63])|([62]|[64])")
    ahead = "0" + "".join(members) + "|"
    for sign in "|&":
        for order in itertools.permutations(members):
            a, b, c, d = order
            yield from texts(sign.join(order), ahead + "(" + sign.join(order) + ")")
            yield from texts(ahead + f"(({a}{sign}{b}){sign}({c}{sign}{d}))", ahead + f"({a}{sign}({b}{sign}({c}{sign}{d})))")
            yield from texts(ahead + f"(({a}{sign}{b}){sign}({b}{sign}{d}))", ahead + f"({a}{sign}({b}{sign}{c}{sign}{a}))")
        for few in itertools.product(members[:2], repeat=4):
            a, b, c, d = few
            yield from texts(sign.join(few), f"({a}{sign}{b}){sign}({c}{sign}{d})")
        a, b, c, d = members
        other = "&" if sign == "|" else "|"
        yield from texts(f"({a}{other}{b}){sign}({b}{other}{a})", f"({a}{other}{b}){sign}{a}{sign}({b}{other}{a})", f"{a}{sign}!({b}{sign}{a}){sign}{b}")
        yield from texts(f"({a}{sign}{b})({c}{sign}{d}){sign}({b}{sign}{a})({d}{sign}{c})", f"({a}{sign}{b})*{sign}({b}{sign}{a})*{sign}{c}")
        yield from texts(f"({a}{sign}{b}){sign}1{sign}({c}{sign}.){sign}{a}*", f"{a}{b}{sign}{a}{sign}{b}{sign}{a}{b}{sign}{c}{sign}{b}")


def chosen(rng, items):
    return items[int(rng.random() * len(items))]


def random_rule(rng, size):
    """A rule of about so many bases."""
    if size < 2:
        base = chosen(rng, ["0", "1", ".", "[61]", "[62]", "[63]", "[61-7a]", "[00-ff]", "[]", "[64]"])
        return chosen(rng, ["", "", "", "!", "!!"]) + base + chosen(rng, ["", "", "", "*", "**"])
    left = 1 + int(rng.random() * (size - 1))
    sign = chosen(rng, ["|", "&", "", "", " ", " | ", "\n&"])
    rule = random_rule(rng, left) + sign + random_rule(rng, size - left)
    return chosen(rng, ["", "", "!", "! "]) + "(" + rule + ")" + chosen(rng, ["", "*"]) if rng.random() < 0.4 else rule


def broken(rng, rule):
    """The rule with a byte left out, put in, changed, or moved to another place."""
    rule = bytearray(rule)
    for _ in range(1 + int(rng.random() * 2)):
        at = int(rng.random() * len(rule))
        fresh = b"" if rng.random() < 0.3 else bytes([chosen(rng, b"|&!*()01.[]  \n\tx")])
        rule[at:at + int(rng.random() * 2)] = fresh
    return bytes(rule)


def random_cases():
    rng = random.Random(4)
    for n in range(420):
        rule = random_rule(rng, 1 + int(rng.random() * (40 if n % 20 == 0 else 9))).encode()
        whole = Reading(rule, 4096, 32)
        needed = 4 if whole.refusal else len(whole.pool.nodes)
        if n % 3 == 0:
            rule = broken(rng, rule)
        yield rule, max(4, chosen(rng, [needed, needed, needed + 1, needed - 1, needed // 2])), 32
    for size, nodes in ((300, 600), (500, 1024), (540, 800)):
        yield random_rule(rng, size).encode(), nodes, 32
        yield "|".join(random_rule(rng, 4) for _ in range(size // 12)).encode(), nodes, 32


def write_cases():
    cases = []
    for group in (short_cases, token_cases, binding_cases, level_cases, atom_cases, room_cases, entering_cases, merging_cases, random_cases):
        cases += group()
    cases = list(dict.fromkeys(cases))
    crate = Path(__file__).resolve().parent.parent / "crates" / "texts"
    (crate / "stdin").write_text("".join(f"{size} {places} {text.hex() or '-'}\n" for text, size, places in cases))
    (crate / "stdout").write_text("".join(f"{outcome(*case)}\n" for case in cases))


def main(words):
    if words == ["--nodes"]:
        print(*shown(sys.stdin.buffer.read()), sep="\n")
    elif words[:1] == ["--list"] and len(words) in (1, 3):
        print(*listing(sys.stdin.buffer.read(), *map(int, words[1:])), sep="\n")
    elif len(words) == 2 and words[0] == "--validate":
        return 0 if validate(words[1]) else 1
    elif words:
        print(__doc__, file=sys.stderr)
        return 1
    else:
        write_cases()
    return 0


if __name__ == "__main__":
    sys.exit(main(sys.argv[1:]))
