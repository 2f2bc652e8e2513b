#!/usr/bin/env python3
"""A model of cutting and of both layers, and the cases of crates/cuts that it makes. It shares no code and no step with
the library: an atom's form is a regular expression; the answer sets of events come, code by code and station by station,
from the places where the ranges of that code and station begin and have ended, each of which turns one bit over.

    cutting.py                    write the cases: crates/cuts/stdin, and what must come of each, crates/cuts/stdout
    cutting.py --validate FOLDER  hold the class counts of every NAME.rule of FOLDER against its NAME.out, and some
                                  alphabets of events against a walk over all 8388608 events
    cutting.py --compare PROGRAM [TIMES [SEED]]
                                  give the program TIMES random cases, 3000 if it is not said, and tell what differs

The cases, one a line of stdin:

    LAYERS ATOMS ASKED "TEXT"     cut the text, and ask the alphabet
    order N,N,N,N,N,N,N,N         fill an order of stations; `order new` leaves a new one as it is
    event CODE STATION PRESSURE   make an event

LAYERS is `bytes` or `events` and, behind it, what stands above, from below: `bytes/fold`, `events/10234567`. ATOMS is
COUNT:PLACE,LENGTH;PLACE,LENGTH.. for the count and the list of entries that cutting is given, or `read` for what reading the
rule gives, or `new`, where nothing is cut and the alphabet is asked as it was made. ASKED says about which letters: `all`,
or bytes in hexadecimal, or pressures, which are asked about at all codes and stations. In TEXT a byte that does not print,
a `"` and a `\\` are written `\\xhh`.

Before each cutting the place holds what the rule `[30-39]` or `[95:0100-01ff]` gives, and before each filling the order
holds 1 2 3 4 5 6 7 0, so a refusal that changes something, or a success that leaves something, is seen. What must come of a
case, one a line of stdout, is the answer, and then what the place holds:

    OK kind KIND classes COUNT (CLASS SAMPLE ANSWERS).. past 0 asked LETTER=CLASS..
    REFUSED NUMBER PLACE kind ..
    OK 01234567, REFUSED 14 PLACE 12345670
    OK CSPPPP, REFUSED 9 0

A letter is two hexadecimal digits or, an event, six: code, station and four of the pressure. For each class below the count
stand the class that its sample has, the sample and the answer set; `past` counts the numbers from the count upward, of
some, that still have an answer set or a sample. Behind `asked` stand the first letter and those whose class is another than
that of the letter asked about just before. No byte rule meets question 13: 32 ranges part the bytes into 64 classes at most.
"""
import itertools
import random
import re
import subprocess
import sys
from pathlib import Path
from typing import NamedTuple

import reading

MOST = 2**64 - 1
CELLS = list(itertools.product(range(16), range(8)))
BYTE_FORM = re.compile(rb"([0-9a-f]{2})(?:-([0-9a-f]{2}))?")
EVENT_FORM = re.compile(rb"([0-9a-f.])([0-7.]):([0-9a-f]{4})-([0-9a-f]{4})")
EARLIER = {"bytes": b"[30-39]", "events": b"[95:0100-01ff]"}
EARLIER_ORDER = (1, 2, 3, 4, 5, 6, 7, 0)


class Refused(Exception):
    """A question, by its number, and the place of its no."""

    def __init__(self, number, place):
        super().__init__(number, place)
        self.number, self.place = number, place


# Alphabets


class ByteAtom:
    def __init__(self, form):
        first, last = form.groups()
        self.first, self.last = int(first, 16), int(last or first, 16)


class EventAtom:
    def __init__(self, form):
        code, station, first, last = form.groups()
        self.codes = range(16) if code == b"." else [int(code, 16)]
        self.stations = range(8) if station == b"." else [int(station)]
        self.first, self.last = int(first, 16), int(last, 16)


class Bytes:
    kind = 1

    def __init__(self, atoms):
        self.table = [sum(1 << k for k, atom in enumerate(atoms) if atom.first <= byte <= atom.last) for byte in range(256)]
        self.sets = list(dict.fromkeys(self.table))
        self.samples = [self.table.index(answers) for answers in self.sets]

    def class_of(self, byte):
        return self.sets.index(self.table[byte])


class Fold:
    def __init__(self, below):
        self.below, self.kind = below, below.kind
        first_met = {}
        for byte in range(256):
            first_met.setdefault(self.class_below(byte), byte)
        self.numbers, self.samples = list(first_met), list(first_met.values())
        self.sets = [below.sets[number] for number in first_met]

    def class_below(self, byte):
        return self.below.class_of(ord(chr(byte).lower()) if byte < 128 else byte)

    def class_of(self, byte):
        return self.numbers.index(self.class_below(byte))


class Events:
    kind = 2

    def __init__(self, atoms):
        self.ranges = {cell: [] for cell in CELLS}
        for k, atom in enumerate(atoms):
            for cell in itertools.product(atom.codes, atom.stations):
                self.ranges[cell].append((1 << k, atom.first, atom.last))
        first_met = {}
        for cell in CELLS:
            for pressure, answers in self.course(cell):
                first_met.setdefault(answers, (*cell, pressure))
        self.sets, self.samples = list(first_met), list(first_met.values())
        self.numbers = {answers: number for number, answers in enumerate(self.sets)}

    def course(self, cell):
        """The pressures where a range begins or has ended, and the answer set from there on."""
        turned = {0: 0}
        for bit, first, last in self.ranges[cell]:
            for pressure in (first, last + 1):
                turned[pressure] = turned.get(pressure, 0) ^ bit
        answers = 0
        for pressure in sorted(turned):
            answers ^= turned[pressure]
            if pressure < 65536:
                yield pressure, answers

    def class_of(self, event):
        code, station, pressure = event
        return self.numbers[sum(bit for bit, first, last in self.ranges[code, station] if first <= pressure <= last)]

    def every(self, cell):
        """The classes at every pressure, found in a walk over them all."""
        row = [0] * 65536
        for bit, first, last in self.ranges[cell]:
            for pressure in range(first, last + 1):
                row[pressure] |= bit
        return [self.numbers[answers] for answers in row]


class Stations:
    def __init__(self, below, order):
        self.below, self.order, self.kind, self.sets = below, order, below.kind, below.sets
        self.samples = [(code, order.index(station), pressure) for code, station, pressure in below.samples]

    def class_of(self, event):
        code, station, pressure = event
        return self.below.class_of((code, self.order[station], pressure))

    def every(self, cell):
        return self.below.every((cell[0], self.order[cell[1]]))


ALPHABETS = {"bytes": (BYTE_FORM, ByteAtom, Bytes), "events": (EVENT_FORM, EventAtom, Events)}


def cut(kind, text, entries, count):
    form, atom_of, alphabet_of = ALPHABETS[kind]
    atoms = []
    for number in range(count):
        if number >= 32 or number >= len(entries) or sum(entries[number]) > len(text):
            raise Refused(10, number)
        place, length = entries[number]
        fitting = form.fullmatch(text, place, place + length)
        if not fitting:
            raise Refused(11, place)
        atoms.append(atom_of(fitting))
        if atoms[-1].first > atoms[-1].last:
            raise Refused(12, place)
    alphabet = alphabet_of(atoms)
    if len(alphabet.sets) > 255:
        raise Refused(13, 255)
    return alphabet


def cut_rule(kind, text):
    entries = reading.judged(text)[1]
    return cut(kind, text, entries, len(entries))


def fill(entries):
    for place, entry in enumerate(entries):
        if entry > 7 or entry in entries[:place]:
            raise Refused(14, place)
    return entries


def event(code, station, pressure):
    if code > 15 or station > 7:
        raise Refused(9, 0)
    return code, station, pressure


# Cases and what must come of them


class Cutting(NamedTuple):
    layers: str
    atoms: object  # a count and a list of entries, or `read`, or `new`
    asked: object  # a list of bytes or of pressures, or `all`
    text: bytes

    def line(self):
        atoms, asked = self.atoms, self.asked
        if not isinstance(atoms, str):
            atoms = f"{atoms[0]}:" + ";".join("%d,%d" % entry for entry in atoms[1])
        if not isinstance(asked, str):
            asked = ",".join(f"{value:0{4 if self.kind() == 'events' else 2}x}" for value in asked)
        return f'{self.layers} {atoms} {asked} "{escaped(self.text)}"'

    def kind(self):
        return self.layers.split("/")[0]

    def outcome(self):
        kind, answer = self.kind(), "OK"
        alphabet = ALPHABETS[kind][2]([]) if self.atoms == "new" else cut_rule(kind, EARLIER[kind])
        try:
            if self.atoms == "read":
                alphabet = cut_rule(kind, self.text)
            elif self.atoms != "new":
                alphabet = cut(kind, self.text, self.atoms[1], self.atoms[0])
        except Refused as refusal:
            answer = f"REFUSED {refusal.number} {refusal.place}"
        for layer in self.layers.split("/")[1:]:
            alphabet = Fold(alphabet) if layer == "fold" else Stations(alphabet, tuple(map(int, layer)))
        return f"{answer} {told(alphabet, self.asked)}"


class Order(NamedTuple):
    entries: object  # eight numbers, or `new`

    def line(self):
        return "order " + (self.entries if self.entries == "new" else ",".join(map(str, self.entries)))

    def outcome(self):
        answer, held = "OK", range(8) if self.entries == "new" else EARLIER_ORDER
        try:
            if self.entries != "new":
                held = fill(self.entries)
        except Refused as refusal:
            answer = f"REFUSED {refusal.number} {refusal.place}"
        return f"{answer} {''.join(map(str, held))}"


class Making(NamedTuple):
    code: int
    station: int
    pressure: int

    def line(self):
        return f"event {self.code} {self.station} {self.pressure}"

    def outcome(self):
        try:
            return f"OK {shown(event(*self))}"
        except Refused as refusal:
            return f"REFUSED {refusal.number} {refusal.place}"


def escaped(text):
    return "".join(chr(byte) if 32 <= byte <= 126 and byte not in b'"\\' else f"\\x{byte:02x}" for byte in text)


def shown(letter):
    return f"{letter:02x}" if isinstance(letter, int) else "%x%x%04x" % letter


def told(alphabet, asked):
    words = [f"kind {alphabet.kind} classes {len(alphabet.sets)}"]
    for sample, answers in zip(alphabet.samples, alphabet.sets):
        words.append(f"({alphabet.class_of(sample)} {shown(sample)} {answers:08x})")
    words.append("past 0 asked")
    before = None
    for letter, number in asked_about(alphabet, asked):
        if number != before:
            words.append(f"{shown(letter)}={number}")
        before = number
    return " ".join(words)


def asked_about(alphabet, asked):
    """Letters and their classes."""
    if alphabet.kind == 1:
        for byte in range(256) if asked == "all" else asked:
            yield byte, alphabet.class_of(byte)
        return
    for cell in CELLS:
        if asked == "all":
            yield from (((*cell, pressure), number) for pressure, number in enumerate(alphabet.every(cell)))
        else:
            yield from (((*cell, pressure), alphabet.class_of((*cell, pressure))) for pressure in asked)


# Making cases


def pieces(parts):
    """Texts one behind the other, without brackets, and where each stands."""
    text, entries = b"", []
    for part in parts:
        entries.append((len(text), len(part)))
        text += part
    return text, entries


def spread(values, most):
    """Some of the values, from all over."""
    return tuple(values[k * len(values) // most] for k in range(most)) if len(values) > most else tuple(values)


def edges(text):
    """The pressures at which something changes in what a text's atoms admit, and those just before."""
    found = {0x0100, 0x0200}
    for form in EVENT_FORM.finditer(text):
        first, last = int(form[3], 16), int(form[4], 16)
        found |= {first - 1, first, last, last + 1}
    return [pressure for pressure in sorted(found) if 0 <= pressure <= 65535]


def rules(layers, *texts, asked=None, most=8):
    """Cuttings of rules."""
    for text in texts:
        text = text if isinstance(text, bytes) else text.encode()
        yield Cutting(layers, "read", asked or ("all" if layers.startswith("bytes") else spread(edges(text), most)), text)


def lists(layers, parts, count=None, entries=None, asked=None):
    """A cutting of texts one behind the other; the entries may be others than theirs."""
    text, true_entries = pieces([part.encode() if isinstance(part, str) else part for part in parts])
    entries = true_entries if entries is None else entries
    count = len(entries) if count is None else count
    yield Cutting(layers, (count, tuple(entries)), asked or ("all" if layers.startswith("bytes") else spread(edges(text), 4)), text)


# Cases whose outcome is written by hand, to hold the model against
WRITTEN = [
    (Cutting("events", "read", (0x0000, 0x07D0, 0x07D1, 0xFFFF), b"[23:07d1-ffff]"),
     "OK kind 2 classes 2 (0 000000 00000000) (1 2307d1 00000001) past 0 asked 000000=0 2307d1=1 240000=0"),
    (Cutting("bytes", "read", "all", b"[41]"), "OK kind 1 classes 2 (0 00 00000000) (1 41 00000001) past 0 asked 00=0 41=1 42=0"),
    (Cutting("bytes/fold", "read", "all", b"[41]"), "OK kind 1 classes 1 (0 00 00000000) past 0 asked 00=0"),
    (Cutting("bytes/fold", "read", "all", b"[61]"),
     "OK kind 1 classes 2 (0 00 00000000) (1 41 00000001) past 0 asked 00=0 41=1 42=0 61=1 62=0"),
    (Cutting("bytes/fold/fold", "read", (0x40, 0x41, 0x42, 0x61, 0x62), b"[61]"),
     "OK kind 1 classes 2 (0 00 00000000) (1 41 00000001) past 0 asked 40=0 41=1 42=0 61=1 62=0"),
    (Cutting("bytes", "read", "all", b"[61][62]|[61][63]"),
     "OK kind 1 classes 4 (0 00 00000000) (1 61 00000001) (2 62 00000002) (3 63 00000004) past 0 asked 00=0 61=1 62=2 63=3 64=0"),
    (Cutting("bytes", "new", "all", b""), "OK kind 1 classes 1 (0 00 00000000) past 0 asked 00=0"),
    (Cutting("bytes", (0, ()), "all", b""), "OK kind 1 classes 1 (0 00 00000000) past 0 asked 00=0"),
    (Cutting("events", "new", (0, 65535), b""), "OK kind 2 classes 1 (0 000000 00000000) past 0 asked 000000=0"),
    (Cutting("events", (0, ()), (0, 65535), b""), "OK kind 2 classes 1 (0 000000 00000000) past 0 asked 000000=0"),
    (Cutting("events/10234567", "read", (0x07D0, 0x07D1), b"[20:07d1-ffff]"),
     "OK kind 2 classes 2 (0 010000 00000000) (1 2107d1 00000001) past 0 asked 0007d0=0 2107d1=1 2207d0=0"),
    # the upper layer's station 7 is the lower one's 0, which is 1
    (Cutting("events/10234567/12345670", "read", (0,), b"[21:0000-0000]"),
     "OK kind 2 classes 2 (0 000000 00000000) (1 270000 00000001) past 0 asked 000000=0 270000=1 300000=0"),
    (Cutting("bytes", (33, ((0, 2),) * 33), "all", b"41"),
     "REFUSED 10 32 kind 1 classes 2 (0 00 00000000) (1 30 00000001) past 0 asked 00=0 30=1 3a=0"),
    (Cutting("events", (33, ((0, 12),) * 33), (0x0000, 0x0100, 0x0200), b"23:07d1-ffff"),
     "REFUSED 10 32 kind 2 classes 2 (0 000000 00000000) (1 950100 00000001) past 0 asked 000000=0 950100=1 950200=0"),
    (Cutting("bytes", "read", (0x2F, 0x30), b"[61][62-61]"),
     "REFUSED 12 5 kind 1 classes 2 (0 00 00000000) (1 30 00000001) past 0 asked 2f=0 30=1"),
    (Cutting("bytes", "read", (0x2F, 0x30), b"[61][6A]"),
     "REFUSED 11 5 kind 1 classes 2 (0 00 00000000) (1 30 00000001) past 0 asked 2f=0 30=1"),
    (Order((1, 0, 2, 3, 4, 5, 6, 7)), "OK 10234567"),
    (Order((1, 0, 2, 3, 1, 5, 6, 8)), "REFUSED 14 4 12345670"),
    (Order((8, 8, 2, 3, 4, 5, 6, 7)), "REFUSED 14 0 12345670"),
    (Order("new"), "OK 01234567"),
    (Making(2, 3, 2001), "OK 2307d1"),
    (Making(16, 3, 2001), "REFUSED 9 0"),
    (Making(2, 8, 2001), "REFUSED 9 0"),
]


def written_cases():
    for case, wanted in WRITTEN:
        if case.outcome() != wanted:
            sys.exit(f"the model is wrong: {case.line()}\n  gives  {case.outcome()}\n  wanted {wanted}")
        yield case


def one_off(good, others):
    """The text with one character changed, left out, or put in, at each place."""
    for place in range(len(good) + 1):
        yield from (good[:place] + bytes([other]) + good[place + 1:] for other in others if place < len(good))
        yield from (good[:place] + bytes([other]) + good[place:] for other in b"0.-:f ")
        yield good[:place] + good[place + 1:]


def form_cases():
    """Which texts are atoms. The characters are the first and the last of each kind, those just outside, and strange ones."""
    others = b"\0\t\n !,-./0127" b'89:;@AFGXZ[\\]_`afgxz~\x7f\x80\xad\xb0\xe1\xff'
    for good in (b"4f", b"41-5a"):
        for text in one_off(good, others):
            yield from lists("bytes", [text])
    for good in (b"2.:07d1-ffff", b".7:0000-89ab"):
        for text in one_off(good, others):
            yield from lists("events", [text])
    for text in ("", "4", "4-5", "4-5a", "41-", "-5a", "41--5a", "41-5", "415a", "41 5a", "41-5a-6b", "41-5a ", " 41", "4A", "5A-5a", "41-5A"):
        yield from lists("bytes", [text])
    for text in ("0x41", "+4", "-4", "4.", ".", "..", "..-..", "41_5a", "41\u20135a", "41\u20115a", "41\u22125a", "41\u00ad5a", "\uff14\uff11"):
        yield from lists("bytes", [text.encode()])
    for text in ("", "2.", "2.:07d1", "2.:07d1-", "2.:07d1-fff", "2.:07d1-fffff", "2.:7d1-ffff", "2.07d1-ffff", "02.:07d1-ffff", "2.:07d1-ffff "):
        yield from lists("events", [text])
    for text in ("2.:07D1-ffff", "A.:07d1-ffff", "2.:07d1\u2013ff", "..:....-....", "2.:par0-ffff", "2.:07d1-par7", "2.;07d1-ffff", ".2:07d1:ffff"):
        yield from lists("events", [text.encode()])
    for code in "0123456789abcdef.":
        yield from rules("events", f"[{code}4:0010-0020]", asked=(0x0F, 0x10, 0x20, 0x21))
    for station in "01234567.":
        yield from rules("events", f"[b{station}:0010-0020]", asked=(0x0F, 0x10, 0x20, 0x21))
    for first, last in (("0000", "0000"), ("ffff", "ffff"), ("0000", "ffff"), ("0001", "fffe"), ("00ff", "0100"), ("0fff", "f000"), ("7fff", "8000")):
        yield from rules("events", f"[.4:{first}-{last}]", f"[..:{first}-{last}]")


def entry_cases():
    """Question 10: a count past 32, past the list, and entries that reach past the text and past every number."""
    for kind, good in (("bytes", ["41", "43", "61-7a"]), ("events", ["23:07d1-ffff", "..:0000-0010", "f.:0300-0400"])):
        size = len(good[0])
        whole = sum(map(len, good))
        here, all_here = [(0, size)], pieces([part.encode() for part in good])[1]
        for count in (31, 32, 33, 34, 64, 288, 65568, 2**32, 2**32 + 1, 2**63, MOST):
            for length in (0, 1, 31, 32, 33, 40):
                yield from lists(kind, good, count, here * length)
        for count in (0, 1, 2, 3, 4, 5, 256, 257, 2**32, 2**32 + 2, MOST):
            yield from lists(kind, good, count)
        past = [(whole - size + 1, size), (whole, size), (whole, 1), (whole + 1, 0), (whole + 1, size), (0, whole + 1), (1, whole)]
        past += [(MOST, 0), (MOST, 1), (MOST, MOST), (MOST, size), (0, MOST), (1, MOST), (size, MOST), (2**63, 2**63), (2**63 + 1, 2**63 + size - 1)]
        past += [(MOST - size + 1, size), (MOST - size, size), (MOST - 1, size + 2), (2**32, size), (2**32, 0), (0, 2**32 + size), (MOST + 1 - whole, whole)]
        for entry in past:
            yield from lists(kind, good, None, [entry])
            yield from lists(kind, good, None, all_here + [entry])
            yield from lists(kind, good, 3, all_here + [entry])
            yield from lists(kind, good, None, here * 31 + [entry])
        for entry in [(0, 0), (1, 0), (whole, 0), (whole - 1, 1), (0, whole), (1, size), (whole - 1, 0)]:
            yield from lists(kind, good, None, [entry])
            yield from lists(kind, good, None, all_here + [entry])
        yield from lists(kind, good, None, all_here[::-1])
        yield from lists(kind, good, None, here + here)
        yield from lists(kind, [], None, [(0, 0)])
        yield from lists(kind, [], None, [(1, 0)])
        yield from lists(kind, [], 0, [(1, 0)])
        yield from lists(kind, [], 1, [])
    yield from lists("bytes", ["41-5a-61-7a"], None, [(0, 5), (3, 5), (6, 5), (3, 2), (9, 2)])
    yield from lists("bytes", ["6141", "-5a"], None, [(2, 5), (0, 2), (1, 2)])
    yield from lists("events", ["2.:07d1-ffff.3:0000-0100"], None, [(0, 12), (12, 12), (0, 12)])


def question_cases():
    """One question before the other: all questions about an atom before the next atom, the count of classes at the end."""
    for kind, good, form, order in (("bytes", "41-5a", "4g-41", "5a-41"), ("events", "..:0100-01ff", ".8:0001-0000", "2.:0001-0000")):
        bad = {"good": good, "form": form, "order": order, "outside": None}
        for chosen in itertools.product(bad, repeat=3):
            parts = [bad[word] or good for word in chosen]
            text, entries = pieces([part.encode() for part in parts])
            entries = [(place, length if bad[word] else 999) for (place, length), word in zip(entries, chosen)]
            for count in (3, 4):
                yield from lists(kind, parts, count, entries)
    yield from rules("bytes", "[60-5f]", "[ff-00]", "[01-00]", "[10-0f]", "[61][61-61][62-61]", "[61-62][63-62][64]", "[5a-41]|[zz]", "[zz]|[5a-41]", "[a0-9f]")
    for ends in ("0001-0000", "ffff-fffe", "ffff-0000", "0100-00ff", "1000-0fff", "8000-7fff", "07d1-07d0", "00a0-009f"):
        yield from rules("events", f"[2.:{ends}]", f"[..:{ends}]", f"[23:0000-ffff][23:{ends}]", f"[..:0000-ffff]|[.7:{ends}]|[gg]")


def pairs_of_ranges():
    """Two ranges, and pressures that tell where they are apart: equal, touching, overlapping, nested, with a gap of one."""
    a, b, c, d = 0x0100, 0x0200, 0x0300, 0x0400
    between = [((a, d), (a, d)), ((a, b), (b + 1, d)), ((a, b), (b, d)), ((a, c), (b, d)), ((a, d), (b, c)), ((a, d), (a, c)), ((a, d), (b, d))]
    between += [((a, b - 1), (b + 1, d)), ((a, b), (c, d)), ((b, b), (b, b)), ((b, b), (b + 1, b + 1))]
    return between + [((0, b), (b + 1, 65535)), ((0, 65535), (b, c)), ((0, c), (b, 65535))]


def range_cases():
    """Ranges that touch, overlap and nest, of bytes and of events of the same and of other codes and stations."""
    for low, high in pairs_of_ranges():
        one, two = (f"[{first >> 4 & 0xFF:02x}-{min(last >> 4, 255):02x}]" for first, last in (low, high))
        yield from rules("bytes", one + two, two + one, one + two + one.replace("[", "[00][") + "[ff][80]")
        for first, second in [*itertools.product(("23", "2.", ".3", ".."), repeat=2), ("23", "33"), ("23", "24")]:
            text = "[%s:%04x-%04x][%s:%04x-%04x]" % (first, *low, second, *high)
            yield from rules("events", text, asked=spread(edges(text.encode()), 6) if "." not in first + second else (0x0180, 0x0200, 0x0201, 0x0380))
    yield from rules("bytes", "[00]", "[ff]", "[00-ff]", "[00-7f][80-ff]", "[00-fe]", "[01-ff]", "[7f-80]", "[61][61-61]", "[09-10]", "[0f-f0]")
    yield from rules("bytes", "[00-3f][40-7f][80-bf][c0-ff]", "[80-ff][00-7f]", "[61-63][62-64][63-65][64-66]")
    yield from rules("bytes", "0", "1", "!0", ".", "0&[61]", "[62]([61]|[62])*")
    yield from rules("events", "[00:0000-0000]", "[f7:ffff-ffff]", "[00:0001-0001]", "[f7:fffe-fffe]", "[0.:0000-ffff]", "[.0:0000-ffff]")
    yield from rules("events", "0", "1", "!(.*[2.:07d1-ffff].*)")


def brackets(atom):
    """The atoms that the numbers 0 to 31 make, as a rule."""
    return "".join(f"[{atom(k)}]" for k in range(32))


def many_cases():
    """As many atoms as there can be."""
    for step in range(1, 9):
        yield from rules("bytes", brackets(lambda k: f"{k * step:02x}"), brackets(lambda k: f"{k * step:02x}-{k * step + step - 1:02x}"))
        yield from rules("bytes", brackets(lambda k: f"{k:02x}-{k + 4 * step:02x}"))
    yield from rules("bytes", brackets(lambda k: f"{k:02x}-{255 - k:02x}"), brackets(lambda k: f"{31 - k:02x}-{224 + k:02x}"))
    yield from rules("bytes", brackets(lambda k: f"{2 * k:02x}-{2 * k + 65:02x}"), brackets(lambda k: f"{62 - 2 * k:02x}-{192 + 2 * k:02x}"))
    yield from rules("bytes/fold", brackets(lambda k: f"{0x41 + k:02x}"), brackets(lambda k: f"{0x61 + k:02x}"))
    shapes = [
        lambda k: (k * 2048, k * 2048 + 2047),  # one beside the other
        lambda k: (k * 2048, k * 2048),
        lambda k: (k, 65535 - k),  # nested
        lambda k: (31 - k, 65504 + k),
        lambda k: (1 + 900 * k, 30000 + 1100 * k),  # each end another stop
        lambda k: (65504 + k, 65535),
        lambda k: (0, k),
        lambda k: (0, 65535),
    ]
    for cell, shape in itertools.product(("23", "00", "f7", "2.", ".3", ".."), shapes):
        atoms = ["%s:%04x-%04x" % (cell, *shape(k)) for k in range(32)]
        yield from rules("events", "".join(f"[{atom}]" for atom in atoms), most=3 if "." in cell else 8)
        yield from lists("events", atoms, asked=(0, 2048, 30000))
    yield from rules("events", brackets(lambda k: f"{k % 16:x}{k // 4}:{100 * k:04x}-{50000 - 100 * k:04x}"))
    yield from rules("events", brackets(lambda k: f"{k % 16:x}.:{k:04x}-{40000 - k:04x}"), most=3)
    yield from rules("events", brackets(lambda k: f".{k % 8}:{k:04x}-{2 * k:04x}"), most=3)


def cell_atoms(codes, stations):
    """Atoms that tell codes and stations apart, one of each more than there are atoms."""
    return [f"{code:x}.:0000-ffff" for code in range(codes)] + [f".{station}:0000-ffff" for station in range(stations)]


def class_count_cases():
    """Question 13: rules of events with 255 classes, with 256, and with many more."""
    fine = cell_atoms(14, 7) + ["..:8000-ffff"]  # 15 x 8 cells, each in two halves: 240
    fine += [f"{code:x}0:7000-8fff" for code in range(7)]  # two more each: 254
    last_of_255 = ["e7:8000-8fff"]
    for atoms in (fine, fine + last_of_255, fine + ["e7:7fff-8fff"], fine + ["f7:ffff-ffff"], fine + ["00:0000-0000"], fine + ["0.:1000-1000"],
                  fine + last_of_255 + ["f7:ffff-ffff"], fine + last_of_255 + ["f7:0000-0000"], ["f7:ffff-ffff"] + fine + last_of_255,
                  ["00:0000-0000"] + fine + last_of_255, fine + last_of_255 + last_of_255, fine[::-1] + last_of_255,
                  cell_atoms(15, 7) + ["..:8000-ffff"],  # 256
                  cell_atoms(16, 8) + ["..:8000-ffff"], cell_atoms(16, 8) + ["..:0000-ffff"], cell_atoms(16, 8) + ["f7:0001-ffff"],
                  cell_atoms(16, 8) + [f"..:{k}000-{k + 1}fff" for k in range(8)], cell_atoms(8, 7) + [f"..:{k}000-{k + 1}fff" for k in range(8)],
                  [f".{k % 8}:{k:04x}-{60000 + k:04x}" for k in range(32)], [f"{k % 16:x}{k // 16 + 3}:{k:04x}-{60000 + k:04x}" for k in range(32)],
                  [f"{k % 16:x}.:{2 * k:04x}-{50000 + k:04x}" for k in range(24)] + [f".{k}:{k:04x}-{40000 - k:04x}" for k in range(8)]):
        for layers in ("events", "events/76543210"):
            yield from lists(layers, atoms, asked=(0x0000, 0x7FFF, 0x8FFF))
    yield from lists("events", fine + last_of_255 + ["f7:ffff-fffe"])
    yield from lists("events", fine + last_of_255 + ["f8:ffff-ffff"])
    yield from lists("events", (fine + last_of_255) * 2, 33)
    yield from rules("events", "".join(f"[{atom}]" for atom in fine + last_of_255), most=1)
    yield from rules("events", "".join(f"[{atom}]" for atom in fine + ["e7:7fff-8fff"]), most=3)


def fold_cases():
    """The fold layer over what is cut from rules about letters, and about what stands beside them."""
    texts = ["0", "[41]", "[61]", "[41][61]", "[61][41]", "[41-5a]", "[61-7a]", "[41-5a][61-7a]", "[61-7a][41-5a]", "[40]", "[5b]", "[60]", "[7b]", "[40-5b]",
             "[60-7b]", "[5a]", "[7a]", "[5a-61]", "[40-41]", "[7a-7b]", "[c4]", "[e4]", "[c4-d6]", "[00-ff]", "[00-60]", "[61-ff]", "[7b-ff]", "[80-ff]",
             "[00]", "[ff]", "[20][61]", "[61][20]", "[62][61]", "[6d-7a][61-6c]", "[41][42][43]", "[61][42][63][44]", "[30-39][61-66][41-46]",
             "[61-70][68-7a][41-48]"]
    yield from rules("bytes/fold", *texts)
    yield from rules("bytes/fold", "[5a-41]", "[4G]", "[61][]", "[zz]|[61]")
    few = (0x00, 0x40, 0x41, 0x5A, 0x5B, 0x61, 0x7A, 0x7B)
    yield from rules("bytes/fold/fold", *texts[:8], "[40-5b]", "[c4]", "[61][42][63][44]", "[5a-41]", asked=few)
    yield from rules("bytes/fold/fold", "[6d-7a][61-6c]")
    yield Cutting("bytes/fold", "new", "all", b"")
    yield Cutting("bytes/fold/fold", "new", few, b"")


ORDERS = ["01234567", "10234567", "12345670", "70123456", "76543210", "20413756", "31527064", "01234576"]


def station_cases():
    """The station layer: alone, and one over another."""
    stations = "".join(f"[.{k}:0000-ffff]" for k in range(8))
    texts = [stations, "[23:07d1-ffff]", "[00:0000-0000]", "[.0:0000-ffff][.7:0000-ffff]", "[2.:07d1-ffff]", "[21:0100-01ff][22:0180-02ff]", "[..:0000-0fff]",
             "[f7:ffff-ffff]", "0", "[24:07d1-07d0]", "[28:0000-ffff]", "[.1:0000-00ff][.2:0080-0180][.1:0100-ffff]"]
    for order in ORDERS:
        yield from rules(f"events/{order}", *texts, most=4)
    for lower, upper in itertools.permutations(ORDERS[1:7], 2):
        yield from rules(f"events/{lower}/{upper}", stations, "[23:07d1-ffff]", texts[5], asked=(0x07D1, 0x0190))
    for layers in ("events/12345670", "events/12345670/20413756"):
        yield Cutting(layers, "new", (0, 65535), b"")
        yield from rules(layers, "[.6:0100-0200][.7:0180-0280][2.:0190-0300]", "[24:07d1-07d0]")


def every_letter_cases():
    """All events, asked one after the other."""
    yield from rules("events", "[23:07d1-ffff]", "[2.:0000-0010][f7:fffe-ffff]", asked="all")
    yield from rules("events/31527064", "[23:07d1-ffff][a0:0005-0005][0.:ffff-ffff]", asked="all")


def order_cases():
    """Orders good and bad: each entry too great, each entry a repeat of each earlier one, and both."""
    good = tuple(range(8))
    yield Order("new")
    yield from (Order(tuple(map(int, order))) for order in ORDERS)
    yield from (Order(good[k:] + good[:k]) for k in range(8))
    for place in range(8):
        for base in (good, good[::-1], (2, 0, 4, 1, 3, 7, 5, 6)):
            for entry in (8, 9, 10, 16, 128, 255):
                yield Order(base[:place] + (entry,) + base[place + 1:])
            for earlier in range(place):
                yield Order(base[:place] + (base[earlier],) + base[place + 1:])
            yield Order(base[:place] + (8,) * (8 - place))
            yield Order(base[:place] + (base[0],) * (8 - place))
            yield Order((255,) * place + base[place:])
    yield from (Order(entries) for entries in ((0,) * 8, (7,) * 8, (0, 1) * 4, (7, 7, 8, 0, 0, 0, 0, 0), (0, 8, 0, 1, 2, 3, 4, 5), (0, 0, 8, 1, 2, 3, 4, 5)))
    rng = random.Random(14)
    for _ in range(60):
        entries = sorted(range(8), key=lambda _: rng.random())
        for _ in range(int(rng.random() * 3)):
            entries[int(rng.random() * 8)] = int(rng.random() * 10)
        yield Order(tuple(entries))


def event_cases():
    for code in (0, 1, 7, 8, 9, 14, 15, 16, 17, 31, 32, 128, 255):
        for station in (0, 1, 6, 7, 8, 9, 15, 16, 128, 255):
            for pressure in (0, 2001, 65535):
                yield Making(code, station, pressure)
    yield from (Making(code, code % 8, 4096 * code + 15 - code) for code in range(16))


def chosen(rng, items):
    return items[int(rng.random() * len(items))]


def random_range(rng, most):
    """First and last, often at the edge or close together, sometimes the wrong way round."""
    near = [0, 1, most - 1, most, most // 2, most // 2 + 1]
    first = chosen(rng, near) if rng.random() < 0.3 else int(rng.random() * (most + 1))
    last = chosen(rng, near) if rng.random() < 0.3 else min(most, first + int(rng.random() ** 3 * (most + 1)))
    return (first, last) if first <= last or rng.random() < 0.03 else (last, first)


def random_atom(rng, kind):
    if kind == "bytes":
        first, last = random_range(rng, 255)
        text = f"{first:02x}" if rng.random() < 0.3 else f"{first:02x}-{last:02x}"
    else:
        cell = chosen(rng, "0123456789abcdef..22") + chosen(rng, "01234567..33")
        text = "%s:%04x-%04x" % (cell, *random_range(rng, chosen(rng, [65535, 65535, 300])))
    text = bytearray(text.encode())
    if rng.random() < 0.01:
        text[int(rng.random() * len(text))] = chosen(rng, b"0af9.:-gA ")
    return bytes(text)


def random_layers(rng, kind):
    if rng.random() < 0.5:
        return kind
    if kind == "bytes":
        return "bytes/fold" if rng.random() < 0.97 else "bytes/fold/fold"
    orders = ["".join(sorted("01234567", key=lambda _: rng.random())) for _ in range(1 if rng.random() < 0.7 else 2)]
    return "/".join([kind, *orders])


def random_asked(rng, layers, text):
    if layers.startswith("bytes"):
        return "all" if not layers.endswith("fold/fold") else tuple(sorted({int(rng.random() * 256) for _ in range(8)}))
    return tuple(sorted({chosen(rng, edges(text)) for _ in range(3)} | {int(rng.random() * 65536)}))


def random_cases(rng, times):
    for _ in range(times):
        kind = "bytes" if rng.random() < 0.4 else "events"
        atoms = [random_atom(rng, kind) for _ in range(int(rng.random() ** 2 * 34))]
        layers = random_layers(rng, kind)
        if rng.random() < 0.5 and 0 < len(set(atoms)) <= 32:
            text = b"".join(b"[%s]" % atom for atom in atoms)
            yield Cutting(layers, "read", random_asked(rng, layers, text), text)
            continue
        text, entries = pieces(atoms)
        count = len(entries) if rng.random() < 0.8 else chosen(rng, [0, 1, len(entries) // 2, len(entries) + 1, MOST])
        if entries and rng.random() < 0.1:
            entries[int(rng.random() * len(entries))] = (int(rng.random() * (len(text) + 2)), chosen(rng, [0, 2, 5, 12, 13, MOST]))
        yield Cutting(layers, (count, tuple(entries)), random_asked(rng, layers, text), text)


GROUPS = (written_cases, form_cases, entry_cases, question_cases, range_cases, many_cases, class_count_cases, fold_cases, station_cases, every_letter_cases,
          order_cases, event_cases, lambda: random_cases(random.Random(4), 400))


def write_cases():
    cases = list(dict.fromkeys(case for group in GROUPS for case in group()))
    crate = Path(__file__).resolve().parent.parent / "crates" / "cuts"
    (crate / "stdin").write_text("".join(f"{case.line()}\n" for case in cases))
    (crate / "stdout").write_text("".join(f"{case.outcome()}\n" for case in cases))


# Holding the model against listings, against a walk, and against the program


def walked(alphabet):
    """The class numbers and the samples as they are first met in a walk over every event."""
    first_met = {}
    for event, number in asked_about(alphabet, "all"):
        first_met.setdefault(number, event)
    return list(first_met), list(first_met.values())


def validate(folder):
    counts = {}
    for rule in sorted(Path(folder).glob("*.rule")):
        listed = re.match(r"rows \d+ classes (\d+)\n", rule.with_suffix(".out").read_text())
        if listed:
            counts[rule] = int(listed[1])
    wrong = [rule.name for rule, count in counts.items() if len(cut_rule("bytes", rule.read_bytes()).sets) != count]
    print(f"{len(counts) - len(wrong)} of {len(counts)} class counts agree", *wrong, sep="\n")
    rng = random.Random(13)
    some = [case for case in random_cases(rng, 60) if case.kind() == "events" and case.atoms == "read" and len(case.text) < 100][:6]
    some += [*range_cases()][-8:-1:3] + [case for case in class_count_cases() if case.atoms == "read"][:1]
    good = tried = 0
    for case in some:
        try:
            alphabet = cut_rule("events", case.text)
        except Refused:
            continue
        tried += 1
        good += (list(range(len(alphabet.sets))), alphabet.samples) == walked(alphabet)
    print(f"{good} of {tried} alphabets of events agree with a walk over every event")
    return not wrong and counts and good == tried > 0


def compare(program, times, seed):
    cases = [*random_cases(random.Random(seed), times)]
    given = "".join(f"{case.line()}\n" for case in cases)
    done = subprocess.run([program], input=given.encode(), stdout=subprocess.PIPE)
    found = done.stdout.decode().splitlines()
    found += ["nothing"] * (len(cases) - len(found))
    wrong = refused = 0
    for case, line in zip(cases, found):
        wanted = case.outcome()
        refused += wanted.startswith("REFUSED")
        if line != wanted:
            wrong += 1
            if wrong <= 10:
                print(f"{case.line()}\n  found  {line}\n  wanted {wanted}")
    print(f"{len(cases)} cases, {refused} of them refused, {wrong} wrong, status {done.returncode}")
    return wrong == done.returncode == 0 and len(found) == len(cases)


def main(words):
    if len(words) == 2 and words[0] == "--validate":
        return 0 if validate(words[1]) else 1
    if 2 <= len(words) <= 4 and words[0] == "--compare":
        return 0 if compare(words[1], *map(int, words[2:] + ["3000", "9"][len(words) - 2:])) else 1
    if words:
        print(__doc__, file=sys.stderr)
        return 1
    write_cases()
    return 0


if __name__ == "__main__":
    sys.exit(main(sys.argv[1:]))
