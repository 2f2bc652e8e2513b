#!/usr/bin/env python3
"""Counts the places in src/ of each point of docs/DESIGN-PASS.md, a line for each pattern.

tools/places.py [-l] [COMMIT]    -l lists the places too; without COMMIT the working tree is read
"""
import re
import subprocess
import sys

NAME = r"[a-z_.()]+"

# label, pattern, pattern of what is no place
POINTS = [
    ("1  Option, Result and enums", [
        ("1a a token compared by its number", r"sign_of\([a-z.]+\) *(==|!=)", None),
        ("1b a count or a flag beside an answer", r"-> \((Option|Result|u64, bool)", None),
        ("1c a number out of an enum, or in place of one", r"fn [a-z_]+\(.*\) -> u8", None),
        ("1d a number into an enum by hand (places, not lines)", r"match [a-z]+ \{\n +[0-9] => (Ok\()?(NodeKind|Mark|Kind)::", None),
        ("1e a flag in a struct", r"^ +(pub )?[a-z_]+: bool,", None),
        ("1f a match that only wraps an error or hands it on", r"^ +Err\([a-z_]+\) => (return )?Err\([A-Z][A-Za-z:]+\(.*|^ +Err\(_\) => Err.*", None),
        ("1g a place or a count where there is none", r"fn (closing|number)\(.*-> usize", None),
    ]),
    ("3  Loops", [
        ("3a while", r"^ +while .*", None),
        ("3b for over a range of numbers", r"for [a-z_]+ in \(?[a-z0-9_.]+\.\..*", None),
        ("3c a count or a place moved on by hand", r"^ +\*?[a-z_]+ [-+]= 1;|^ +\*?([a-z_]+) = \*?[a-z_]+\.saturating_add\(1\);", None),
    ]),
    ("4  Equality, order, copying, conversion, printing", [
        ("4a equality by hand", r"^ *fn same\(.*", None),
        ("4b a node or an entry written out", r"^(pub |pub\(crate\) )?const [A-Z_]+: (Node|Entry) =|\[Entry \{", None),
        ("4c the smaller or the larger of two by hand", rf"if (?P<a>{NAME}) < (?P<b>[a-zA-Z_.()]+( - [a-z]+)?) \{{\s+((?P=a)|(?P=b))\s+\}} else \{{", None),
        ("4d copying item by item", r"^ +[a-z_]+\[[a-z_]+\] = [a-z_.]+\[[a-z_]+\];|\*old = \*byte", None),
        ("4e a word or a test of an enum by hand", r"fn (layer_word|kind_word|is_star|is_blank)\(.*", None),
    ]),
    ("5  Facts and parameters that go together", [
        ("5a the caller's memory is kept", r"ensures (lent )?\{ .*ghost_name.*", None),
        ("5b bytes and layout", r"bytes: &\[u8\], layout: Layout", None),
        ("5c Laid", r"requires (laid )?\{ Laid ", None),
        ("5d Closed, Coded, or marks as many as the rows", r"requires ([a-z]+ )?\{ (Closed|Coded|MarksOf|length marks)", None),
        ("5e the lexeme stands in the text", r"requires (stands )?\{ Stands (self\.)?reader", None),
        ("5f a pool and a join", r"pool: &(mut )?Pool,\s+join: Join", None),
        ("5g nodes and the number of one of them", r"nodes: &\[Node\], number: usize|number: usize, nodes: &\[Node\]", None),
    ]),
    ("6  Buffers", [
        ("6a a buffer in a struct with its length beside", r"(items|entries|nodes): [^\n]*\n +(pub )?count: usize,|count: usize,\n +pub nodes: Vec", None),
    ]),
    ("7  Switches", [
        ("7a which pass it is", r"Pass::[A-Z][a-z]+", None),
    ]),
]


def files(commit, folder, ending):
    if commit:
        names = subprocess.run(["git", "ls-tree", "-r", "--name-only", commit], capture_output=True, text=True, check=True).stdout.split()
    else:
        names = subprocess.run(["git", "ls-files", "-co", "--exclude-standard"], capture_output=True, text=True, check=True).stdout.split()
    for name in sorted(set(names)):
        if name.startswith("crates/") and f"/{folder}/" in name and name.endswith(ending):
            if commit:
                yield name, subprocess.run(["git", "show", f"{commit}:{name}"], capture_output=True, text=True, check=True).stdout
            else:
                try:
                    yield name, open(name).read()
                except FileNotFoundError:
                    pass


def main():
    words = sys.argv[1:]
    listing = "-l" in words
    commit = next((word for word in words if word != "-l"), None)
    source = list(files(commit, "src", ".rt"))
    for point, patterns in POINTS:
        print(point)
        for label, pattern, _ in patterns:
            found = []
            for name, text in source:
                for match in re.finditer(pattern, text, re.M):
                    line = text.count("\n", 0, match.start()) + 1
                    start = text.rfind("\n", 0, match.start()) + 1
                    if text[start:].lstrip().startswith("//"):
                        continue
                    found.append(f"{name}:{line}: {match.group(0).strip().splitlines()[0]}")
            print(f"{len(found):5}  {label}")
            if listing:
                for place in found:
                    print(f"         {place}")
    print("8  Proofs")
    lines = sum(text.count("\n") for _, text in files(commit, "proofs", ".antt"))
    print(f"{lines:5}  lines below proofs/")


main()
