#!/usr/bin/env python3
"""Runs the program as a technician does, and holds what it prints and its status against the pages and a model. The gate
runs a program once only, and asks for status 0, so this is run by hand, after `rt run` or the gate has left the program
as crates/wafulexi/out/wafulexi.

    program.py      run all, and tell what differs:
                    - every example of README.md and docs/ that begins with `$`,
                    - words of the command line, good and wrong,
                    - standard output that cannot be written,
                    - `nodes` on every text of crates/texts/stdin, against tests/reading.py
                    - `classes` on each of them, over bytes and over events, and on random rules, with a layer and
                      without, against tests/cutting.py
"""
import random
import re
import subprocess
import sys
import tempfile
from pathlib import Path

import cutting
import reading

ROOT = Path(__file__).resolve().parent.parent
PROGRAM = ROOT / "crates" / "wafulexi" / "out" / "wafulexi"
PAGES = ["README.md", *sorted(page.relative_to(ROOT) for page in (ROOT / "docs").glob("*.md"))]
EXAMPLE = ROOT / "crates" / "wafulexi" / "data" / "example.step"
LISTED = """kind 1 rows 4 classes 4 text 17 length 64
[61][62]|[61][63]
0 6 1 2 1 1
1 4 1 1 1 1
2 6 1 1 3 3
3 7 1 1 1 1
"""
BYTE_CLASSES = """classes 2
0 00 00000000
1 61 00000001
"""
FOLD_CLASSES = """classes 2
0 00 00000000
1 41 00000001
"""
EVENT_CLASSES = """classes 2
0 0 0 0000 00000000
1 2 3 07d1 00000001
"""
USAGE = """usage: wafulexi COMMAND [WORD..]

  wafulexi inspect [FILE]   check a step file; print its header, its text and its rows
  wafulexi nodes [FILE]     read a rule text; print its nodes and its atoms
  wafulexi classes [--events] [--fold] [--stations DIGITS] [FILE]
                            read a rule text and cut its atoms; print the classes of
                            letters that they make. The letters are bytes
      --events              the letters are bench events
      --fold                of bytes: A to Z are asked about as a to z
      --stations DIGITS     of events: eight DIGITS tell for each station the one that
                            is asked about in its place, as 10234567
  wafulexi help             print this

Without FILE, or where FILE is -, standard input is read.
The status is 0, or 1 where standard error says why.
"""


def run(words, given=b""):
    """Status, standard output and standard error."""
    done = subprocess.run([PROGRAM, *words], input=given, capture_output=True, cwd=ROOT)
    return done.returncode, done.stdout.decode(), done.stderr.decode()


def page_examples():
    """Each command line of the pages, and the lines under it."""
    for page in PAGES:
        text = (ROOT / page).read_text()
        for command, printed in re.findall(r"^    \$ (.*)\n((?:    (?!\$ ).*\n)*)", text, re.M):
            yield page, command, re.sub(r"^    ", "", printed, flags=re.M)


def check_pages():
    for page, command, printed in page_examples():
        command = re.sub(r"(crates/wafulexi/out/)?wafulexi(?= )", str(PROGRAM), command)
        done = subprocess.run(command, shell=True, stdout=subprocess.PIPE, stderr=subprocess.STDOUT, text=True, cwd=ROOT)
        status = 1 if printed.startswith("refused ") else 0
        yield f"{page}: {command}", (done.returncode, done.stdout), (status, printed)


def check_words():
    step_file = EXAMPLE.read_bytes()
    refused = "refused 30 at 0 (file): "
    event_rule = b"[23:07d1-ffff]"
    with tempfile.TemporaryDirectory() as folder:
        rule = Path(folder) / "rule"
        rule.write_bytes(b"[61]*\n")
        nodes = "\n".join(reading.shown(b"[61]*\n")) + "\n"
        for words, given, status, out, err in [
            ([], b"", 1, "", "no command is given\n" + USAGE),
            (["help"], b"", 0, USAGE, ""),
            (["--help"], b"", 0, USAGE, ""),
            (["-h"], b"", 0, USAGE, ""),
            (["help", "me"], b"", 1, "", "one word too many: me\n" + USAGE),
            (["node"], b"", 1, "", "unknown command: node\n" + USAGE),
            (["-n"], b"", 1, "", "unknown option: -n\n" + USAGE),
            (["inspect"], step_file, 0, LISTED, ""),
            (["inspect", "-"], step_file, 0, LISTED, ""),
            (["inspect", EXAMPLE], b"", 0, LISTED, ""),
            (["inspect", EXAMPLE, "-"], b"", 1, "", "one word too many: -\n" + USAGE),
            (["inspect", "-x"], b"", 1, "", "unknown option: -x\n" + USAGE),
            (["inspect"], b"", 1, "", refused),
            (["inspect", folder], b"", 1, "", f"cannot read {folder}: "),
            (["nodes", "-"], b"[61]*\n", 0, nodes, ""),
            (["nodes", rule], b"", 0, nodes, ""),
            (["nodes", rule, rule], b"", 1, "", f"one word too many: {rule}\n" + USAGE),
            (["nodes", "--all"], b"", 1, "", "unknown option: --all\n" + USAGE),
            (["nodes", folder + "/none"], b"", 1, "", f"cannot read {folder}/none: "),
            (["classes"], b"[61]", 0, BYTE_CLASSES, ""),
            (["classes", rule], b"", 0, BYTE_CLASSES, ""),
            (["classes", rule, "--fold"], b"", 0, FOLD_CLASSES, ""),
            (["classes", "--fold", rule], b"", 0, FOLD_CLASSES, ""),
            (["classes", "--events", "-"], event_rule, 0, EVENT_CLASSES, ""),
            (["classes", "-", "--events"], event_rule, 0, EVENT_CLASSES, ""),
            (["classes", "--stations", "01234567", "--events"], event_rule, 0, EVENT_CLASSES, ""),
            (["classes", "--events", "-", "--stations", "01234567"], event_rule, 0, EVENT_CLASSES, ""),
            (["classes", "--events", "--stations", "10234568"], event_rule, 1, "", "refused 14 at 7 (alphabet): "),
            (["classes", "--events", "--stations", "98765432"], event_rule, 1, "", "refused 14 at 0 (alphabet): "),
            (["classes", "--events", "--stations", "10234563"], event_rule, 1, "", "refused 14 at 7 (alphabet): "),
            (["classes", "--events", "--stations", "88888888", rule], b"", 1, "", "refused 11 at 1 (alphabet): "),
            (["classes", "--stations", "1023456", "--events"], event_rule, 1, "", "not eight digits: 1023456\n" + USAGE),
            (["classes", "--stations", "102345670"], event_rule, 1, "", "not eight digits: 102345670\n" + USAGE),
            (["classes", "--stations", "1023456a"], event_rule, 1, "", "not eight digits: 1023456a\n" + USAGE),
            (["classes", "--stations", "--events"], event_rule, 1, "", "not eight digits: --events\n" + USAGE),
            (["classes", "--events", "--stations"], event_rule, 1, "", "a word has to follow: --stations\n" + USAGE),
            (["classes", "--stations", "01234567"], b"[61]", 1, "", "--stations is for events, not for bytes\n" + USAGE),
            (["classes", "--fold", "--stations", "01234567"], b"[61]", 1, "", "--stations is for events, not for bytes\n" + USAGE),
            (["classes", "--fold", "--events"], event_rule, 1, "", "--fold is for bytes, not for events\n" + USAGE),
            (["classes", "--fold", "--fold"], b"[61]", 1, "", "given twice: --fold\n" + USAGE),
            (["classes", "--events", "--events"], event_rule, 1, "", "given twice: --events\n" + USAGE),
            (["classes", "--stations", "01234567", "--stations", "01234567"], event_rule, 1, "", "given twice: --stations\n" + USAGE),
            (["classes", "--stations", "01234567", "--stations"], event_rule, 1, "", "given twice: --stations\n" + USAGE),
            (["classes", rule, "-"], b"", 1, "", "one word too many: -\n" + USAGE),
            (["classes", rule, "--folds"], b"", 1, "", "one word too many: --folds\n" + USAGE),
            (["classes", "--folds", rule], b"", 1, "", "unknown option: --folds\n" + USAGE),
            (["classes", folder + "/none"], b"", 1, "", f"cannot read {folder}/none: "),
        ]:
            found = run(words, given)
            cut = len(err) if err.endswith(": ") else None
            yield f"words {words}", (found[0], found[1], found[2][:cut]), (status, out, err)


def check_full():
    """Standard output that cannot be written."""
    for words in (["help"], ["inspect", EXAMPLE], ["nodes"], ["classes"]):
        with open("/dev/full", "wb") as full:
            done = subprocess.run([PROGRAM, *words], input=b".", stdout=full, stderr=subprocess.PIPE, cwd=ROOT)
        err = "cannot write standard output: "
        yield f"full {words}", (done.returncode, done.stderr.decode()[:len(err)]), (1, err)


def texts():
    for line in (ROOT / "crates" / "texts" / "stdin").read_text().splitlines():
        text = line.split()[2]
        yield b"" if text == "-" else bytes.fromhex(text)


def check_nodes():
    for text in texts():
        yield f"nodes {text!r}", told(*run(["nodes"], text)), "\n".join(reading.shown(text)) + "\n"


def check_classes():
    rules = [case for case in cutting.random_cases(random.Random(8), 2000) if case.atoms == "read"]
    cases = [(layers, text) for text in texts() for layers in ("bytes", "events")]
    cases += [(case.layers, case.text) for case in rules if case.layers.count("/") <= 1]
    for layers, text in cases:
        kind, *above = layers.split("/")
        options = ["--events"] if kind == "events" else []
        options += ["--fold"] if above == ["fold"] else ["--stations", *above] if above else []
        yield f"classes {options} {text!r}", told(*run(["classes", *options], text)), "\n".join(listed(kind, above, text)) + "\n"


def listed(kind, above, text):
    """The lines of `classes`; the first line of a refusal without its words."""
    got = reading.Reading(text, 4096, 32)
    if got.refusal:
        return reading.shown(text)
    try:
        alphabet = cutting.cut(kind, text, got.entries, len(got.entries))
    except cutting.Refused as refusal:
        first = f"refused {refusal.number} at {refusal.place}"
        return [first] + (reading.pointed(text, refusal.place) if refusal.number in (11, 12) else [])
    for layer in above:
        alphabet = cutting.Fold(alphabet) if layer == "fold" else cutting.Stations(alphabet, tuple(map(int, layer)))
    lines = [f"classes {len(alphabet.sets)}"]
    for number, (sample, answers) in enumerate(zip(alphabet.samples, alphabet.sets)):
        sample = f"{sample:02x}" if kind == "bytes" else "%x %x %04x" % sample
        lines.append(f"{number} {sample} {answers:08x}")
    return lines


def told(status, out, err):
    """What the program printed, where its status is right; a refusal as the model tells it, without its sentences."""
    if (status, err) == (0, ""):
        return out
    if (status, out) != (1, ""):
        return status, out, err
    return re.sub(r"^(refused \d+ at \d+) \(.*", r"\1", err)


def main():
    if not PROGRAM.exists():
        sys.exit(f"{PROGRAM} is not there: (cd crates/wafulexi && rt run -- help) makes it")
    wrong = count = 0
    for checks in (check_pages, check_words, check_full, check_nodes, check_classes):
        for name, found, wanted in checks():
            count += 1
            if found != wanted:
                wrong += 1
                print(f"{name}\n  found  {found!r}\n  wanted {wanted!r}")
    print(f"{count} runs, {wrong} wrong")
    return 1 if wrong else 0


if __name__ == "__main__":
    sys.exit(main())
