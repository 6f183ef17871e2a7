#!/usr/bin/env python3
"""Holds docs/PROTOCOL.md and README.md to what is so: their sessions and tables against tests/refdesk.py, tests/papers.py and include/refdesk.h, and
their commands against the programs; and the enums of include/refdesk.h to tests/papers.py.

A block of sh or python is run from the repository's folder, and has to print the block of text behind it. Of the blocks that send lines to refdesk,
and of the rows of a table 'line | answer', the answers have to be those of tests/refdesk.py, too. What stands beside a request in Python has to send
that request.
"""
import re
import subprocess
import sys
from pathlib import Path

from papers import PAPERS
from refdesk import FORMS, answer, answers, values_of
from reference import keys
from started import started

ROOT = Path(__file__).resolve().parent.parent
PAGE = (ROOT / "docs" / "PROTOCOL.md").read_text()
README = (ROOT / "README.md").read_text()
HEADER = (ROOT / "include" / "refdesk.h").read_text()
REQUESTS = "request | answer | in Python"
SHELLS = {"sh": ["sh", "-euc"], "python": [sys.executable, "-c"]}
WORDS = {"PARTS": 8, "NUMBERS": 77}  # names that stand for several words
FIELD, OTHER, TEXT = bytes.fromhex("062806010000"), bytes.fromhex("0508020000"), b"cat=48\nlen=2\nitems=\nend=ok\n"
SENT = {  # what the words of a request are where the Python beside it is tried
    "CAT": [48], "FIELD": [FIELD], "BASE": [FIELD], "CORRECTION": [OTHER], "ITEM": [5], "LIST": [0x18], "WITHHELD": [0x80], "NEW": [b"\2\0\0"], "TEXT": [TEXT],
    "ROOM": [60], "ITEMS": [8], "PARTS": [0] * 8, "NUMBERS": [0] * 76 + [131072],
}
TRIED = f"""
import sys
sys.path.insert(0, "python")
from paltinoma import Desk, slot
class Heard(Desk):
    def _answer(self, line):
        print(line)
        return super()._answer(line)
cat, field, base, correction, new, text, room = 48, {FIELD}, {FIELD}, {OTHER}, {SENT["NEW"][0]}, {TEXT}, 60
with Desk() as desk:
    record = desk.read(cat, correction)
with Heard() as desk:
    """


def examples(page):
    """(language, block, text behind it) of each block of sh or python; every one has such a text."""
    found = re.findall(r"^```(sh|python)\n(.*?)^```\n\n```\n(.*?)^```\n", page, re.M | re.S)
    same("blocks with a text behind them", len(found), len(re.findall(r"^```\w", page, re.M)))
    return found


def table(page, head):
    """The rows below each such head, as lists of cells without their marks of code."""
    for found in re.findall(rf"^\| {re.escape(head)} \|\n\|[-|]+\|\n((?:\|.*\|\n)+)", page, re.M):
        for row in found.splitlines():
            yield [cell.strip().strip("`") for cell in row.strip("|").split(" | ")]


def same(what, got, wanted):
    if got != wanted:
        sys.exit(f"{what}:\n{got}\nand not\n{wanted}")
    return 1


def sessions():
    """The lines that blocks send to refdesk, and the table of lines, against tests/refdesk.py; the table's lines are asked of the program, too."""
    count = 0
    for _, block, text in examples(PAGE) + examples(README):
        for asked in re.findall(r"^bin/run refdesk <<'END'\n(.*?)^END\n", block, re.M | re.S):
            count += same("session", answers(asked.encode()), text)
    rows = list(table(PAGE, "line | answer"))
    for line, wanted in rows:
        count += same(line, answer(line.encode()), wanted)
    with started("refdesk", stdin=subprocess.PIPE, stdout=subprocess.PIPE) as desk:
        told, _ = desk.communicate("".join(line + "\n" for line, _ in rows).encode())
    return count + same("the table of lines", told.decode(), "".join(wanted + "\n" for _, wanted in rows))


def commands():
    """Each block is run, and prints what stands behind it."""
    count = 0
    for language, block, text in examples(PAGE) + examples(README):
        ended = subprocess.run(SHELLS[language] + [block], cwd=ROOT, stdin=subprocess.DEVNULL, stdout=subprocess.PIPE, timeout=600, check=True)
        count += same(block, ended.stdout.decode(), text)
    return count


def in_python():
    """What is written beside each request sends it, with the words that the request has."""
    count = 0
    for form, _, written in table(PAGE, REQUESTS):
        ended = subprocess.run([sys.executable, "-c", TRIED + written], cwd=ROOT, stdout=subprocess.PIPE, timeout=60, check=True)
        name, *words = ended.stdout.rstrip(b"\n").split(b" ")
        wanted = [value for word in form.split()[1:] for value in SENT[word]]
        count += same(written, (name.decode(), values_of(FORMS[name][0], words)), (form.split()[0], wanted))
    return count


def in_c(cat):
    """What C calls the numbers of a category, each with its slot: by its key, and a presence flag by HAS and its subfield."""
    for item in PAPERS[cat]:
        flags = (f"HAS.{item[0]}.{sub}" for sub, _, _ in item[2])
        yield from (re.sub(r"\W", "_", f"{cat:03}.{key or next(flags)}").upper() for key in keys(item))


def enums():
    """The enums of the header, every name and number, against the papers."""
    items = [(f"{cat:03}_{item[0]}".upper(), str(i)) for cat, paper in PAPERS.items() for i, item in enumerate(paper, 1)]
    slots = [(name, str(slot)) for cat in PAPERS for slot, name in enumerate(in_c(cat))]
    count = same("items in C", re.findall(r"\bREF_ITEM_(\w+) = (\d+)", HEADER), items)
    return count + same("slots in C", re.findall(r"\bREF_(\d\d\d_\w+) = (\d+)", HEADER), slots)


def tables():
    """Requests, items and refusals of the page, against the forms, the papers and the header."""
    told = {row[0].split()[0]: sum(WORDS.get(word, 1) for word in row[0].split()[1:]) for row in table(PAGE, REQUESTS)}
    count = same("requests", told, {name.decode(): len(kinds) for name, (kinds, _) in FORMS.items()})
    items = [row[:3] for row in table(PAGE, "item | name | list | what it is")]
    count += same("items", items, [[str(i + 1), item[0], f"{0x80 >> i:02X}"] for paper in PAPERS.values() for i, item in enumerate(paper)])
    refusals = [row[:2] for row in table(PAGE, "no. | given when | what to do")]
    return count + same("refusals", refusals, [list(found) for found in re.findall(r"REF_\w+ = ([1-9]\d*),?\s+/\* (.*?) \*/", HEADER)])


def main():
    print(f"protocol: {tables() + enums() + in_python() + sessions() + commands()} passed, 0 failed")


if __name__ == "__main__":
    main()
