#!/usr/bin/env python3
"""Makes what `rt` sends to the program `refdesk` and what it has to answer: crates/refdesk/stdin and crates/refdesk/stdout, the same at every run.

    python3 tests/vectors.py          says which of the two is not as it is made here
    python3 tests/vectors.py write    makes both

The requests are those of tests/reads.py, records.py, edits.py, copies.py, sheets.py, orders.py and rebuilds.py, and the lines of tests/lines.py that are
none; the answers are those of tests/refdesk.py. Nothing here comes from crates/.
"""
import random
import sys
from collections import Counter
from pathlib import Path

import copies
import edits
import orders
import reads
import rebuilds
import records
import sheets
from lines import EXAMPLES, WORKED, WRONG, at_the_limits, either_case, noise
from refdesk import answer, answers, line_of

CRATE = Path(__file__).resolve().parent.parent / "crates" / "refdesk"
SOURCES = (reads, records, edits, copies, sheets, orders, rebuilds)
FIELD = {*range(1, 10), "ok"}
DUE = {  # the answers that each form of request can give: all have to be there
    b"read": FIELD,
    b"write": {1, 10, 11, "ok"},
    b"sheet": FIELD,
    b"view": FIELD | {12, 15},
    b"choose": FIELD | {12, 15},
    b"remove": FIELD | {11, 12, 13},
    b"replace": FIELD | {11, 12, 13, 14},
    b"copy": FIELD | {11},
    b"rebuild": {11, 18, "ok"},
}


def requests():
    """The requests of all sources as lines."""
    for source in SOURCES:
        yield from map(line_of, dict.fromkeys(source.requests()))


def lines():
    rng = random.Random(7021048)
    yield from (line for line, _ in WORKED)
    yield from (either_case(line, rng) if rng.randrange(2) else line for line in requests())
    for kind in WRONG:
        yield b""
        yield from (line for _, line in kind(rng))
    yield from at_the_limits(rng)
    yield from noise(rng)


def counted(made):
    """How often each form gives each answer, and how often a line is no request."""
    counts = Counter()
    for line in made:
        first, *rest = answer(line).split(" ")
        counts[first if first == "bad-request" else line.split(b" ")[0], int(rest[0]) if first == "refused" else first] += 1
    return counts


def covered(counts):
    """Each source reaches what it says; worked lines; each way of being no request gives its number; each form has each answer that it can give."""
    for source in SOURCES:
        source.covered()
    assert all(answer(line) == wanted for line, wanted in WORKED)
    assert all(answer(line).split(" ")[0] == "ok" for line in EXAMPLES)
    rng = random.Random(1)
    for kind in WRONG:
        differing = [(number, line) for number, line in kind(rng) if answer(line) != f"bad-request {number}"]
        assert not differing, differing
    assert not any(answer(line).startswith("bad-request") for line in at_the_limits(rng))
    for name, wanted in DUE.items():
        assert {given for form, given in counts if form == name} == wanted, (name, counts)


def main():
    made = [line.replace(b"\n", b"") for line in lines()]
    counts = counted(made)
    covered(counts)
    asked = b"\n".join(made + [EXAMPLES[3]])  # the last line has no end
    files = {CRATE / "stdin": asked, CRATE / "stdout": answers(asked).encode()}
    if sys.argv[1:] == ["write"]:
        for path, text in files.items():
            path.write_bytes(text)
    for name in DUE:
        refused = " ".join(f"{no}:{counts[name, no]}" for no in range(1, 19) if counts[name, no])
        print(f"{name.decode()}: {counts[name, 'ok']} accepted; refused by {refused}")
    print(f"{len(made) + 1} lines, {counts['bad-request', 'bad-request']} of them no request, {' and '.join(f'{len(text)} octets' for text in files.values())}")
    differing = [path.name for path, text in files.items() if path.read_bytes() != text]
    if differing:
        sys.exit(f"crates/refdesk: {' and '.join(differing)} not as made here: python3 tests/vectors.py write")


if __name__ == "__main__":
    main()
