#!/usr/bin/env python3
"""Runs the built program `unlisting` on sheets and on texts that are none, whole and in pieces, and holds what it writes against tests/reference.py; and
that it undoes `listing`: one figure.

    python3 tests/unlisting.py

A text that is no sheet writes nothing to standard output. Its refusal stands on standard error, so that bin/run ends with 1.
"""
import random
import sys

import listing
from fields import field_of, full_field, good_field, ones
from papers import PAPERS
from pieces import in_pieces, told
from rebuilds import WORKED
from reference import LONGEST_FIELD, LONGEST_TEXT, rebuild, sheet
from sheets import widest

MOST = LONGEST_TEXT + 1  # octets that the program looks at


def inputs():
    """Categories with their fields: without items, full and drawn."""
    rng = random.Random(1)
    for cat in PAPERS:
        fields = [field_of({}), full_field(cat, ones), full_field(cat, widest), *(good_field(cat, rng) for _ in range(5))]
        yield from (bytes([cat]) + field for field in fields)


def texts():
    """(why, text) of each."""
    yield from (("worked", text) for text, _, _ in WORKED)
    for given in inputs():
        text = sheet(given).encode()
        yield "a sheet", text
        yield "a sheet without its last octet", text[:-1]
        yield "a sheet and an octet more", text + b"\n"
        yield "its last line wrong", text.replace(b"end=ok", b"end=no")
    for octets in ("", "30", "30 02 80", "00 02 00", "15 03 00 00"):
        yield "the sheet of a refusal", sheet(bytes.fromhex(octets)).encode()
    for count in (LONGEST_TEXT - 1, LONGEST_TEXT, LONGEST_TEXT + 1, 100000):
        yield "a sheet and lines behind it", sheet(b"\x30" + full_field(48, widest)).encode().ljust(count, b"\n")
        yield "a line without an end", b"cat=48\nlen=2\nitems=".ljust(count, b"x")


def runs():
    """(why, pieces) of each run of the program."""
    yield from ((why, [text]) for why, text in texts())
    for given in inputs():
        yield "pieces of 100", in_pieces(sheet(given).encode(), 100)
    yield "pieces of 1", in_pieces(WORKED[0][0], 1)
    yield "the longest text in pieces", in_pieces(b"\n" * LONGEST_TEXT, 4096)
    yield "too long a text in pieces", in_pieces(b"\n" * (LONGEST_TEXT + 1), 4095)


def wanted(text):
    """What is written, what is said, and the exit status."""
    kind, *answer = rebuild(text, LONGEST_FIELD)
    if kind == "ok":
        return bytes([answer[0]]) + answer[1], b"", 0
    return b"", b"refused=%d\nline=%d\n" % tuple(answer), 1


def undone():
    """(why, what the two programs one behind the other give, the input) of each sheet that listing writes."""
    for given in inputs():
        listed, _, _ = told("listing", [given], listing.MOST)
        yield "listing and unlisting", told("unlisting", [listed], MOST), (given, b"", 0)


def main():
    made = [(why, told("unlisting", pieces, MOST), wanted(b"".join(pieces))) for why, pieces in runs()]
    made += undone()
    wrong = [row for row in made if row[1] != row[2]]
    for why, given, right in wrong:
        print(why, "gives", given, "and should", right)
    print(f"{len(made)} runs, {len(wrong)} differences")
    sys.exit(len(wrong) > 0)


if __name__ == "__main__":
    main()
