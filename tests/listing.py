#!/usr/bin/env python3
"""Runs the built program `listing` on inputs of many lengths, whole and in pieces, and holds each sheet against tests/reference.py: one figure.

    python3 tests/listing.py

`rt ci` gives the program 01's worked octets alone.
"""
import sys

from fields import field_of, full_field, ones
from papers import PAPERS
from pieces import in_pieces, told
from reference import sheet
from sheets import WORKED, widest

MOST = 256  # octets that the program looks at
LENGTHS = (0, 1, 2, 3, 7, 8, 38, 52, 53, 254, 255, 256, 257, 300)


def inputs():
    """(why, input) of each; every length, and what stands behind LEN and behind the first 256 octets."""
    yield "worked", WORKED
    yield "no octet", b""
    for cat in (*PAPERS, 0, 255):
        yield "a category alone", bytes([cat])
        yield "two octets", bytes([cat, 2])
        yield "no items", bytes([cat]) + field_of({})
        whole = bytes([cat]) + full_field(cat if cat in PAPERS else 48, widest)
        for count in LENGTHS:
            yield "cut, or octets behind LEN", whole[:count].ljust(count, b"\xFF")
            yield "the longest LEN", bytes([cat, 255]).ljust(count, b"\0")[:count]
    for cat in PAPERS:
        yield "more than a pipe holds", (bytes([cat]) + full_field(cat, ones)).ljust(100000, b"\x01")


def same_front():
    """Pairs of inputs with the same first 256 octets, which have one sheet; the reference is given what it does not look at too."""
    for cat in PAPERS:
        front = (bytes([cat]) + full_field(cat, widest)).ljust(256, b"\xEE")
        refused = bytes([cat, 255, 0]).ljust(256, b"\0")
        for given in (front, refused):
            yield from ((given, given + behind) for behind in (b"\0", b"\xFF" * 44, WORKED, given))


def runs():
    """(why, pieces) of each run of the program."""
    for why, given in inputs():
        yield why, [given]
    for cat in PAPERS:
        whole = (bytes([cat]) + full_field(cat, widest)).ljust(300, b"\xFF")
        for size in (1, 7, 100, 128, 255, 256):
            yield f"pieces of {size}", in_pieces(whole[:64] if size < 8 else whole, size)
    yield "pieces of 1", in_pieces(WORKED, 1)
    yield "a category, then the field", [WORKED[:1], WORKED[1:]]


def main():
    count = differences = 0
    for why, pieces in [*runs(), *(("beyond 256", [given]) for pair in same_front() for given in pair)]:
        given, wanted = told("listing", pieces, MOST), (sheet(b"".join(pieces)).encode(), b"", 0)
        count += 1
        if given != wanted:
            differences += 1
            print(why, b"".join(pieces).hex(" "), "gives", given, "and should", wanted)
    assert all(sheet(front) == sheet(longer) for front, longer in same_front())
    print(f"{count} runs, {differences} differences")
    sys.exit(differences > 0)


if __name__ == "__main__":
    main()
