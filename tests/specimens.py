#!/usr/bin/env python3
"""Prints the rows of crates/papers/specs/Specimens.antt: a field of each category with every item, part and subfield, and what each item holds: its parts
and its numbers.
With `sheets` behind, the last rows of crates/scope/specs/Sheets.antt: the sheets of those fields. tests/selftest.py looks for both.

The numbers are drawn so that each differs from its neighbours' widths and signs: signed ones are negative, wide ones have their highest bit set.
"""
import random
import sys

from papers import PAPERS
from reference import SLOTS, lay_record, read, sheet


def draw(rng, number):
    _, hi, lo, kind = number
    bits = hi - lo + 1
    if kind == "u":
        return rng.getrandbits(bits) | (1 << (bits - 1)) if bits > 1 else rng.getrandbits(1)
    return {"ga": -rng.randint(1, 40), "lat": -rng.randint(1 << 21, 1 << 22)}.get(kind, -rng.randint(1 << (bits - 2), 1 << (bits - 1)))


def specimen(cat, rng):
    indicator, counts, numbers = 0, [0] * 8, []
    for i, (_, parts, subs) in enumerate(PAPERS[cat]):
        indicator |= 1 << (7 - i)
        counts[i] = len(parts)
        for _, defined in parts:
            numbers += [1 if subs else draw(rng, n) for n in defined]
        for _, _, defined in subs:
            numbers += [draw(rng, n) for n in defined]
    record = (cat, indicator, counts, numbers + [0] * (SLOTS - len(numbers)))
    octets = lay_record(record)
    assert read(cat, octets) == ("ok", len(octets), record)
    return octets, record


def antt(z):
    return f"pos {z}" if z >= 0 else f"negsuc {-z - 1}"


def hexed(octets):
    return "".join(f"0x{o:02X} ∷ " for o in octets) + "[]"


def slots(item):
    _, parts, subs = item
    return sum(len(part[-1]) for part in parts) + sum(len(sub[-1]) for sub in subs)


def contents_row(octets, record):
    cat, indicator, counts, numbers = record
    held, at = [], 0
    for item, count in zip(PAPERS[cat], counts):
        its = numbers[at : at + slots(item)]
        held.append(f"({count}, " + "".join(antt(z) + " ∷ " for z in its) + "[])")
        at += len(its)
    return "\n".join([
        "record {",
        f"      cat = {cat};",
        f"      octets = {hexed(octets)};",
        f"      items = 0x{indicator:02X};",
        "      held =",
        "          " + "\n          ∷ ".join(held),
        "          ∷ [];",
        "    }",
    ])


def sheet_row(octets, record):
    given = bytes([record[0]]) + octets
    return "\n".join([
        "record {",
        f"      input = {hexed(given)};",
        "      lines = \"%s\";" % sheet(given).replace("\n", "\\n"),
        "    }",
    ])


def rows(row):
    """Of each category, one behind the other as they are laid out there."""
    rng = random.Random(2026)
    return "\n    ∷ ".join(row(*specimen(cat, rng)) for cat in PAPERS)


def main():
    print("    ∷ " + rows(sheet_row) if sys.argv[1:] == ["sheets"] else "    " + rows(contents_row))


if __name__ == "__main__":
    main()
