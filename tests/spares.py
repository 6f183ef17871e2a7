#!/usr/bin/env python3
"""The spare bits of each part and subfield as the tables of the code have them, beside the sections of the papers: docs/SPARE.md.

    python3 tests/spares.py          says whether the page is not as the tables have it
    python3 tests/spares.py write    makes it
"""
import re
import sys
from pathlib import Path
from typing import NamedTuple

from slots import CATEGORIES

ROOT = Path(__file__).resolve().parent.parent
PAGE = ROOT / "docs/SPARE.md"


class Line(NamedTuple):
    sections: dict  # of each document that prints it
    item: str
    place: str  # "part 1", "#2 PMN", "" for an item of fixed length
    octets: int
    mask: str  # an octet's bits together, as they stand in the code


# ---- the tables

def source(crate):
    return (ROOT / "crates" / crate / "src/lib.rt").read_text(encoding="utf-8")


def table(crate, name):
    """The lines of a constant array, and that each of them is an entry or a comment of its own."""
    length, text = re.search(rf"static {name}: \[\w+; (\d+)\] = \[\n(.*?)\n\];", source(crate), re.S).groups()
    found = [line.strip() for line in text.splitlines() if not line.strip().startswith("//")]
    if len(found) != int(length):
        raise SyntaxError(f"{name} has {length} entries, and {len(found)} lines")
    return found


def taken(pattern, line):
    found = re.fullmatch(pattern, line)
    if not found:
        raise SyntaxError(f"not of the form of its table: {line}")
    return found.groups()


def length_line(line):
    octets, mask, papers, item, place = taken(r"Length\((\d), 0b([01_]+)\), // ((?:\d{3} [\d.]+(?:, )?)+) (\w+) ?(.*)", line)
    return Line(dict(paper.split() for paper in papers.split(", ")), item, place, int(octets), mask)


def lengths():
    return [length_line(line) for line in table("lengths", "LENGTHS")]


def shapes():
    """The name of each item, its first line and how many lines it has."""
    found = [taken(r"Shape\((\d+), (\d+), (\d+)\), // (\w+)", line) for line in table("shapes", "SHAPES")]
    return [(name, int(first), int(parts) + int(subfields) or 1) for first, parts, subfields, name in found]


def spots():
    """The items of all categories, one behind the other."""
    found = [taken(r"Spot\((\d+), \d+\), // (\w+)", line) for line in table("spots", "SPOTS")]
    return [(int(shape), name) for shape, name in found]


def categories():
    """Of each category its number, its count of items, and its indicator's spare places with their section."""
    form = r"pub const NUMBER: u8 = (\d+);\s+pub const ITEMS: usize = (\d+);\s+pub const SPARE: u8 = 0b([01]+); // (\d{3}) ([\d.]+)\s"
    found = re.findall(form, source("layout"))
    return [(int(cat), int(items), Line({document: section}, "indicator", "", 1, mask)) for cat, items, mask, document, section in found]


def lines():
    """The lines of each category in the order of its paper, its indicator first."""
    rows, named, at, out = lengths(), shapes(), 0, {}
    for cat, items, indicator in categories():
        out[cat] = [indicator]
        for shape, name in spots()[at:at + items]:
            shape_name, first, count = named[shape]
            found = rows[first:first + count]
            if {name} != {shape_name, *(line.item for line in found)}:
                raise ValueError(f"{name} stands on {shape_name}, whose lines are {found}")
            out[cat] += found
        at += items
    return out


def asked():
    """The lines of code in the reader, the writer, the views and the desk that speak of spare bits; the name of refusal 6 alone says nothing of them."""
    files = [file for crate in ("reader", "writer", "views", "desk") for file in sorted((ROOT / "crates" / crate / "src").rglob("*.rt"))]
    code = [line.partition("//")[0].strip() for file in files for line in file.read_text(encoding="utf-8").splitlines()]
    return [line for line in code if "spare" in line.replace("Reason::Spare", "").lower() and not line.startswith("ghost ")]


# ---- docs/SPARE.md

INTRODUCTION = """# The spare bits

This page is made by `python3 tests/spares.py write` from the tables of the code. Don't edit it by hand:
`tests/selftest.py` fails if it is not as the tables have it, or not as `tests/papers.py` has the papers a second time.

It is to be laid beside the papers. Of each chain part and subfield it has the section that prints it, its octets, its
mask (1 where a bit is spare, in the order in which the paper prints the bits, an octet's together) and the numbers that
the paper prints beside its spare bits. `#2` is the paper's Subfield #2. An item without a part or subfield is of fixed
length. FX, bit 1 of the last octet of a chain part, is not spare. The papers number the bits of M5N's part 1 above those of
part 2, from 16 on; that part has no spare bit.

In the code the masks stand beside the lengths, in `LENGTHS` (`crates/lengths/src/lib.rt`), and those of the indicators
beside the counts of items, in `Cat048`, `Cat021` and `Cat007` (`crates/layout/src/lib.rt`). The reader looks a mask up and
makes one comparison: 6 where a bit of a part or subfield is set that the mask has, 4 where one of the indicator is. There is
no other condition on spare bits. In the definitions they stand in the layout files, `crates/papers/specs/Cat048.antt`,
`Cat021.antt` and `Cat007.antt`, as `spares 32 31` or `spare_bit 1`. That a mask is what its layout file calls spare is
proved of the whole table by one computation (`lengths/proofs/format_of`), and of the indicators by one for each
(`layout/proofs/spare_of`).
"""


def bits_text(line):
    """The runs of spare bits by their numbers, high bits first, as the papers print them: 32/31, 13."""
    bits = line.mask.replace("_", "")
    runs = [(len(bits) - run.start(), len(bits) - run.end() + 1) for run in re.finditer("1+", bits)]
    return ", ".join(str(hi) if hi == lo else f"{hi}/{lo}" for hi, lo in runs) or "none"


def table_row(document, line):
    cells = [line.sections[document], line.item, line.place, str(line.octets), f"`{line.mask.replace('_', ' ')}`", bits_text(line)]
    return "|" + "|".join(f" {cell} " if cell else " " for cell in cells) + "|"


def page():
    out = [INTRODUCTION]
    for cat, found in lines().items():
        edition, document = CATEGORIES[cat]
        out.append(f"## Category {cat:03}, edition {edition} (document {document})\n")
        out += ["| section | item | part or subfield | octets | mask | spare bits |", "|---|---|---|---|---|---|"]
        out += [table_row(document, line) for line in found] + [""]
    return "\n".join(out)


def differs():
    return not PAGE.exists() or PAGE.read_text(encoding="utf-8") != page()


def main(arguments):
    if arguments not in ([], ["write"]):
        sys.exit(__doc__)
    if arguments:
        PAGE.write_text(page(), encoding="utf-8")
    if differs():
        print("docs/SPARE.md is not as the tables have it: python3 tests/spares.py write")
        return 1
    return 0


if __name__ == "__main__":
    sys.exit(main(sys.argv[1:]))
