#!/usr/bin/env python3
"""The slots of the record as the papers' data in crates/papers/specs gives them: docs/NUMBERS.md. tests/ways.py hands the same to other languages.

    python3 tests/slots.py          says whether the page is not as the data has it
    python3 tests/slots.py write    makes it
"""
import re
import sys
import textwrap
from pathlib import Path
from typing import NamedTuple

ROOT = Path(__file__).resolve().parent.parent
SPECS = ROOT / "crates/papers/specs"
PAGE = ROOT / "docs/NUMBERS.md"
WIDTH = 100  # of the page

# category: edition and document
CATEGORIES = {48: ("1.9", "000"), 21: ("1.5", "003"), 7: ("1.7", "004")}

# what the table can't say, by category and key
REMARKS = {
    (21, "BPS"): "the pressure is 800 hPa plus the number times 0.1 hPa. 0 stands for all below 800 hPa too, and 4,095 for all above 1209.5 hPa: on the "
                 "sheet `BPS.sense` is `atmost` for 0, `atleast` for 4,095 and `equal` between.",
    (21, "SelH.SelH"): "document 003 prints no unit, and 01 derives no degrees from it.",
    (21, "GAO.Lateral"): "bit 8 is the direction, 0 left and 1 right of the centre line. So the number as a whole is not a count of 2 m.",
}
ENDS = {(21, "BPS")}  # their lowest and highest number stand for all that lies beyond, too
NO_COUNTS = {(21, "SelH.SelH"), (21, "GAO.Lateral")}  # a printed LSB, from which no measure of the whole number is to be derived
OCTAL = {(48, "MD5.EM1.EM1"), (48, "M5N.EM1.EM1"), (21, "MES.EM1.EM1"), (21, "MES.M2.M2"), (7, "M5N.EM1.EM1")}  # "in octal representation", A4 A2 A1 B4 ..


# ---- the notation of crates/papers/specs/Notation.antt and crates/codec/specs/Printed.antt

class Number(NamedTuple):
    name: str
    hi: int
    lo: int
    signed: bool = False
    limits: tuple = None  # least and most
    lsb: tuple = None  # numerator and denominator; None for a flag or a code
    unit: str = ""
    start: int = 0  # what the number 0 stands for
    below: int = 0  # how many bits of later parts the paper numbers below this part


class Spare(NamedTuple):
    hi: int
    lo: int
    below: int = 0


class Structure(NamedTuple):
    name: str
    octets: int
    runs: list


class Entry(NamedTuple):
    name: str
    parts: list  # none in an item of fixed length, which is its own one subfield
    subs: list


class Power(int):
    """A power that prints as the paper has it, 2^23."""

    def __new__(cls, base, exponent):
        power = super().__new__(cls, base ** exponent)
        power.printed = f"{base}^{exponent}"
        return power


NOTATION = {
    "bits": lambda hi, lo, name: Number(name, hi, lo),
    "bit": lambda b, name: Number(name, b, b),
    "signed_bits": lambda hi, lo, name: Number(name, hi, lo, signed=True),
    "limited_bits": lambda hi, lo, name, least, most: Number(name, hi, lo, signed=True, limits=(least, most)),
    "pos": lambda n: n,
    "neg": lambda n: -n,
    "spares": lambda hi, lo: Spare(hi, lo),
    "spare_bit": lambda b: Spare(b, b),
    "part": lambda octets, runs: Structure("", octets, runs),
    "sub": lambda name, octets, runs: Structure(name, octets, runs),
    "above": lambda n, runs: [r._replace(hi=r.hi - n, lo=r.lo - n, below=n) for r in runs],
    "compound": lambda name, first, others, subs: Entry(name, [first] + others, subs),
    "fixed": lambda structure: Entry(structure.name, [], [structure]),
}

# ---- the files

TOKEN = re.compile(r'--[^\n]*|"[^"]*"|\[\]|[()∷^=]|[^\s()∷^="]+')
BEHIND_AN_APPLICATION = {"", ")", "∷", "^", "LSB", "over", "of", "minus"}


def definitions(text):
    """The tokens of the right side of each `NAME = ..`. A statement begins in the first column; its other lines are indented."""
    statements = []
    for found in TOKEN.finditer(text):
        if found[0].startswith("--"):
            continue
        if found.start() == 0 or text[found.start() - 1] == "\n":
            statements.append([])
        statements[-1].append(found[0])
    return {s[0]: s[2:] for s in statements if s[1:2] == ["="]}


class Expression:
    """The right side of a definition. What binds tightest comes last: `∷`, then LSB and minus, then `^`, then an application."""

    def __init__(self, tokens, value_of):
        self.tokens, self.value_of = tokens + [""], value_of

    def take(self, *expected):
        token = self.tokens.pop(0)
        if expected and token not in expected:
            raise SyntaxError(f"{expected} expected, not {token!r}, before {' '.join(self.tokens[:8])}")
        return token

    def whole(self):
        value = self.row()
        self.take("")
        return value

    def row(self):
        head = self.measured()
        if self.tokens[0] != "∷":
            return head
        self.take()
        return [head] + self.row()

    def measured(self):
        value = self.power()
        while self.tokens[0] in ("LSB", "minus"):
            if self.take() == "minus":
                value = value._replace(start=self.power())
                continue
            times = self.power()
            self.take("over")
            over = self.power()
            self.take("of")
            value = value._replace(lsb=(times, over), unit=self.power())
        return value

    def power(self):
        base = self.application()
        if self.tokens[0] != "^":
            return base
        self.take()
        return Power(base, self.power())

    def application(self):
        head, given = self.atom(), []
        while self.tokens[0] not in BEHIND_AN_APPLICATION:
            given.append(self.atom())
        return head(*given) if given else head

    def atom(self):
        token = self.take()
        if token == "(":
            value = self.row()
            self.take(")")
            return value
        if token == "[]":
            return []
        if token.startswith('"'):
            return token[1:-1]
        return int(token, 0) if token[:1].isdigit() else self.value_of(token)


def printed(cat, what):
    """A definition of a category's file, by what stands before the category in its name."""
    defined = definitions((SPECS / f"Cat{cat:03}.antt").read_text(encoding="utf-8"))

    def value_of(name):
        if name in NOTATION:
            return NOTATION[name]
        if name not in defined:
            raise SyntaxError(f"Cat{cat:03}.antt: {name!r} is neither defined there nor a word of the notation")
        return Expression(defined[name], value_of).whole()

    return value_of(f"{what}{cat:03}")


def paper(cat):
    """The entries of a category, in the order of the indicator's bits."""
    return printed(cat, "printed")


def indicator(cat):
    return printed(cat, "indicator")


# ---- slots and keys (01, 'The sheet'; crates/papers/specs/Names.antt)

class Line(NamedTuple):
    """A chain part or a subfield, and what its numbers are called."""
    label: str
    octets: int
    numbers: list
    key: str
    several: bool  # a number's own name stands behind the key
    flags: bool  # they say which subfields are there, and have no key on the sheet


class Row(NamedTuple):
    slot: int
    line: Line
    number: Number

    @property
    def name(self):
        return f"{self.line.key}.{self.number.name}" if self.line.several else self.line.key

    @property
    def key(self):
        return None if self.line.flags else self.name


def numbers_of(structure):
    return [r for r in structure.runs if isinstance(r, Number)]


def lines(entry):
    parts = [(f"part {k}", p) for k, p in enumerate(entry.parts, 1)]
    subs = [(s.name, s) for s in entry.subs]
    if parts and subs:
        flags = [Line(label, p.octets, numbers_of(p), entry.name, True, True) for label, p in parts]
        return flags + [Line(label, s.octets, numbers_of(s), f"{entry.name}.{label}", len(numbers_of(s)) > 1, False) for label, s in subs]
    several = sum(len(numbers_of(s)) for _, s in parts + subs) > 1
    return [Line(label, s.octets, numbers_of(s), entry.name, several, False) for label, s in parts + subs]


def rows(entries):
    every = [(line, number) for entry in entries for line in lines(entry) for number in line.numbers]
    return [Row(slot, line, number) for slot, (line, number) in enumerate(every)]


# ---- docs/NUMBERS.md

INTRODUCTION = """# The numbers of the record

This page is made by `python3 tests/slots.py write` from the papers' data, `Cat048.antt`,
`Cat021.antt` and `Cat007.antt` in `crates/papers/specs`. Don't edit it by hand:
`tests/selftest.py` fails if it is not as the data has it.

A record has 77 places for numbers. The slot of a number is its place among them, counted from 0.
A category's slots follow its layout: the items in the order of the indicator's bits; in an item
the chain parts, then the subfields; in each of them the high bits first. Spare bits and FX have no
slot. What is absent has 0 at its slots, and so have the slots behind the category's last.

In C a number stands at index `REF_RECORD_NUMBERS` + slot of the record's array. The enums of
`include/refdesk.h` name the slots: the key in capitals, `_` for `.` and `#`, behind the category,
as `REF_048_MD5_POS_LAT`. A presence flag is called as `REF_048_HAS_MD5_POS`.

- key: as the sheet prints it. A presence flag is not on the sheet; it is 1 if the subfield is
  there and 0 if not.
- place: the chain part, the subfield or the item of fixed length that holds the number, with its
  octets, and the bits high/low as the paper numbers them. In brackets stands the printed name if
  the key is without it. The papers number the bits of M5N's part 1 above those of part 2; there
  the bit is that of the octet, and the printed one stands in brackets.
- limits: only those that are checked, by refusal 8 in the reader and 10 in the writer. Else every
  number that the bits can hold is accepted.
- LSB and unit: the record holds the number of LSBs. Flags and codes have none. A unit `octal` is
  that of a code which the papers give "in octal representation", three bits to a digit: 640 is the
  code 1200.
"""


def bits_text(row):
    n = row.number
    text = f"bit {n.hi}" if n.hi == n.lo else f"bits {n.hi}/{n.lo}"
    if n.below:
        text += f" (printed {n.hi + n.below})" if n.hi == n.lo else f" (printed {n.hi + n.below}/{n.lo + n.below})"
    return text if row.name.split(".")[-1] == n.name else f"{text} ({n.name})"


def lsb_text(lsb):
    """As the papers print it: 25, 0.1, 1/256, 180/2^23."""
    if lsb is None:
        return ""
    times, over = lsb
    zeros = len(str(over)) - 1
    if over == 10 ** zeros:
        whole, rest = divmod(times, over)
        return f"{whole}.{rest:0{zeros}}".rstrip("0") if rest else str(whole)
    return f"{times}/{getattr(over, 'printed', over)}"


def table_row(row, octal):
    line, n = row.line, row.number
    cells = [
        str(row.slot),
        f"`{row.key}`" if row.key else f"presence of {row.name}",
        f"{line.label}, {line.octets} octet{'s' if line.octets > 1 else ''}, {bits_text(row)}",
        "two's complement" if n.signed else "unsigned",
        f"{n.limits[0]:,} to {n.limits[1]:,}" if n.limits else "",
        lsb_text(n.lsb),
        "octal" if octal else f"{n.unit}, from {n.start} {n.unit}" if n.start else n.unit,
    ]
    return "|" + "|".join(f" {cell} " if cell else " " for cell in cells) + "|"


def remarks(cat):
    found = [f"- `{key}`: {text}" for (c, key), text in REMARKS.items() if c == cat]
    return "".join(f"\n{textwrap.fill(remark, WIDTH, subsequent_indent='  ')}" for remark in found) + ("\n" if found else "")


def page():
    out = [INTRODUCTION]
    for cat, (edition, document) in CATEGORIES.items():
        found = rows(paper(cat))
        out.append(f"## Category {cat:03}, edition {edition} (document {document})\n")
        out.append(f"{len(found)} slots, 0 to {len(found) - 1}.\n{remarks(cat)}")
        out += ["| slot | key | place | sign | limits | LSB | unit |", "|---|---|---|---|---|---|---|"]
        out += [table_row(row, (cat, row.key) in OCTAL) for row in found] + [""]
    return "\n".join(out)


def differs():
    return not PAGE.exists() or PAGE.read_text(encoding="utf-8") != page()


def main(arguments):
    if arguments not in ([], ["write"]):
        sys.exit(__doc__)
    if arguments:
        PAGE.write_text(page(), encoding="utf-8")
    if differs():
        print("docs/NUMBERS.md is not as crates/papers/specs has it: python3 tests/slots.py write")
        return 1
    return 0


if __name__ == "__main__":
    sys.exit(main(sys.argv[1:]))
