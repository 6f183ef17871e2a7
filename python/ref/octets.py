"""A field laid beside its paper: which chain part or subfield each octet is of, which number or spare bits each bit.

What the numbers of an accepted field are was asked of the desk; where they stand is here, by the layouts of
paltinoma.json.
"""
from __future__ import annotations

from collections.abc import Iterable, Iterator
from dataclasses import dataclass

from paltinoma import CATEGORIES, Category, Item, Line, Number, Record, Refused, Run

FX = Run(1, 1)  # of a chain part


@dataclass(frozen=True)
class Placed:
    """A chain part or subfield in a field: where it begins, and its octets, fewer than it needs where the field ends
    within it."""

    at: int
    item: Item
    line: Line
    octets: bytes

    @property
    def name(self) -> str:
        """As 'MD5 POS', 'STA part 2', 'ERR'."""
        return self.item.name if self.line.name == self.item.name else f"{self.item.name} {self.line.name}"

    @property
    def whole(self) -> bool:
        return len(self.octets) == self.line.octets

    @property
    def last(self) -> bool:
        """Whether it is the last part that the edition defines of its chain."""
        return self.line.chain and self.line == self.item.parts[-1]

    @property
    def runs(self) -> tuple[Run, ...]:
        """Its runs of bits, FX among them."""
        return self.line.runs + ((FX,) if self.line.chain else ())

    def bits(self, run: Run) -> int:
        """The bits of a run as an unsigned number."""
        return int.from_bytes(self.octets, "big") >> run.lo - 1 & (1 << run.width) - 1

    def number(self, run: Run, record: Record | None = None) -> Number:
        """The number of a run: of the record that the desk gave, or what its bits are where a field was refused and
        has none."""
        bits = self.bits(run)
        signed = bits - (1 << run.width) if run.signed and bits >> run.width - 1 else bits
        return Number(signed if record is None else record.of(run), run)

    def label(self, run: Run) -> str:
        """The numbers of its bits, and in brackets those that are printed where the paper numbers the parts of a chain
        in one row."""
        above = Run(run.hi + self.line.below, run.lo + self.line.below)
        return f"{run.bits} ({above.bits.split()[-1]})" if self.line.below else run.bits

    @property
    def spare(self) -> tuple[Run, ...]:
        """Its spare bits."""
        return tuple(run for run in self.line.runs if run.slot is None)

    @property
    def fixed(self) -> int:
        """A mask of the bits that are 0 in every field: spare bits, and FX in the last part."""
        return mask(self.spare) | (1 if self.last else 0)


def counted(n: int, what: str = "octet") -> str:
    """As '1 octet', '2 octets', 'no octets'."""
    return f"{n or 'no'} {what}{'s' * (n != 1)}"


def mask(runs: Iterable[Run]) -> int:
    """1 in each bit of these runs."""
    return sum((1 << run.width) - 1 << run.lo - 1 for run in runs)


def item_lines(item: Item, field: bytes, at: int) -> Iterator[Placed]:
    """The chain parts and subfields of an item that begins there, as FX and the flags say."""
    goes_on, flagged = True, set()
    for line in item.lines:
        if not goes_on if line.chain else item.parts and f"{item.name}.{line.name}" not in flagged:
            continue
        placed = Placed(at, item, line, field[at : at + line.octets])
        yield placed
        at += line.octets
        if line.chain:
            goes_on = placed.bits(FX) == 1
            flagged |= {run.key for run in line.runs if run.flag and placed.bits(run)}


def lines_of(category: Category, field: bytes) -> Iterator[Placed]:
    """The chain parts and subfields of a field of two octets or more, up to the first that is not whole before LEN."""
    at, field = 2, field[: field[0]]
    for item in category.items:
        if not field[1] & item.bit:
            continue
        for placed in item_lines(item, field, at):
            yield placed
            at = placed.at + placed.line.octets
            if not placed.whole:
                return


def read_lines(cat: int, field: bytes, refused: Refused | None) -> list[Placed]:
    """Those that the desk went through: all of an accepted field; of a refused one those up to the place of the
    refusal."""
    if refused and refused.number < 5:
        return []
    return [placed for placed in lines_of(CATEGORIES[cat], field) if refused is None or placed.at <= refused.place]


# ---- the map


@dataclass(frozen=True)
class Row:
    """A run of bits in an octet. The octet stands in the first row that is of it; name, bits and text in the first of
    the run."""

    at: int
    octet: str
    shown: str
    name: str
    bits: str
    text: str
    kind: str  # number, flag, spare, head; wrong where it is refused; unread; behind LEN


def shown(octet: int, hi: int, lo: int) -> str:
    """The bits hi to lo of an octet, dots in the place of the others."""
    return "".join(digit if lo <= bit <= hi else "." for bit, digit in zip(range(8, 0, -1), f"{octet:08b}"))


def said(placed: Placed, run: Run, record: Record | None) -> tuple[str, str]:
    """What a run is, and its kind."""
    if run is FX:
        follows = "no other part is defined" if placed.last else "another part follows"
        return f"FX = {placed.bits(FX)}, {follows if placed.bits(FX) else 'the last part'}", "flag"
    if run.slot is None:
        return "spare, must be 0" if placed.bits(run) else "spare", "spare"
    if run.flag:
        return f"{run.key} is {'there' if placed.bits(run) else 'absent'}", "flag"
    number = placed.number(run, record)
    return f"{run.key} = {number}{', ' * bool(beside(number))}{beside(number)}", "number"


def beside(number: Number) -> str:
    """What a number stands for, if that is more than the number."""
    return "" if number.text == str(number) else number.text


def is_wrong(placed: Placed, run: Run, refused: Refused | None) -> bool:
    """Whether a run is why the part or subfield is refused there."""
    if refused is None or placed.at != refused.place:
        return False
    if refused.number == 8:
        return run.limits is not None and not run.limits[0] <= placed.number(run) <= run.limits[1]
    if refused.number == 7:
        return run is FX
    return refused.number == 6 and run in placed.spare and placed.bits(run) != 0


def line_rows(placed: Placed, record: Record | None, refused: Refused | None) -> Iterator[Row]:
    """The rows of a part or subfield that is whole: for each run one in each octet that it has bits of."""
    name, last = placed.name, 8 * placed.line.octets
    for run in placed.runs:
        text, kind = said(placed, run, record)
        kind, bits = "wrong" if is_wrong(placed, run, refused) else kind, placed.label(run)
        for k in range((last - run.hi) // 8, (last - run.lo) // 8 + 1):
            octet, low = placed.octets[k], last - 8 * (k + 1)  # bit 1 of the octet is printed as one above low
            first = f"{octet:02X}" if run.hi - low >= 8 else ""
            yield Row(placed.at + k, first, shown(octet, run.hi - low, run.lo - low), name, bits, text, kind)
            name = bits = text = ""


def cut_rows(placed: Placed) -> Iterator[Row]:
    """The rows of a part or subfield that is not whole: its octets that are there, and the first that is not."""
    name, text = placed.name, f"{counted(placed.line.octets)} should stand here before LEN"
    for at, octet in enumerate(placed.octets, placed.at):
        yield Row(at, f"{octet:02X}", f"{octet:08b}", name, "", text, "wrong")
        name = text = ""
    yield Row(placed.at + len(placed.octets), "--", "", name, "", text, "wrong")


def head_rows(cat: int, field: bytes, refused: Refused | None) -> Iterator[Row]:
    """LEN and the items indicator, as far as they are there."""
    number = refused.number if refused else 0
    if field:
        kind = "wrong" if number in (2, 3) else "head"
        yield Row(0, f"{field[0]:02X}", f"{field[0]:08b}", "LEN", "", counted(field[0]), kind)
    if len(field) > 1 and cat in CATEGORIES:
        category = CATEGORIES[cat]
        names = ", ".join(item.name for item in category.items if field[1] & item.bit) or "no items"
        run = Run(8, 9 - len(category.items))
        yield Row(1, f"{field[1]:02X}", shown(field[1], run.hi, run.lo), "indicator", run.bits, names, "head")
        for spare in category.spare:
            text, kind = ("spare, must be 0", "wrong") if field[1] & mask([spare]) else ("spare", "spare")
            yield Row(
                1, "", shown(field[1], spare.hi, spare.lo), "", spare.bits, text, kind if number == 4 else "spare"
            )


def left_rows(field: bytes, at: int, text: str, kind: str) -> Iterator[Row]:
    for k in range(at, len(field)):
        yield Row(k, f"{field[k]:02X}", f"{field[k]:08b}", "", "", text * (k == at), kind)


def rows(cat: int, field: bytes, record: Record | None, refused: Refused | None) -> list[Row]:
    """Every octet of a field with its record, or of a refused one with its refusal: what could be read, then what was
    not."""
    found = list(head_rows(cat, field, refused))
    for placed in read_lines(cat, field, refused):
        found += line_rows(placed, record, refused) if placed.whole else cut_rows(placed)
    there = max((row.at + 1 for row in found if row.shown), default=0)
    end = min(len(field), field[0]) if field and field[0] > 1 else len(field)
    left, kind = ("left over", "wrong") if refused and refused.number == 9 else ("not read", "unread")
    found += left_rows(field[:end], there, left, kind)
    return found + list(left_rows(field, max(end, there), "behind LEN, not looked at", "behind"))
