"""A refusal explained: in words, with the octet marked, and what would be right there.

That a field is refused, by which number and where, is the desk's answer. Which part of the paper that concerns is
found by the layouts, and what becomes of a field that is mended there is asked of the desk again.
"""
from __future__ import annotations

import dataclasses
from collections.abc import Iterable, Iterator
from dataclasses import dataclass

from paltinoma import CATEGORIES, Desk, Number, Record, Refused, Run

from ref.octets import FX, Placed, counted, is_wrong, mask, read_lines

ROW = 16  # octets that are shown in a line


@dataclass
class Why:
    """What can be said of a refused field. Where octets are tried as an item by themselves, the field is made of LEN
    and an indicator in front of them: these two are `made`, and are neither shown nor counted."""

    cat: int
    field: bytes
    refused: Refused
    made: int = 0
    subject: list[str] = dataclasses.field(default_factory=list)  # what of the paper is concerned, in a sentence
    bits: str = ""  # as they are there
    right: str = ""  # as they may be: 0 where they must be, x for either
    facts: list[str] = dataclasses.field(default_factory=list)
    mended: bytes | None = None  # the field with what is wrong at the place put right, where that is one way alone

    @property
    def place(self) -> int:
        """Of the octets that are shown."""
        return self.refused.place - self.made

    def marked(self, row: int = ROW) -> Iterator[str]:
        """The octets, so many in a line, with the place marked below; two dashes where they end before it. A category
        has no place."""
        octets = [f"{octet:02X}" for octet in self.field[self.made :]]
        octets += ["--"] * (self.place >= len(octets))
        for at in range(0, len(octets), row):
            yield f"{at:4}  {' '.join(octets[at:at + row])}"
            if at <= self.place < at + row and self.refused.number != 1:
                yield f"{'':6}{'   ' * (self.place - at)}^^"

    def compared(self) -> list[str]:
        """The bits as they are, and below them as they may be."""
        nothing = "nothing" if self.made else "nothing before LEN"
        return [f"it is      {self.bits or nothing}", f"it may be  {self.right}"] if self.right else []


def why(desk: Desk, cat: int, octets: bytes, refused: Refused) -> Why:
    """The explanation of a reader's refusal, by 1 to 9."""
    told = explained(desk, Why(cat, octets, refused))
    for other in CATEGORIES:
        if other != cat and refusal(desk, other, octets) is None:
            told.facts.append(f"As category {other} it is accepted.")
    return told


def why_new(desk: Desk, cat: int, item: str, new: bytes) -> Why | None:
    """The explanation of 14, by 01: "New octets are right exactly if the field made of LEN, an indicator with that one
    bit, and these octets is accepted"."""
    alone = bytes([len(new) + 2, CATEGORIES[cat].item(item).bit]) + new
    refused = refusal(desk, cat, alone)
    return explained(desk, Why(cat, alone, refused, made=2)) if new and refused else None


def reading(desk: Desk, cat: int, octets: bytes) -> tuple[Record | None, Refused | None]:
    """The record of a field, or its refusal."""
    try:
        return desk.read(cat, octets), None
    except Refused as refused:
        return None, refused


def refusal(desk: Desk, cat: int, octets: bytes) -> Refused | None:
    """The reader's, if there is one."""
    return reading(desk, cat, octets)[1]


def explained(desk: Desk, told: Why) -> Why:
    """What its number says, and what becomes of the mended field."""
    EXPLAINED[told.refused.number](told)
    if told.mended is not None:
        told.facts.append(after(desk, told, told.mended))
    return told


def after(desk: Desk, told: Why, mended: bytes) -> str:
    """What the desk says of the mended field."""
    changed = [k for k in range(len(mended)) if told.field[k] != mended[k]]
    put = mended[changed[0] : changed[-1] + 1].hex(" ").upper()
    next_one = refusal(desk, told.cat, mended)
    shown = Refused(next_one.number, next_one.place - told.made) if next_one else None
    verdict = str(shown).replace(":", ",") if shown else "accepted"
    return f"With {put} at octet {changed[0] - told.made} it is {verdict}."


# ---- what each number says


def unknown(told: Why) -> None:
    """1: no paper has the category."""
    told.facts.append(f"The categories are {', '.join(map(str, CATEGORIES))}.")


def short(told: Why) -> None:
    """2: the field is empty, or shorter than LEN."""
    if not told.field:
        told.facts.append("There are no octets; a field has LEN and the items indicator at least.")
        return
    length, there = told.field[0], len(told.field)
    told.subject = ["Octet 0 is LEN, the length of the whole field."]
    more = counted(length - there)
    told.facts.append(f"LEN is {length}, and there {are(there)} {counted(there)}: {more} more should follow.")
    if there > 1:
        told.mended = bytes([there]) + told.field[1:]


def small(told: Why) -> None:
    """3: LEN is 0 or 1."""
    told.subject = ["Octet 0 is LEN, the length of the whole field."]
    told.facts.append("LEN counts itself and the items indicator, so it is 2 or more.")
    if 1 < len(told.field) <= CATEGORIES[told.cat].longest:
        told.mended = bytes([len(told.field)]) + told.field[1:]


def indicator(told: Why) -> None:
    """4: a spare bit of the indicator is set."""
    category = CATEGORIES[told.cat]
    fixed = mask(category.spare)
    told.subject = [f"Octet 1 is the items indicator (document {category.document}, {category.section})."]
    told.bits, told.right = f"{told.field[1]:08b}", pattern(fixed, 1)
    told.facts.append(set_bits(category.spare, told.field[1]))
    told.mended = told.field[:1] + bytes([told.field[1] & ~fixed]) + told.field[2:]


def cut(told: Why) -> None:
    """5: a part or subfield is not wholly before LEN."""
    placed = found(told)
    there = counted(len(placed.octets)).replace("no octets", "none")
    if told.made:
        told.facts.append(f"It has {counted(placed.line.octets)}, and there {are(len(placed.octets))} {there}.")
        return
    told.facts.append(f"It has {counted(placed.line.octets)}, and LEN, which is {told.field[0]}, leaves {there}.")
    if placed.at + placed.line.octets <= len(told.field) <= CATEGORIES[told.cat].longest:
        told.mended = bytes([len(told.field)]) + told.field[1:]


def spare(told: Why) -> None:
    """6: a spare bit of a part or subfield is set."""
    placed = found(told)
    told.facts.append(set_bits(placed.spare, int.from_bytes(placed.octets, "big")))
    if placed.last and placed.bits(FX):
        told.facts.append(no_more_parts(placed))
    told.mended = cleared(told.field, placed)


def goes_on(told: Why) -> None:
    """7: FX is set in the last part."""
    placed = found(told)
    told.facts.append(no_more_parts(placed))
    told.mended = cleared(told.field, placed)


def out_of_range(told: Why) -> None:
    """8: a number is out of its range."""
    placed = found(told)
    told.right = ""  # every bit may be either; it is the number that may not
    for run in placed.line.runs:
        if run.limits and is_wrong(placed, run, told.refused):
            number, least, most = placed.number(run), *(Number(limit, run) for limit in run.limits)
            told.facts.append(
                f"{run.key} is {number}, {number.text}; it may be from {least} to {most}, {least.text} to {most.text}."
            )


def left_over(told: Why) -> None:
    """9: octets are left before LEN."""
    names = [item.name for item in CATEGORIES[told.cat].items if told.field[1] & item.bit]
    left = told.field[0] - told.refused.place
    if told.made:
        told.facts.append(f"{names[0]} ends before octet {told.place}: {counted(left)} {are(left)} left over.")
        return
    told.facts.append(
        f"The indicator has {', '.join(names) or 'no items'}; what it has ends before octet {told.place}, "
        f"and LEN is {told.field[0]}: {counted(left)} {are(left)} left over."
    )
    told.mended = bytes([told.refused.place]) + told.field[1:]


EXPLAINED = {
    1: unknown,
    2: short,
    3: small,
    4: indicator,
    5: cut,
    6: spare,
    7: goes_on,
    8: out_of_range,
    9: left_over,
}


# ---- their words


def found(told: Why) -> Placed:
    """The part or subfield at the place."""
    placed, category = read_lines(told.cat, told.field, told.refused)[-1], CATEGORIES[told.cat]
    stands, item = "stands" if placed.whole else "should stand", placed.item
    printed = f"document {category.document}, {item.section}: {item.title}"
    told.subject = [f"At octet {told.place} {stands} {placed.name} ({printed})."]
    told.bits = " ".join(f"{octet:08b}" for octet in placed.octets)
    told.right = pattern(placed.fixed, placed.line.octets)
    return placed


def cleared(octets: bytes, placed: Placed) -> bytes:
    """The field with 0 wherever the part or subfield must have it."""
    new = (int.from_bytes(placed.octets, "big") & ~placed.fixed).to_bytes(placed.line.octets, "big")
    return octets[: placed.at] + new + octets[placed.at + placed.line.octets :]


def pattern(fixed: int, octets: int) -> str:
    """Bits as they may be, an octet's together."""
    bits = "".join("0" if fixed >> bit & 1 else "x" for bit in range(8 * octets - 1, -1, -1))
    return " ".join(bits[k : k + 8] for k in range(0, len(bits), 8))


def set_bits(spares: Iterable[Run], octets: int) -> str:
    """Which of the spare bits are set."""
    bits = [bit for run in spares for bit in range(run.hi, run.lo - 1, -1) if octets >> bit - 1 & 1]
    one = len(bits) == 1
    return f"Bit{'s' * (not one)} {', '.join(map(str, bits))} {'is' if one else 'are'} spare and must be 0."


def no_more_parts(placed: Placed) -> str:
    parts = counted(len(placed.item.parts), "part")
    return f"Bit 1 is FX: 1 says that another part follows, and the edition defines {parts}."


def are(n: int) -> str:
    return "is" if n == 1 else "are"
