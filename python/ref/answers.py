"""What each command answers to a line: for the screen, for `--json`, and whether it was accepted."""
from __future__ import annotations

import argparse
import re
from collections.abc import Callable, Iterator
from dataclasses import dataclass
from typing import Any

from paltinoma import CATEGORIES, Desk, Item, Number, Record, Refused, slot

from ref.lines import FIELD, NEW, Asked, Usage, shortened
from ref.octets import FX, Placed, Row, beside, read_lines, rows, said
from ref.why import Why, reading, refusal, why, why_new

Data = dict[str, Any]
Paint = Callable[[str, str], str]  # a text in the colour of its kind


@dataclass(frozen=True)
class Session:
    """Who is asked, with which options, and how a text of a kind is coloured."""

    desk: Desk
    given: argparse.Namespace
    paint: Paint


@dataclass(frozen=True)
class Answer:
    """`data` is for --json and `text` for the screen. Where there is no text, `complaint` says why on standard error: it
    was refused, or could not be asked so."""

    accepted: bool
    data: Data
    text: str = ""
    complaint: str = ""
    asked: bool = True


def ok(data: Data, text: str) -> Answer:
    """What was accepted."""
    return Answer(True, {"accepted": True, **data}, text)


def refused_data(refused: Refused) -> Data:
    which = {"which": refused.which} if refused.which else {}
    return {"number": refused.number, "place": refused.place, "words": refused.words, **which}


def no(data: Data, refused: Refused, text: str = "") -> Answer:
    """What was refused; with a text of its own, or else complained of."""
    complaint = "" if text else str(refused)
    return Answer(False, {"accepted": False, "refused": refused_data(refused), **data}, text, complaint)


def hexed(octets: bytes) -> str:
    return octets.hex().upper()


def field_data(asked: Asked) -> tuple[int, bytes, Data]:
    """The category and the field of a line, and what every answer about them begins with."""
    cat, field = asked.cat(), asked.field()
    return cat, field, {"cat": cat, "field": hexed(field), **behind(field)}


def behind(*fields: bytes) -> Data:
    """How many octets stand behind LEN, which nobody looks at."""
    count = sum(len(field) - field[0] for field in fields if field and len(field) > field[0] > 1)
    return {"behind": count} if count else {}


# ---- commands that show a field


def sheet(session: Session, asked: Asked) -> Answer:
    """The lines that `listing` prints, of a refused field too."""
    cat, field, data = field_data(asked)
    try:
        text = session.desk.sheet(cat, field)
    except Refused as refused:
        return no(data, refused, f"cat={cat}\nrefused={refused.number}\nat={refused.place}\n")
    (_, _), (_, length), (_, items), *numbers, _ = (row.split("=") for row in text.splitlines())
    listed = {key: int(value) if re.fullmatch("-?[0-9]+", value) else value for key, value in numbers}
    return ok({**data, "len": int(length), "items": items.split(",") if items else [], "numbers": listed}, text)


def number_data(number: Number) -> Data:
    measured = (
        {} if number.value is None else {"value": float(number.value), "unit": number.unit, "sense": number.sense}
    )
    octal = {"octal": number.text.removeprefix("octal ")} if number.run.octal else {}
    return {"key": number.key, "number": int(number), **measured, **octal}


def read(session: Session, asked: Asked) -> Answer:
    """Each item that is there, its numbers, and what they stand for."""
    cat, field, data = field_data(asked)
    try:
        record = session.desk.read(cat, field)
    except Refused as refused:
        return no(data, refused)
    data["items"] = [{"name": name, "parts": record.chain(name)} for name in record.present]
    data["numbers"] = [number_data(number) for number in record.values()]
    found = [row for item in CATEGORIES[cat].items if item.name in record.present for row in item_rows(record, item)]
    wide = max((len(key) for key, _, _ in found), default=0)
    told = [f"{key:{wide}}  {number:>9}  {said}".rstrip() for key, number, said in found] or ["no items"]
    return ok(data, "".join(f"{row}\n" for row in told))


def item_rows(record: Record, item: Item) -> list[tuple[str, str, str]]:
    """Key, number and what it stands for, of an item that is there: first its parts, as on the sheet, where a chain may
    have several."""
    parts = [(f"{item.name}.chain", str(record.chain(item.name)), "")] if len(item.parts) > 1 else []
    own = [number for key, number in record.items() if key.split(".")[0] == item.name]
    return [*parts, *((n.key, str(n), beside(n)) for n in own)] or [(item.name, "", "nothing in it")]


def run_data(placed: Placed, record: Record | None) -> Iterator[Data]:
    for run in placed.runs:
        kind = "fx" if run is FX else said(placed, run, record)[1]
        data = {"hi": run.hi, "lo": run.lo, "bits": f"{placed.bits(run):0{run.width}b}", "kind": kind}
        number = number_data(placed.number(run, record)) if kind == "number" else {"key": run.key} if run.flag else {}
        yield {**data, **number}


def line_data(placed: Placed, record: Record | None) -> Data:
    runs = list(run_data(placed, record)) if placed.whole else []
    return {
        "at": placed.at,
        "octets": hexed(placed.octets),
        "item": placed.item.name,
        "line": placed.line.name,
        "runs": runs,
    }


def map_data(cat: int, field: bytes, record: Record | None, refused: Refused | None) -> Data:
    """The parts and subfields that were read."""
    return {"lines": [line_data(placed, record) for placed in read_lines(cat, field, refused)]}


def title(cat: int) -> str:
    known = CATEGORIES.get(cat)
    return f"category {cat:03}, edition {known.edition} (document {known.document})" if known else f"category {cat:03}"


def map_text(found: list[Row], paint: Paint) -> str:
    """A row for each run of bits in each octet; what is refused is marked in front."""
    wide, told = max((len(row.name) for row in found), default=0), []
    for row in found:
        at, mark = f"{row.at:3}" if row.octet else "   ", ">" if row.kind == "wrong" else " "
        text = f"{mark}{at}  {row.octet:2}  {row.shown:8}  {row.name:{wide}}  {row.bits:10}  {row.text}"
        told.append(f"{paint(row.kind, text.rstrip())}\n")
    return "".join(told)


def map_of(session: Session, asked: Asked) -> Answer:
    """Every octet beside what it is."""
    cat, field, data = field_data(asked)
    record, refused = reading(session.desk, cat, field)
    data.update(map_data(cat, field, record, refused))
    told = map_text(rows(cat, field, record, refused), session.paint)
    if refused:
        return no(data, refused, f"{title(cat)}: {session.paint('wrong', str(refused))}\n\n{told}")
    return ok(data, f"{title(cat)}: accepted\n\n{told}")


# ---- why


def why_data(told: Why) -> Data:
    data: Data = {"is": told.bits, "may_be": told.right, "facts": [*told.subject, *told.facts]}
    return {**data, "mended": hexed(told.mended[told.made :])} if told.mended else data


def why_text(told: Why, headline: str, paint: Paint) -> str:
    marked = [paint("wrong", row) if row.endswith("^^") else row for row in told.marked()]
    bits = [f"  {row}" for row in told.compared()]
    return "\n".join([paint("wrong", headline), "", *marked, "", *told.subject, *bits, *told.facts, ""])


def advice(refused: Refused) -> str:
    """What docs/PROTOCOL.md says to do, in the words of a person."""
    text = refused.advice.replace("PLACE", f"octet {refused.place}").replace("CAT", "the category")
    return text[:1].upper() + text[1:]


def why_of(session: Session, asked: Asked) -> Answer:
    """Why a field is refused, or an edit of one that is accepted."""
    cat, field, data = field_data(asked)
    edited = edit(session, asked) if session.given.item else None
    refused = refusal(session.desk, cat, field)
    if refused:
        told = why(session.desk, cat, field, refused)
        return no(
            {**data, "why": why_data(told)},
            refused,
            f"{why_text(told, str(refused), session.paint)}{advice(refused)}\n",
        )
    if edited is None or edited.accepted:
        return ok(edited.data if edited else data, f"accepted\n{edited.text if edited else ''}")
    return why_not(session, asked, edited)


def why_not(session: Session, asked: Asked, edited: Answer) -> Answer:
    """Of an edit that the desk refuses, and not the field."""
    item, new, facts = session.given.item, new_octets(asked, session.given), []
    if edited.data["refused"]["number"] == 13:
        booked = ", ".join(sorted(listed(asked, session.given.slot, "--slot")))
        facts = [f"The slot is booked for {booked}, and {item} is not among them."]
    told = None if facts else why_new(session.desk, asked.cat(), item, new or b"")
    if told:
        return Answer(False, {**edited.data, "why": why_data(told)}, why_text(told, edited.complaint, session.paint))
    facts = facts or [f"There are no octets for {item}; to take an item away is a removal."]
    return Answer(
        False,
        {**edited.data, "why": {"facts": facts}},
        "\n".join([session.paint("wrong", edited.complaint), "", *facts, ""]),
    )


# ---- commands that write a field, or show an item


def listed(asked: Asked, options: list[str], option: str) -> frozenset[str]:
    """The items of a list for a line's category: `RPC,ERR` is for every category, `48=RPC,ERR` for that one; where
    several are for it, those of all of them."""
    found: set[str] = set()
    for text in options:
        cat, given, names = text.rpartition("=")
        if given and not cat.strip().isdecimal():
            raise Usage(f"{option} {text!r} is no list; one is RPC,ERR or 48=RPC,ERR")
        if not given or int(cat) == asked.cat():
            found |= {name.strip() for name in names.split(",")} - {""}
    if not found:
        raise Usage(f"{option} names no items for category {asked.cat():03}")
    return slot(*found)


def new_octets(asked: Asked, given: argparse.Namespace) -> bytes | None:
    return None if given.to is None else asked.octets(given.to, "an item", NEW)


def written(data: Data, call: Callable[..., bytes], *args: Any) -> Answer:
    """A field as a line that every command takes."""
    try:
        result = call(*args)
    except Refused as refused:
        return no(data, refused)
    return ok({**data, "result": hexed(result)}, f"{data['cat']} {hexed(result)}\n")


def edit(session: Session, asked: Asked) -> Answer:
    """The field after an edit by a slot."""
    cat, field, data = field_data(asked)
    slots, item, new = listed(asked, session.given.slot, "--slot"), session.given.item, new_octets(asked, session.given)
    if new is None:
        return written(data, session.desk.remove, cat, field, slots, item)
    return written(data, session.desk.replace, cat, field, slots, item, new)


def copy(session: Session, asked: Asked) -> Answer:
    """The visitors' copy."""
    cat, field, data = field_data(asked)
    return written(data, session.desk.copy, cat, field, listed(asked, session.given.withhold, "--withhold"))


def write(session: Session, asked: Asked) -> Answer:
    """A record by its keys; `M5N.chain` is the parts of a chain, as on the sheet."""
    cat = asked.cat()
    told: dict[str, int] = {}
    for word in asked.words[1:]:
        key, _, value = word.partition("=")
        if not re.fullmatch("-?[0-9]{1,10}", value):
            raise Usage(f"{shortened(word)!r} is no KEY=NUMBER, as ERR=65536")
        if key in told:
            raise Usage(f"{key} is given twice")
        told[key] = int(value)
    parts = {key.removesuffix(".chain"): count for key, count in told.items() if key.endswith(".chain")}
    numbers = {key: number for key, number in told.items() if not key.endswith(".chain")}
    record = Record(cat).changed(numbers, parts) if cat in CATEGORIES else Record(cat)
    return written({"cat": cat}, session.desk.write, record)


def view(session: Session, asked: Asked) -> Answer:
    """An item's octets, and where they stand."""
    cat, field, data = field_data(asked)
    try:
        start, octets = session.desk.view(cat, field, session.given.item)
    except Refused as refused:
        return no(data, refused)
    data.update(item=session.given.item, start=start, octets=hexed(octets))
    return ok(data, f"{session.given.item} at octet {start}: {octets.hex(' ').upper()}\n")


def choose(session: Session, asked: Asked) -> Answer:
    """An item's octets, the field that they are of, and where they stand."""
    if len(asked.words) != 3:
        raise Usage("a choice is asked as CATEGORY BASE CORRECTION, each field as one word")
    base, correction = (asked.octets(word, "a field", FIELD) for word in asked.words[1:])
    data: Data = {"cat": asked.cat(), "base": hexed(base), "correction": hexed(correction), **behind(base, correction)}
    try:
        which, start, octets = session.desk.choose(asked.cat(), base, correction, session.given.item)
    except Refused as refused:
        return no(data, refused)
    data.update(item=session.given.item, which=which, start=start, octets=hexed(octets))
    return ok(data, f"{session.given.item} of the {which} at octet {start}: {octets.hex(' ').upper()}\n")


def rebuild(session: Session, text: bytes) -> Answer:
    """The field of a sheet, as a line that every command takes."""
    try:
        cat, octets = session.desk.rebuild(text)
    except Refused as refused:
        return no({}, refused)
    return ok({"cat": cat, "result": hexed(octets)}, f"{cat} {hexed(octets)}\n")
