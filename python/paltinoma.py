"""The Reserved Expansion Field of ASTERIX categories 048, 021 and 007, for Python.

A `Desk` is one process of the proved program `refdesk`. This module writes the requests and takes the answers apart,
and refuses by itself only what the protocol has no word for. Octets are `bytes`, items and lists go by the names that
the papers print, and a refusal is the exception `Refused`.

    >>> field = bytes.fromhex("062806010000")
    >>> with Desk() as desk:
    ...     print(desk.read(48, field)["ERR"].text)
    ...     print(desk.replace(48, field, slot("RPC", "ERR"), "ERR", b"\\2\\0\\0").hex())
    256 NM
    062806020000

It needs the standard library alone, Python 3.10 or later, and paltinoma.json beside it, which has the layouts: made
from the papers' data, as docs/NUMBERS.md is. docs/PROTOCOL.md has the requests that the methods send.
"""
from __future__ import annotations

import json
import operator
import os
import platform
import shutil
import signal
import subprocess
import threading
from collections.abc import Callable, Iterable, Iterator, Mapping
from dataclasses import dataclass, replace
from fractions import Fraction
from functools import cached_property
from pathlib import Path
from types import TracebackType
from typing import Any, NamedTuple, TypeVar, Union

__all__ = [
    "CATEGORIES",
    "Category",
    "Choice",
    "Desk",
    "DeskFailed",
    "DeskMissing",
    "Field",
    "Item",
    "Line",
    "LONGEST",
    "Number",
    "Octets",
    "Record",
    "REFUSALS",
    "Refused",
    "Run",
    "category",
    "slot",
    "UnknownName",
    "View",
]

HERE = Path(__file__).resolve().parent
LONGEST_TEXT = 32768  # octets of a text that may be a sheet (02, Ask 6)
WHICH = ("", "base", "correction")  # the field that an answer of `choose` is about
PATIENCE = 5  # seconds that a closed desk has to end

Octets = Union[bytes, bytearray, memoryview]
T = TypeVar("T")


# ---- the layouts, from paltinoma.json


@dataclass(frozen=True)
class Run:
    """Bits hi to lo of a chain part or subfield, 1 being its last: a number of the record, or spare bits."""

    hi: int
    lo: int
    slot: int | None = None  # the number's place in the record; spare bits have none
    key: str = ""  # as the sheet prints it; of a presence flag, that of the subfield
    flag: bool = False  # whether it says that a subfield is there; such a number is not on the sheet
    signed: bool = False  # two's complement
    limits: tuple[int, int] | None = None  # where they are checked
    lsb: Fraction | None = None  # in the unit; a flag or a code has none
    unit: str = ""
    start: int = 0  # what the number 0 stands for, in the unit
    ends: bool = False  # whether the lowest and the highest number stand for all that lies beyond, too
    code: bool = False  # whether the number is no count of its LSB; the note says why
    octal: bool = False  # whether the paper gives the code in octal
    note: str = ""

    @property
    def bits(self) -> str:
        """Their numbers, as 'bits 30/17' or 'bit 14'."""
        return f"bit {self.hi}" if self.hi == self.lo else f"bits {self.hi}/{self.lo}"

    @property
    def width(self) -> int:
        """How many bits there are."""
        return self.hi - self.lo + 1


@dataclass(frozen=True)
class Line:
    """A chain part, a subfield, or an item of fixed length."""

    name: str
    octets: int
    runs: tuple[Run, ...]
    chain: bool = False  # a chain part: the last bit, which is in no run, is FX
    below: int = 0  # bits of later parts that the paper numbers below these


@dataclass(frozen=True)
class Item:
    """An item of a category; `number` is 1 for bit 8 of the indicator."""

    number: int
    name: str
    title: str
    section: str  # of the category's document
    lines: tuple[Line, ...]

    @property
    def bit(self) -> int:
        """Its octet in a list or indicator."""
        return 0x80 >> self.number - 1

    @cached_property
    def parts(self) -> tuple[Line, ...]:
        """The parts of its chain; none in an item of fixed length."""
        return tuple(line for line in self.lines if line.chain)

    @cached_property
    def _flags(self) -> dict[str, tuple[int, Run]]:
        return {run.key: (k, run) for k, part in enumerate(self.parts, 1) for run in part.runs if run.flag}

    def flag(self, line: Line) -> tuple[int, Run] | None:
        """The part, counted from 1, and the bit in it that say whether a subfield is there; other lines have none."""
        return self._flags.get(f"{self.name}.{line.name}")


@dataclass(frozen=True)
class Category:
    """A category, in the edition that is built."""

    number: int
    edition: str
    document: str
    section: str  # of the items indicator
    longest: int  # octets of its longest field
    spare: tuple[Run, ...]  # of the items indicator
    items: tuple[Item, ...]

    def runs(self) -> Iterator[tuple[Item, Line, Run]]:
        """Every run of bits of its items, with where it stands."""
        return ((item, line, run) for item in self.items for line in item.lines for run in line.runs)

    def item(self, name: str) -> Item:
        """The item of that name."""
        for item in self.items:
            if item.name == name:
                return item
        names = ", ".join(item.name for item in self.items)
        raise UnknownName(f"category {self.number:03} has no item {name!r}; it has {names}")

    def number_at(self, key: str) -> tuple[Item, Line, Run]:
        """Where the number with that key of the sheet stands."""
        for item, line, run in self.runs():
            if run.key == key and not run.flag:
                return item, line, run
        raise UnknownName(f"category {self.number:03} has no number {key!r}")


class Refusal(NamedTuple):
    """What docs/PROTOCOL.md says of a number of refusal."""

    words: str
    advice: str


def _run(raw: dict[str, Any]) -> Run:
    limits, lsb = raw.pop("limits", None), raw.pop("lsb", None)
    return Run(limits=(limits[0], limits[1]) if limits else None, lsb=Fraction(*lsb) if lsb else None, **raw)


def _line(raw: dict[str, Any]) -> Line:
    return Line(runs=tuple(map(_run, raw.pop("runs"))), **raw)


def _item(raw: dict[str, Any]) -> Item:
    return Item(lines=tuple(map(_line, raw.pop("lines"))), **raw)


def _category(raw: dict[str, Any]) -> Category:
    return Category(spare=tuple(map(_run, raw.pop("spare"))), items=tuple(map(_item, raw.pop("items"))), **raw)


_DATA = json.loads((HERE / "paltinoma.json").read_text(encoding="utf-8"))
CATEGORIES: dict[int, Category] = {raw["number"]: _category(raw) for raw in _DATA["categories"]}
REFUSALS: dict[int, Refusal] = {raw["number"]: Refusal(raw["words"], raw["advice"]) for raw in _DATA["refusals"]}
LONGEST = max(known.longest for known in CATEGORIES.values())  # octets; as room it is enough for every result
SLOTS: int = _DATA["slots"]  # places of a record for numbers


def category(cat: int) -> Category:
    """The category of that number."""
    if cat not in CATEGORIES:
        raise UnknownName(f"no paper has category {cat}; there are {', '.join(map(str, CATEGORIES))}")
    return CATEGORIES[cat]


# ---- what can go wrong


class Refused(Exception):
    """The desk refused: `number` and `words` say why, `place` at which octet, counted from LEN (of a sheet: at which
    line, from 1). `which` is 'base' or 'correction' where `choose` refused one of them, else ''."""

    def __init__(self, number: int, place: int, which: str = "") -> None:
        super().__init__(number, place, which)
        self.number, self.place, self.which = number, place, which

    @property
    def words(self) -> str:
        """What the number says."""
        return REFUSALS[self.number].words

    @property
    def advice(self) -> str:
        """What to do, as docs/PROTOCOL.md has it."""
        return REFUSALS[self.number].advice

    @property
    def where(self) -> str:
        """The place in words; '' where it is 0 for want of a place."""
        place = (
            f"at line {self.place}" if self.number == 18 else f"at octet {self.place}" if 1 < self.number < 10 else ""
        )
        return f"{place} of the {self.which}" if self.which else place

    def __str__(self) -> str:
        return f"refused by {self.number}{' ' * bool(self.where)}{self.where}: {self.words}"


class DeskFailed(Exception):
    """The program ended, or what it answered is no whole answer. What was asked has no answer: open a desk and ask
    again."""


class DeskMissing(DeskFailed):
    """The program is not there, or can't be started."""


class UnknownName(ValueError):
    """There is no item or number of that name."""


# ---- what a request is made of and what it gives


def slot(*names: str) -> frozenset[str]:
    """What a slot was booked for: items by the names of their papers. As a list of withheld items it serves, too."""
    every = {item.name for known in CATEGORIES.values() for item in known.items}
    for name in names:
        if name not in every:
            raise UnknownName(f"no category has an item {name!r}")
    return frozenset(names)


class View(NamedTuple):
    """An item's octets, and where they begin in their field."""

    start: int
    octets: bytes


class Choice(NamedTuple):
    """An item's octets, which field they are of ('base' or 'correction'), and where they begin in it."""

    which: str
    start: int
    octets: bytes


class Field(NamedTuple):
    """A field and its category."""

    cat: int
    octets: bytes


class Number(int):
    """A number of a record: the integer that the record holds, with what its paper says of it."""

    run: Run

    def __new__(cls, number: int, run: Run) -> Number:
        made = super().__new__(cls, number)
        made.run = run
        return made

    def __getnewargs__(self) -> tuple[int, Run]:  # type: ignore[override]
        return int(self), self.run

    @property
    def key(self) -> str:
        """As the sheet prints it."""
        return self.run.key

    @property
    def unit(self) -> str:
        """The unit of `value`; '' if there is no value."""
        return "" if self.value is None else self.run.unit

    @property
    def value(self) -> Fraction | None:
        """What it stands for in its unit, exactly; None for a flag and for a code."""
        return None if self.run.lsb is None or self.run.code else self.run.start + int(self) * self.run.lsb

    @property
    def sense(self) -> str:
        """'atmost' or 'atleast' where it stands for all beyond its value, too; else 'equal'."""
        ends = {0: "atmost", 2**self.run.width - 1: "atleast"} if self.run.ends else {}
        return ends.get(int(self), "equal")

    @property
    def text(self) -> str:
        """What it stands for: the value with its unit, a code in octal; else the bare number."""
        if self.value is None:
            return f"octal {int(self):0{self.run.width // 3}o}" if self.run.octal else str(int(self))
        beyond = {"atmost": " or less", "atleast": " or more", "equal": ""}[self.sense]
        return f"{_decimal(self.value)} {self.unit}{beyond}"


def _decimal(value: Fraction) -> str:
    """Exact with up to eight places; else the nearest with six, halves away from zero, and 'about' in front."""
    places = next((k for k in range(9) if (value * 10**k).denominator == 1), None)
    shown = 6 if places is None else places
    digits = str(int(abs(value) * 10**shown + Fraction(1, 2))).rjust(shown + 1, "0")
    text = f"{digits[:-shown]}.{digits[-shown:]}" if shown else digits
    return ("about " if places is None else "") + ("-" if value < 0 else "") + text


@dataclass(frozen=True, repr=False)
class Record(Mapping[str, Number]):
    """What a field holds. As a mapping it has each number that is there, by its key on the sheet, in their order; what
    is absent is not in it. `indicator` has the items, `parts` the chain of each, `numbers` the slots of the page
    docs/NUMBERS.md."""

    cat: int
    indicator: int = 0
    parts: tuple[int, ...] = (0,) * 8
    numbers: tuple[int, ...] = (0,) * SLOTS

    def __post_init__(self) -> None:
        if (len(self.parts), len(self.numbers)) != (8, SLOTS):
            given = f"{len(self.parts)} and {len(self.numbers)}"
            raise ValueError(f"a record has the parts of 8 chains and {SLOTS} numbers, and not {given}")

    @property
    def present(self) -> tuple[str, ...]:
        """The names of its items."""
        return tuple(item.name for item in self._items())

    def chain(self, name: str) -> int:
        """How many parts the chain of an item has; 0 if it is absent or has none."""
        return self.parts[category(self.cat).item(name).number - 1]

    def changed(self, numbers: Mapping[str, int], parts: Mapping[str, int] | None = None) -> Record:
        """A record with these numbers by key, and with so many parts in the chains of these items. What a number
        stands in is there then, too, with the parts that it needs; `write` refuses by 10 what no field holds."""
        paper, made = category(self.cat), self
        for key, number in numbers.items():
            item, line, run = paper.number_at(key)
            flag = item.flag(line)
            needed = flag[0] if flag else item.lines.index(line) + 1 if line.chain else 0
            made = made._there(item, max(made.parts[item.number - 1], needed))
            made = made._put(run, number)._put(flag[1], 1) if flag else made._put(run, number)
        for name, count in (parts or {}).items():
            made = made._there(paper.item(name), count)
        return made

    def _there(self, item: Item, count: int) -> Record:
        k = item.number - 1
        parts = self.parts[:k] + (count,) + self.parts[k + 1 :]
        return replace(self, indicator=self.indicator | item.bit, parts=parts)

    def _put(self, run: Run, number: int) -> Record:
        return replace(self, numbers=tuple(number if k == run.slot else old for k, old in enumerate(self.numbers)))

    def _items(self) -> Iterator[Item]:
        items = CATEGORIES[self.cat].items if self.cat in CATEGORIES else ()
        return (item for item in items if self.indicator & item.bit)

    def lines(self) -> Iterator[tuple[Item, Line]]:
        """The chain parts and subfields that are there, in their order in the field."""
        for item in self._items():
            for k, line in enumerate(item.lines):
                flag = item.flag(line)
                if k < self.parts[item.number - 1] if line.chain else flag is None or self.of(flag[1]) == 1:
                    yield item, line

    def of(self, run: Run) -> int:
        """The number in its slot."""
        return 0 if run.slot is None else self.numbers[run.slot]

    @cached_property
    def _there_by_key(self) -> dict[str, Number]:
        return {
            run.key: Number(self.of(run), run)
            for _, line in self.lines()
            for run in line.runs
            if run.key and not run.flag
        }

    def __iter__(self) -> Iterator[str]:
        return iter(self._there_by_key)

    def __len__(self) -> int:
        return len(self._there_by_key)

    def __getitem__(self, key: str) -> Number:
        return self._there_by_key[key]

    def __repr__(self) -> str:
        return (
            f"Record({self.cat}, {', '.join(self.present) or 'no items'}: {({key: int(n) for key, n in self.items()})})"
        )


# ---- words of requests and answers


def _cat(cat: int) -> int:
    """An octet; 0, which no paper has, in the place of a number that is no octet."""
    return operator.index(cat) if 0 <= cat <= 255 else 0


def _hex(octets: Octets, most: int) -> str:
    """The first octets, as many as can matter."""
    return bytes(memoryview(octets))[:most].hex().upper() or "-"


def _field(octets: Octets) -> str:
    return _hex(octets, 255)  # 01: octets after the first LEN are never looked at


def _room(room: int) -> int:
    if room < 0:
        raise ValueError(f"a room has 0 octets or more, and not {room}")
    return min(operator.index(room), 300)  # of more the protocol has no word, and every result has room in it


def _sendable(record: Record) -> bool:
    """Whether the protocol has a word for each part and number of a record."""
    octets = (record.indicator, *record.parts)
    return all(0 <= n <= 255 for n in octets) and all(-1 << 31 <= n < 1 << 31 for n in record.numbers)


def _named(cat: int, names: Iterable[str]) -> list[Item]:
    """The items of these names; none in a category without a paper, which is refused before an item or a list is
    looked at."""
    if isinstance(names, str):
        raise UnknownName(f"a list is made of names, as slot({names!r}), and is none itself")
    return [category(cat).item(name) for name in set(names)] if cat in CATEGORIES else []


def _number(cat: int, name: str) -> int:
    return next((item.number for item in _named(cat, slot(name))), 0)


def _list(cat: int, names: Iterable[str]) -> str:
    return f"{sum(item.bit for item in _named(cat, names)):02X}"


def _octets(word: str) -> bytes:
    return b"" if word == "-" else bytes.fromhex(word)


def _view(start: str, length: str, octets: str) -> View:
    if int(length) != len(_octets(octets)):
        raise ValueError(octets)
    return View(int(start), _octets(octets))


def _choice(which: str, start: str, length: str, octets: str) -> Choice:
    return Choice({"1": WHICH[1], "2": WHICH[2]}[which], *_view(start, length, octets))


def _record(length: str, cat: str, items: str, *rest: str) -> Record:
    _, *numbers = map(int, (length, *rest))
    return Record(int(cat), int(items), tuple(numbers[:8]), tuple(numbers[8:]))


def _rebuilt(cat: str, octets: str) -> Field:
    return Field(int(cat), _octets(octets))


def _sheet(*lines: str) -> str:
    keys = [line.partition("=")[0] for line in lines]
    if keys[:3] != ["cat", "len", "items"] or lines[-1] != "end=ok" or not all("=" in line for line in lines):
        raise ValueError(lines)
    return "".join(line + "\n" for line in lines)


def _refused(number: str, place: str) -> Refused:
    if int(number) not in REFUSALS or int(place) < 0:
        raise ValueError(number, place)
    return Refused(int(number), int(place))


def _refused_choice(number: str, place: str, which: str) -> Refused:
    refused = _refused(number, place)
    return Refused(refused.number, refused.place, dict(zip("012", WHICH))[which])


# ---- the desk


def _program(program: str | os.PathLike[str] | None = None) -> str:
    """The program: the one that is named, or else by $REFDESK; or the one that was built or installed with this file;
    or `refdesk` on the PATH."""
    named = program or os.environ.get("REFDESK")
    if named:
        return shutil.which(os.fspath(named)) or os.fspath(named)
    built = [str(HERE.parent / folder / "refdesk") for folder in ("target/bin", "bin")]
    path = next(filter(os.path.isfile, built), None) or shutil.which("refdesk")
    if path is None and (HERE.parent / "crates.txt").exists():
        raise DeskMissing(f"refdesk is not built yet: `make` in {HERE.parent} builds it, which takes some minutes")
    if path is None:
        raise DeskMissing("there is no refdesk: put it on the PATH, or its path into $REFDESK")
    return path


def _command(program: str) -> list[str]:
    """How it is started. A build is for x86-64, and bin/run has the kit's emulator run it on another processor."""
    with open(program, "rb") as file:
        foreign = file.read(4) == b"\x7fELF" and platform.machine() != "x86_64"
    run = HERE.parent / "bin" / "run"
    if foreign and not run.is_file():
        raise DeskMissing(f"{program} is for x86-64, and {run}, which has it emulated, is not there")
    return [str(run), os.path.abspath(program)] if foreign else [program]


class Desk:
    """One `refdesk` process. Use it in a `with` block, or close it. Threads may share it: their requests take turns.
    A process that was forked opens a desk of its own.

    A field goes by its category and its octets from LEN on, an item by its name, a list by the names of its items.
    Where an output has a room, that is how many octets it has; `LONGEST` is enough for every field. Each method gives
    the result or raises `Refused`; no method has another effect."""

    def __init__(self, program: str | os.PathLike[str] | None = None) -> None:
        self.program = _program(program)
        self._turn, self._opener = threading.Lock(), os.getpid()
        try:  # in a session of its own, so that what a terminal sends to the caller does not end it
            self._process = subprocess.Popen(
                _command(self.program), stdin=subprocess.PIPE, stdout=subprocess.PIPE, start_new_session=True
            )
        except OSError as error:
            raise DeskMissing(f"{self.program} can't be started: {error.strerror}") from None
        assert self._process.stdin and self._process.stdout
        self._to, self._from = self._process.stdin, self._process.stdout

    def __enter__(self) -> Desk:
        return self

    def __exit__(
        self, kind: type[BaseException] | None, error: BaseException | None, trace: TracebackType | None
    ) -> None:
        self.close()

    def close(self) -> None:
        """Ends the process. A closed desk answers nothing more. So another thread, or a handler of a signal, can end a
        desk that stalls: the request that waits finds its answer missing."""
        if self._opener != os.getpid():
            return
        if not self._turn.acquire(timeout=PATIENCE):
            self._kill()
            return
        try:
            self._end()
        finally:
            self._turn.release()

    # ---- the requests

    def read(self, cat: int, field: Octets) -> Record:
        """The record of a field."""
        return self._ask(_record, "read", _cat(cat), _field(field))

    def write(self, record: Record, room: int = LONGEST) -> bytes:
        """The field of a record."""
        self._check()
        if not _sendable(record):
            raise Refused(10 if record.cat in CATEGORIES else 1, 0)  # no field reads to it; 01's order: 1, 10, 11
        words = (_cat(record.cat), record.indicator, *record.parts, *record.numbers)
        return self._ask(_octets, "write", _room(room), *map(operator.index, words))

    def sheet(self, cat: int, field: Octets) -> str:
        """The sheet of a field: key=value lines, each with its line feed."""
        return self._ask(_sheet, "sheet", _cat(cat), _field(field))

    def view(self, cat: int, field: Octets, item: str) -> View:
        """An item's own part of a field."""
        return self._ask(_view, "view", _cat(cat), _field(field), _number(cat, item))

    def choose(self, cat: int, base: Octets, correction: Octets, item: str) -> Choice:
        """An item's part of a correction, or else of its base."""
        return self._ask(_choice, "choose", _cat(cat), _field(base), _field(correction), _number(cat, item))

    def remove(self, cat: int, field: Octets, listed: Iterable[str], item: str, room: int = LONGEST) -> bytes:
        """A field without an item, by a slot that was booked for the listed ones."""
        return self._ask(
            _octets, "remove", _cat(cat), _field(field), _list(cat, listed), _number(cat, item), _room(room)
        )

    def replace(
        self, cat: int, field: Octets, listed: Iterable[str], item: str, new: Octets, room: int = LONGEST
    ) -> bytes:
        """A field with new octets in an item's place, or with the item added, by a slot that was booked for the
        listed ones."""
        octets = _hex(new, 254)  # 01: more than 253 are refused by 14, whatever they are
        return self._ask(
            _octets, "replace", _cat(cat), _field(field), _list(cat, listed), _number(cat, item), octets, _room(room)
        )

    def copy(self, cat: int, field: Octets, withheld: Iterable[str], room: int = LONGEST) -> bytes:
        """A field without the items that are withheld."""
        return self._ask(_octets, "copy", _cat(cat), _field(field), _list(cat, withheld), _room(room))

    def rebuild(self, text: str | Octets, room: int = LONGEST) -> Field:
        """The category and the field whose sheet a text is."""
        self._check()
        octets = text.encode("utf-8", "replace") if isinstance(text, str) else bytes(memoryview(text))
        if len(octets) > LONGEST_TEXT:
            raise Refused(18, 0)  # 02, Ask 6; such a text is longer than a line of the protocol
        # no sheet has as many octets as a word may have, so that a longer text is wrong at a line that begins in these
        return self._ask(_rebuilt, "rebuild", _hex(octets, 4096), _room(room))

    # ---- how they are asked

    def _check(self) -> None:
        if self._opener != os.getpid():
            raise DeskFailed("the desk is another process's, and its answers would be mixed up; open one")
        if self._to.closed:
            raise DeskFailed("the desk is closed")

    def _ask(self, taken: Callable[..., T], name: str, *words: object) -> T:
        """What is taken from the answer. One that is cut short, or has not the form of an answer to that request, ends
        the process before another request has its turn: a late answer would be taken for the next one's."""
        self._check()
        refusals: dict[str, Callable[..., Refused]] = {"choose": _refused_choice}
        with self._turn:
            answer = self._answer(" ".join(map(str, (name, *words))))
            verdict, *rest = answer.split(" ")
            try:
                if verdict == "ok":
                    return taken(*rest)
                if verdict == "refused":
                    raise refusals.get(name, _refused)(*rest)
            except (LookupError, TypeError, ValueError):
                pass
            self._end()
        raise DeskFailed(f"{self.program} gave no answer to {name} but {answer[:100]!r}")

    def _answer(self, line: str) -> str:
        """One line for one line."""
        self._check()
        told = b""
        try:
            self._to.write(line.encode("ascii") + b"\n")
            self._to.flush()
            told = self._from.readline()
        except BrokenPipeError:
            pass  # it is gone, and so is the answer
        finally:
            if not told.endswith(b"\n"):
                self._end()
        if not told.endswith(b"\n"):
            raise DeskFailed(f"{self.program} ended {'within' if told else 'without'} an answer")
        return told[:-1].decode("ascii", "replace")

    def _end(self) -> None:
        for pipe in (self._to, self._from):
            try:
                pipe.close()
            except BrokenPipeError:
                pass  # what was not sent yet has no reader
        try:
            self._process.wait(PATIENCE)
        except subprocess.TimeoutExpired:
            self._kill()
            self._process.wait()

    def _kill(self) -> None:
        try:
            os.killpg(self._process.pid, signal.SIGKILL)
        except ProcessLookupError:
            pass  # it has ended
