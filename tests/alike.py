#!/usr/bin/env python3
"""Holds Python and C to each other: the same 1,000 seeded requests by python/paltinoma.py and by tests/c/alike.c, which calls the functions of
include/refdesk.h. tests/c/run starts both.

    python3 tests/alike.py               the requests, a line each as docs/PROTOCOL.md has them
    python3 tests/alike.py ANSWERS       makes the same requests in Python and compares with these answers, those of C

Items and lists are names in Python and numbers in the lines. Some texts and fields are longer than a word of `refdesk` may be: no octet string is a
fault in either. Where a line is one of the protocol, the answer has to be that of tests/refdesk.py, too.
"""
import random
import sys
from collections import Counter
from pathlib import Path

from drive import some_field
from fields import good_field, good_item
from papers import PAPERS
from refdesk import FORMS, LONGEST, MOST, answer, hexed, line_of
from reference import read, sheet
from spoilt import spoilt

sys.path.insert(0, str(Path(__file__).resolve().parent.parent / "python"))
from paltinoma import WHICH, Choice, Desk, Field, Record, Refused, View, slot  # noqa: E402

COUNT = 1000
UNKNOWN = 49


# ---- requests as the protocol has them: a name and the values of its words

def with_more(rng, field):
    """Some with octets behind LEN, a few with very many."""
    return field + rng.randbytes(rng.choice([0, 0, 0, 3, 300, 5000]))


def some_record(rng, cat):
    """What a field reads to, some with a number moved."""
    cat, items, parts, numbers = read(cat, good_field(cat, rng))[2]
    if rng.randrange(3) == 0:
        numbers[rng.randrange(len(numbers))] += rng.choice([-1, 1, 1 << 20])
    return (cat, items, *parts, *numbers)


def some_text(rng, cat):
    """A sheet, some spoilt, some with very much behind them."""
    text, other = (sheet(bytes([cat]) + good_field(cat, rng)).encode() for _ in range(2))
    return rng.choice([text, text, spoilt(rng, text, other), spoilt(rng, text, other), text + b"x" * 5000, text + b"\n" * 40000])


def request(rng):
    name, cat = rng.choice(list(FORMS)), rng.choice(list(PAPERS))
    number, room = rng.randrange(len(PAPERS[cat])), rng.choice([52, 52, 300, rng.randrange(60)])
    listed, item = rng.randrange(256) & indicated(cat), number + 1
    new = good_item(PAPERS[cat][number], rng) if rng.randrange(4) else rng.randbytes(rng.choice([0, 1, 2, 253, 254, 9000]))
    base, field = (with_more(rng, some_field(rng, cat)) for _ in range(2))
    said = rng.choice([cat] * 20 + [UNKNOWN])
    words = {
        b"read": (said, field), b"sheet": (said, field), b"write": (room, said, *some_record(rng, cat)[1:]), b"view": (said, field, item),
        b"choose": (said, base, field, item), b"remove": (said, field, listed, item, room),
        b"replace": (said, field, listed, item, new, room), b"copy": (said, field, listed, room), b"rebuild": (some_text(rng, cat), room),
    }
    return (name, *words[name])


def indicated(cat):
    """The bits of a category's items: a name has no other."""
    return sum(0x80 >> k for k in range(len(PAPERS[cat])))


def requests():
    rng = random.Random(22)
    return [request(rng) for _ in range(COUNT)]


# ---- the same by Python

def name_of(cat, item):
    """Its name; of an unknown category any, which is refused by 1 before it is looked at."""
    return PAPERS[cat][item - 1][0] if cat in PAPERS else "ERR"


def names_of(cat, listed):
    return slot(*(item[0] for k, item in enumerate(PAPERS.get(cat, [])) if listed & 0x80 >> k))


def asked(desk, name, *values):
    """The method's result, for the values of the words."""
    if name == b"write":
        room, cat, items, *rest = values
        return desk.write(Record(cat, items, tuple(rest[:8]), tuple(rest[8:])), room)
    if name == b"rebuild":
        return desk.rebuild(*values)
    cat, *rest = values
    if name in (b"view", b"choose"):
        rest[-1] = name_of(cat, rest[-1])
    if name == b"copy":
        rest[1] = names_of(cat, rest[1])
    if name in (b"remove", b"replace"):
        rest[1:3] = names_of(cat, rest[1]), name_of(cat, rest[2])
    return getattr(desk, name.decode())(cat, *rest)


def told(got, field):
    """A result as an answer of the protocol."""
    if isinstance(got, Record):
        return f"ok {field[0]} {got.cat} {got.indicator} {' '.join(map(str, got.parts + got.numbers))}"
    if isinstance(got, str):
        return "ok " + " ".join(got.splitlines())
    if isinstance(got, Field):
        return f"ok {got.cat} {hexed(got.octets)}"
    if isinstance(got, View):
        return f"ok {got.start} {len(got.octets)} {hexed(got.octets)}"
    if isinstance(got, Choice):
        return f"ok {WHICH.index(got.which)} {got.start} {len(got.octets)} {hexed(got.octets)}"
    return f"ok {hexed(got)}"


def by_python(desk, name, *values):
    try:
        return told(asked(desk, name, *values), values[1])
    except Refused as refused:
        which = f" {WHICH.index(refused.which)}" if name == b"choose" else ""
        return f"refused {refused.number} {refused.place}{which}"


def is_line(name, values):
    """Whether the protocol has a line for it."""
    return all(len(value) <= MOST for value in values if isinstance(value, bytes)) and len(line_of((name, *values))) <= LONGEST


def compare(answers):
    made, count = requests(), Counter()
    assert len(answers) == len(made), f"{len(answers)} answers by C to {len(made)} requests"
    with Desk() as desk:
        for (name, *values), by_c in zip(made, answers):
            got = by_python(desk, name, *values)
            assert got == by_c, f"{name.decode()}: Python has {got[:200]} and C {by_c[:200]}"
            if is_line(name, values):
                assert got == answer(line_of((name, *values))), f"{name.decode()}: {got[:200]}"
            count[name, got.split()[0]] += 1
    assert set(count) == {(name, word) for name in FORMS for word in ("ok", "refused")}, count
    print(f"alike: {len(made)} requests by Python and by C, 0 differences")


def main(arguments):
    if arguments:
        compare(Path(arguments[0]).read_text().splitlines())
    else:
        print("".join(f"{line_of(one).decode()}\n" for one in requests()), end="")


if __name__ == "__main__":
    main(sys.argv[1:])
