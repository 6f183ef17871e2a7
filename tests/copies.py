"""Requests for the visitors' copy, `copy`, from tests/reference.py and tests/papers.py alone, the same at every run.

A copy is (category, field, list of what is withheld); a vector has the room of the output before it. A generator below gives copies; its first line says
what it aims at. `pairs` gives a list with two fields that differ in withheld items and behind LEN only: their answers have to be the same in every room.
"""
import itertools
import random
from collections import defaultdict

from edits import ALL, BASE, few, numbers_of, refused_fields, spare_places, texts_by_length, whole, wrong_numbers
from fields import UNKNOWN, field_of, good_field, good_item
from papers import PAPERS
from reads import damaged
from records import EMPTY, ENOUGH, bit_of
from reference import copy, edit, read, view

RANDOM = 20  # copies and pairs of each random kind and category
WORKED = [  # by hand, of BASE in category 48: list, room, then the octets or the refusal
    (0x00, 6, "06 28 06 01 00 00"),
    (0x20, 5, "05 08 01 00 00"),
    (0x20, 4, 11),
    (0x08, 3, "03 20 06"),
    (0x08, 2, 11),
    (0x28, 2, "02 00"),
    (0xFF, 2, "02 00"),
    (0xFF, 1, 11),
    (0xD7, 6, "06 28 06 01 00 00"),
    (0x07, 6, "06 28 06 01 00 00"),
    (0x27, 5, "05 08 01 00 00"),
]


# ---- copies

def items_on(cat, listed):
    return [item for item in numbers_of(cat) if listed & bit_of(item - 1)]


def every_list(cat):
    """Every list, for a field with every item whole."""
    yield from ((cat, field_of(whole(cat)), listed) for listed in range(256))


def some_present(cat):
    """Items that are there, withheld or not, and items that are withheld but not there: every item with its neighbours."""
    for item in numbers_of(cat):
        there = {i: octets for i, octets in few(cat).items() if abs(i + 1 - item) <= 1}
        own = bit_of(item - 1)
        yield from ((cat, field_of(there), listed) for listed in (0, own, ALL ^ own, own | bit_of(item % len(PAPERS[cat])), ALL))
        yield from ((cat, field_of({item - 1: octets}), listed) for octets in texts_by_length(cat)[item] for listed in (own, ALL ^ own))


def spare_set(cat):
    """The spare places of the list, alone and together, beside some list and beside none."""
    lists = itertools.product((0, bit_of(1), bit_of(0) | bit_of(4)), range(spare_places(cat) + 1))
    yield from ((cat, field_of(few(cat)), listed | place) for listed, place in lists)


def behind_len(cat):
    """Octets behind LEN, up to slices of 300, are never looked at and never written."""
    field = field_of(few(cat))
    for tail in (b"\0", b"\xFF\xFF", field, b"\xFF" * (300 - len(field))):
        yield from ((cat, field + tail, listed) for listed in (0, bit_of(0), ALL))
    yield from ((cat, EMPTY + tail, listed) for tail in (b"", b"\xFF") for listed in (0, ALL))


def drawn_copies(cat, rng):
    """Any list of any field, as it is and damaged."""
    for _ in range(RANDOM):
        yield cat, good_field(cat, rng), rng.randrange(256)
        yield cat, damaged(good_field(cat, rng), rng), rng.randrange(256)


COPIES = (every_list, some_present, spare_set, behind_len)


# ---- pairs of fields that are alike off a list

def withheld_ways(cat, item, rng):
    """What may stand in a withheld item: nothing, its shortest form, all of it, any."""
    return [None, texts_by_length(cat)[item][0], whole(cat)[item - 1], good_item(PAPERS[cat][item - 1], rng)]


def pairs_of(cat, listed, rng):
    """Each way of one against each way of the other, for all withheld items at once."""
    off = {i: octets for i, octets in few(cat).items() if not listed & bit_of(i)}
    ways = list(zip(*(withheld_ways(cat, item, rng) for item in items_on(cat, listed))))
    fields = [field_of({**off, **{item - 1: octets for item, octets in zip(items_on(cat, listed), way) if octets is not None}}) for way in ways]
    for one, other in itertools.combinations(dict.fromkeys(fields), 2):
        yield listed, one + b"\xFF" * rng.randrange(3), other + b"\0" * rng.randrange(3)


def pairs(cat, rng):
    """One item withheld, all but one, all, and any list."""
    lists = [bit_of(i) for i in range(len(PAPERS[cat]))] + [ALL ^ bit_of(i) for i in range(len(PAPERS[cat]))] + [ALL]
    for listed in lists + [rng.randrange(1, 256) for _ in range(RANDOM // 4)]:
        if items_on(cat, listed):
            yield from pairs_of(cat, listed, rng)


# ---- requests

def due(cat, field, listed):
    """The copy of an accepted field, by the views of its items off the list."""
    shown = {item - 1: view(cat, field, item)[3:] for item in numbers_of(cat) if not listed & bit_of(item - 1)}
    return field_of({i: octets[0] for i, octets in shown.items() if octets})


def rooms(cat, field, listed):
    """At the copy's length, above and below it."""
    length = len(due(cat, field, listed))
    return (length, length - 1, length + 1)


def in_room(source):
    """A room that is just enough, for what is accepted."""
    cat, field, _ = source
    return (len(due(*source)) if read(cat, field)[0] == "ok" else ENOUGH, *source)


def vectors_of(cat, rng):
    for kind in COPIES:
        yield from map(in_room, kind(cat))
    yield from (in_room(source) for source in drawn_copies(cat, rng))
    for listed, *fields in pairs(cat, rng):
        yield from ((room, cat, field, listed) for room in rooms(cat, fields[0], listed) for field in fields)
    for field in refused_fields(cat):
        yield from ((room, cat, field, listed) for room, listed in ((ENOUGH, 0), (0, ALL)))


def vectors():
    rng = random.Random(70210485)
    yield from ((room, 48, BASE, listed) for listed, room, _ in WORKED)
    for cat in PAPERS:
        yield from vectors_of(cat, rng)
    for cat in UNKNOWN:
        yield from ((room, cat, field, ALL) for room, field in ((ENOUGH, BASE), (0, b"")))


def requests():
    yield from ((b"copy", cat, field, listed, room) for room, cat, field, listed in vectors())


# ---- what the copies reach

def by_edits(cat, field, listed):
    """The items on the list removed by the desk, one after the other; the desk lists every place."""
    for item in items_on(cat, listed):
        field = edit(cat, field, ALL, item, None, ENOUGH)[1]
    return field[:field[0]]


def checked(vector):
    """The refusal, 0 for none; held against the one that is due, and the copy against the views and the desk's removals."""
    room, cat, field, listed = vector
    got, reading = copy(cat, field, listed, room), read(cat, field)
    if reading[0] != "ok":
        assert got == reading, vector
        return got[1]
    wanted = due(cat, field, listed)
    assert wanted == by_edits(cat, field, listed), vector
    if len(wanted) > room:
        assert got == ("refused", 11, 0), vector
        return 11
    assert got == ("ok", wanted), vector
    for item in numbers_of(cat):
        before, behind = view(cat, field, item), view(cat, got[1], item)
        assert behind == ("refused", 15, 0) if item in items_on(cat, listed) else behind[0] == before[0] and behind[3:] == before[3:], vector
    assert view(cat, got[1], wrong_numbers(cat)[0]) == ("refused", 12, 0)
    return 0


def covered():
    """Each answer often in each category; pairs that differ in what is withheld are answered alike in every room."""
    counts = defaultdict(int)
    for vector in dict.fromkeys(vectors()):
        counts[vector[1] if vector[1] in PAPERS else None, checked(vector)] += 1
    for cat in PAPERS:
        full = field_of(whole(cat))
        assert len({copy(cat, full, listed, ENOUGH) for listed in range(256)}) == 1 << len(PAPERS[cat])
        assert copy(cat, full, ALL, 2) == ("ok", EMPTY)
        rng = random.Random(cat)
        for listed, one, other in pairs(cat, rng):
            assert one[:one[0]] != other[:other[0]]
            assert all(copy(cat, one, listed, room) == copy(cat, other, listed, room) for room in range(ENOUGH)), (listed, one, other)
        assert min(counts[cat, answer] for answer in (0, 11)) >= 100
        never = {4, 8} if cat == 21 else set()  # it has no spare place and no number with limits
        assert all(counts[cat, number] >= 2 for number in set(range(2, 10)) - never)
    assert counts[None, 1] >= 10
