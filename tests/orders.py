"""Requests of two edits, the one first and the other first, from tests/reference.py and tests/papers.py alone, the same at every run.

A pair is (category, items of the field, one edit, another), an edit (list, item number, new octets), None for a removal. Every edit has the category's
longest field as room, but for those of TIGHT. The second is given the field that the first gave, and once more the whole output that begins with it.
"""
import functools
import itertools

from edits import ALL, few, numbers_of, request, set_item, whole
from fields import field_of, item_octets, ones, whole_item, zero
from papers import PAPERS
from records import bit_of
from reference import edit

WAYS = list(itertools.product((False, True), repeat=4))  # the one is there, the other is there, the one is removed, the other is removed
AGAIN = list(itertools.product((False, True), range(3), range(3)))  # one item: it is there, and the form of the first edit and of the second
BASE = {2: b"\x06", 4: b"\x01\0\0"}  # 06 28 06 01 00 00 of category 48
WORKED = [  # by hand, of BASE: two edits of two items, then the octets that both orders give
    ((0x28, 5, "02 00 00"), (0x28, 3, None), "05 08 02 00 00"),
    ((0x18, 4, "80 07"), (0x18, 5, None), "05 30 06 80 07"),
    ((0x10, 4, "80 07"), (0x08, 5, "02 00 00"), "08 38 06 80 07 02 00 00"),
    ((0x20, 3, None), (0x08, 5, None), "02 00"),
    ((0x30, 4, None), (0x30, 3, None), "05 08 01 00 00"),
    ((0x30, 4, None), (0xFF, 3, "04"), "06 28 04 01 00 00"),
]
TWICE = [  # of one item: the first edit, the second, then the octets that both and the second alone give
    ((0x08, 5, "02 00 00"), (0x08, 5, "03 00 00"), "06 28 06 03 00 00"),
    ((0x08, 5, None), (0x08, 5, "02 00 00"), "06 28 06 02 00 00"),
    ((0x10, 4, "80 07"), (0xFF, 4, None), "06 28 06 01 00 00"),
    ((0x20, 3, "04"), (0x20, 3, None), "05 08 01 00 00"),
]
TIGHT = [  # of BASE with less room: what one order gives, the other may not
    (6, [(0x18, 4, "80 07")], 11),
    (6, [(0x18, 5, None), (0x18, 4, "80 07")], "05 30 06 80 07"),
    (5, [(0x28, 5, "02 00 00")], 11),
    (5, [(0x28, 3, None), (0x28, 5, "02 00 00")], "05 08 02 00 00"),
    (6, [(0x10, 4, None)], "06 28 06 01 00 00"),
]


def by_hand(*edits):
    return tuple((listed, item, new and bytes.fromhex(new)) for listed, item, new in edits)


@functools.cache
def room_of(cat):
    """The longest field: every item with every part and subfield."""
    return len(field_of(whole(cat)))


def start(cat):
    """Every item, each with other octets than `forms` has."""
    return few(cat, 1)


@functools.cache
def forms(cat, item):
    """What an edit makes of an item: nothing, short with zeros, whole with ones."""
    layout = PAPERS[cat][item - 1]
    return None, item_octets(layout, min(1, len(layout[1])), [], zero), whole_item(layout, ones)


# ---- pairs

def pair(cat, one, other, way):
    """Two items in a field with all others; the slot's list has the two, and the other member's every place."""
    items = start(cat)
    for item, there in zip((one, other), way):
        items = items if there else set_item(items, item, None)
    edits = ((item, None if gone else forms(cat, item)[-1]) for item, gone in zip((one, other), way[2:]))
    return cat, items, *((listed, *which) for listed, which in zip((bit_of(one - 1) | bit_of(other - 1), ALL), edits))


def pairs(cat):
    """Every two items in every way."""
    yield from (pair(cat, *two, way) for two in itertools.combinations(numbers_of(cat), 2) for way in WAYS)


def some_pairs(cat):
    """Every way, each of other two items than the way before."""
    two = list(itertools.combinations(numbers_of(cat), 2))
    yield from (pair(cat, *two[3 * k % len(two)], way) for k, way in enumerate(WAYS))


def repeated(cat, item, there, *edits):
    """One item twice, in a field with all others."""
    items = start(cat) if there else set_item(start(cat), item, None)
    return cat, items, *((bit_of(item - 1), item, forms(cat, item)[form]) for form in edits)


def twice(cat):
    """Every item in every way."""
    yield from (repeated(cat, item, *way) for item in numbers_of(cat) for way in AGAIN)


def some_twice(cat):
    """Every way, each of another item than the way before."""
    yield from (repeated(cat, k % len(PAPERS[cat]) + 1, *way) for k, way in enumerate(AGAIN))


# ---- edits one after the other

def in_turn(cat, field, edits, room, filled):
    """The requests of the edits, each of what the one before gave, filled up to a whole output or as it is; the last answer."""
    asked = []
    for listed, item, new in edits:
        asked.append(request(room, cat, field, listed, item, new))
        answer = edit(cat, field, listed, item, new, room)
        if answer[0] == "ok":
            field = answer[1].ljust(room, b"\xFF") if filled else answer[1]
    return asked, answer


def ways(source, filled):
    """Of different items both orders, of one item both edits and the second alone: the requests and the last answer of each."""
    cat, items, one, other = source
    orders = [(one, other), (other, one)] if one[1] != other[1] else [(one, other), (other,)]
    return [in_turn(cat, field_of(items), edits, room_of(cat), filled) for edits in orders]


def sources():
    yield from ((48, BASE, *by_hand(one, other)) for one, other, _ in WORKED + TWICE)
    for cat in PAPERS:
        yield from itertools.chain(some_pairs(cat), some_twice(cat))


def requests():
    for source, filled in itertools.product(sources(), (False, True)):
        yield from itertools.chain.from_iterable(asked for asked, _ in ways(source, filled))
    for room, edits, _ in TIGHT:
        yield from in_turn(48, field_of(BASE), by_hand(*edits), room, False)[0]


# ---- what the pairs reach

def due(source):
    """The field of the items as they stand at the end, without an edit."""
    _, items, *edits = source
    for _, item, new in edits:
        items = set_item(items, item, new)
    return field_of(items)


def both_end(source, field):
    """Both ways end with the field, whatever is handed on between."""
    return all(answer == ("ok", field) for filled in (False, True) for _, answer in ways(source, filled))


def kind_of(source):
    """Whether each of the two is there, and whether it is removed."""
    _, items, *edits = source
    return *(item - 1 in items for _, item, _ in edits), *(new is None for _, _, new in edits)


def covered():
    """Both orders, and the later alone, end with the field that is due: by hand, and for every two items in every way."""
    assert [room_of(cat) for cat in (48, 21, 7)] == [52, 31, 38]
    assert all(both_end((48, BASE, *by_hand(one, other)), bytes.fromhex(field)) for one, other, field in WORKED + TWICE)
    for room, edits, last in TIGHT:
        answer = in_turn(48, field_of(BASE), by_hand(*edits), room, False)[1]
        assert answer == (("refused", last, 0) if isinstance(last, int) else ("ok", bytes.fromhex(last))), edits
    for cat in PAPERS:
        assert all(len({start(cat)[item - 1], *forms(cat, item)}) == 4 for item in numbers_of(cat))
        assert all(both_end(source, due(source)) for source in itertools.chain(pairs(cat), twice(cat)))
        assert set(map(kind_of, some_pairs(cat))) == set(WAYS)
        assert {kind_of(source)[1:] for source in some_twice(cat)} == set(itertools.product((False, True), repeat=3))
