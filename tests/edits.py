"""Requests that edit, `remove` and `replace`, from tests/reference.py and tests/papers.py alone, the same at every run.

An edit is (category, field, list, item number, new octets), None for a removal; a vector has the room of the output before it. A generator below
gives edits, or vectors where the room matters; its first line says what it aims at. In room enough those of ROOMED and RIGHT are accepted, those of
WRONG refused by 14.
"""
import functools
import itertools
import random
from collections import defaultdict

from fields import UNKNOWN, drawn, field_of, full_field, good_field, good_item, item_octets, items_alone, ones, whole_item
from papers import PAPERS
from reads import bad_fields, chain_over, damaged, numbers_at_their_ends, spare_set, subfields_alone
from records import EMPTY, ENOUGH, bit_of
from reference import edit, read, view

ALL = 0xFF  # the list with every place set
RANDOM = 20  # edits of each random kind and category
FEW = 16  # room for what any edit of a small field gives
BASE = bytes.fromhex("06 28 06 01 00 00")
WORKED = [  # 01, the edits of BASE in category 48: list, item, new octets, then the octets or the refusal
    (0xFF, 5, "02 00 00", "06 28 06 02 00 00"),
    (0xFF, 3, None, "05 08 01 00 00"),
    (0xFF, 4, "80 07", "08 38 06 80 07 01 00 00"),
    (0x30, 5, "02 00 00", 13),
]


# ---- items and fields

def numbers_of(cat):
    return range(1, len(PAPERS[cat]) + 1)


def wrong_numbers(cat):
    return [0, *range(len(PAPERS[cat]) + 1, 10), 255]


def texts(fields):
    """(item number, octets) of each field that has octets of one item alone."""
    for field in fields:
        item = 9 - field[1].bit_length()
        if field[1] == bit_of(item - 1) and field[2:]:
            yield item, field[2:]


@functools.cache
def texts_by_length(cat):
    """For each item number its octets in each length that one subfield, all or none can give, rising."""
    found = defaultdict(dict)
    for item, octets in texts(itertools.chain(items_alone(cat), subfields_alone(cat))):
        found[item][len(octets)] = octets
    return {item: [octets for _, octets in sorted(found[item].items())] for item in numbers_of(cat)}


@functools.cache
def few(cat, seed=None):
    """{item from 0: octets}: every item with one part, one subfield, and numbers drawn, by the category or another seed."""
    pick = drawn(random.Random(cat if seed is None else seed))
    return {i: item_octets(item, min(1, len(item[1])), [0], pick) for i, item in enumerate(PAPERS[cat])}


@functools.cache
def whole(cat):
    pick = drawn(random.Random(cat))
    return {i: whole_item(item, pick) for i, item in enumerate(PAPERS[cat])}


def set_item(items, item, octets):
    """These items, but this one with these octets; None where it is absent."""
    rest = {i: text for i, text in items.items() if i != item - 1}
    return rest if octets is None else {**rest, item - 1: octets}


def with_item(items, item, octets):
    """The field of these."""
    return field_of(set_item(items, item, octets))


@functools.cache
def small(cat):
    """A short field with items 3 and 5, as 01's worked one."""
    return field_of({i: octets for i, octets in few(cat).items() if i in (2, 4)})


# ---- edits that are accepted

def put_alone(cat):
    """Every item in every form into a field without items."""
    yield from ((cat, EMPTY, ALL, item, octets) for item, octets in texts(items_alone(cat)))


def put_among(cat):
    """Every item in every length where it is absent and all others are present."""
    for item, forms in texts_by_length(cat).items():
        yield from ((cat, with_item(few(cat), item, None), ALL, item, octets) for octets in forms)


def resized(cat):
    """A shorter by a longer and a longer by a shorter, to the next length and from end to end."""
    for item, forms in texts_by_length(cat).items():
        for short, long in [*zip(forms, forms[1:]), (forms[0], forms[-1])]:
            if short != long:
                yield cat, with_item(few(cat), item, short), ALL, item, long
                yield cat, with_item(few(cat), item, long), ALL, item, short


def in_full(cat):
    """Every item of a full field by each of its lengths; from its shortest to the longest field; the longest field by its last missing item."""
    full = whole(cat)
    for item, forms in texts_by_length(cat).items():
        yield from ((cat, field_of(full), ALL, item, octets) for octets in forms)
        yield cat, with_item(full, item, forms[0]), ALL, item, forms[-1]
        yield cat, with_item(full, item, None), ALL, item, full[item - 1]


def removed(cat):
    """Each item from a full field, from one with little of each item, and from one where it stands alone in each of its lengths."""
    for item, forms in texts_by_length(cat).items():
        yield cat, field_of(whole(cat)), ALL, item, None
        yield cat, field_of(few(cat)), ALL, item, None
        yield from ((cat, with_item({}, item, octets), ALL, item, None) for octets in forms)


def left_as_it_is(cat):
    """The field itself: an absent item removed, from none and from all others; a present one replaced by itself."""
    for item in numbers_of(cat):
        yield cat, EMPTY, ALL, item, None
        yield cat, with_item(few(cat), item, None), ALL, item, None
        yield cat, field_of(whole(cat)), ALL, item, whole(cat)[item - 1]
        yield cat, field_of(few(cat)), ALL, item, few(cat)[item - 1]


def one_subfield(cat):
    """Every subfield behind a chain alone, into a field without items."""
    yield from ((cat, EMPTY, ALL, item, octets) for item, octets in texts(subfields_alone(cat)))


def behind_len(cat):
    """Octets behind LEN, up to slices of 300, are never looked at and never written."""
    forms, field = texts_by_length(cat), small(cat)
    for item in (3, 4):
        for tail in (b"\0", b"\xFF\xFF", field):
            yield from ((cat, field + tail, ALL, item, new) for new in (None, forms[item][-1]))
    full = full_field(cat, ones)
    yield cat, field + b"\xFF" * (300 - len(field)), ALL, 5, None
    yield cat, full + b"\0" * (256 - len(full)), ALL, 3, forms[3][0]


ROOMED = (put_alone, resized, removed, left_as_it_is)
RIGHT = (put_among, in_full, one_subfield, behind_len)


# ---- new octets that are not exactly one such item

def cut_short(cat):
    """Every item cut at every length, nothing left among them."""
    for i, octets in whole(cat).items():
        yield from ((cat, small(cat), ALL, i + 1, octets[:n]) for n in range(len(octets)))


def octets_behind(cat):
    """Every item with an octet behind it, with three, with itself, with the next item."""
    for i, octets in few(cat).items():
        following = few(cat)[(i + 1) % len(PAPERS[cat])]
        yield from ((cat, small(cat), ALL, i + 1, octets + more) for more in (b"\0", b"\xFF", b"\0\0\0", octets, following))


def wrong_alone(cat):
    """Every spare bit, FX in every last part, latitude and GA beyond their limits."""
    for item, octets in texts(itertools.chain(spare_set(cat), chain_over(cat), numbers_at_their_ends(cat))):
        if read(cat, with_item({}, item, octets))[0] != "ok":
            yield cat, EMPTY, ALL, item, octets


def too_long(cat):
    """Up to 253 octets have a LEN; 256 octets more than a right item has give its LEN again, if that is cut to one octet."""
    for item, counts in ((3, (253, 254, 255, 256, 300)), (5, ())):
        octets = few(cat)[item - 1]
        yield from ((cat, EMPTY, ALL, item, octets.ljust(n, b"\0")) for n in (*counts, len(octets) + 256))


def another_item(cat):
    """Every item's octets for every other, where they are not right for it too."""
    for (i, octets), item in itertools.product(few(cat).items(), numbers_of(cat)):
        if i + 1 != item and read(cat, with_item({}, item, octets))[0] != "ok":
            yield cat, small(cat), ALL, item, octets


WRONG = (cut_short, octets_behind, wrong_alone, too_long, another_item)


# ---- lists

def spare_places(cat):
    return bit_of(len(PAPERS[cat]) - 1) - 1


def lists(cat):
    """For every item every list of one place, that of all but its own, of none and of all; the spare places clear, some and all set."""
    for item in numbers_of(cat):
        own = bit_of(item - 1)
        yield from ((cat, small(cat), listed, item, None) for listed in (0, *(1 << k for k in range(8)), ALL ^ own, ALL))
        for listed, more in itertools.product((own, ALL ^ own), (0, spare_places(cat) & 5, spare_places(cat))):
            yield cat, small(cat), listed & ~spare_places(cat) | more, item, few(cat)[item - 1]


# ---- the order of the refusals

def every_combination(cat):
    """Each of 12, 13, 14, 11 due alone, with each other, none and all of them, for every item number; a removal knows no 14."""
    for item in [*numbers_of(cat), *wrong_numbers(cat)]:
        own = bit_of(item - 1) if item in numbers_of(cat) else ALL
        right = few(cat).get(item - 1, few(cat)[0])
        for listed, new, room in itertools.product((own, ALL ^ own), (right, right + b"\0", None), (FEW, 1)):
            yield room, cat, small(cat), listed, item, new


def field_first(cat, field):
    """A refused field with nothing else due, and with all of 12, 13, 14, 11."""
    right = few(cat)[2] if cat in PAPERS else b"\x06"
    yield from ((FEW, cat, field, ALL, 3, new) for new in (right, None))
    yield from ((0, cat, field, 0, 9, new) for new in (b"", None))


def refused_fields(cat):
    """By each number that the category can give, and by 5 and 9 behind all items."""
    full = field_of(whole(cat))
    yield from itertools.chain(bad_fields(cat), [bytes([len(full) - 1]) + full[1:], bytes([len(full) + 1]) + full[1:] + b"\0"])


def unknown():
    """Refusal 1, before anything else."""
    for k, cat in enumerate(UNKNOWN):
        yield from field_first(cat, (EMPTY, small(48), b"", b"\x03\x20\x07")[k % 4])


# ---- requests

def spliced(cat, field, item, new):
    """What the edit of an accepted field gives: LEN, the indicator with the item's bit set or cleared, the octets before, the new ones, those behind."""
    shown = {k: view(cat, field, k)[1:3] for k in numbers_of(cat) if view(cat, field, k)[0] == "ok"}
    start = max([start + length for k, (start, length) in shown.items() if k < item], default=2)
    end = start + shown.get(item, (0, 0))[1]
    bit = bit_of(item - 1)
    body = field[2:start] + (new or b"") + field[end:field[0]]
    return bytes([2 + len(body), field[1] & ~bit if new is None else field[1] | bit]) + body


def in_rooms(source):
    """Exact and one short; for a field without items longer and none too."""
    cat, field, _, item, new = source
    length = len(spliced(cat, field, item, new))
    yield from ((room, *source) for room in (length, length - 1, *([length + 3, 0] if field == EMPTY else [])))


def fit(source):
    """A room that what could be written fits into."""
    _, field, _, _, new = source
    return min(ENOUGH, len(field) + len(new or b"") + 1)


def worked():
    """As 01 prints them, in room for the longest field."""
    yield from ((52, 48, BASE, listed, item, new and bytes.fromhex(new)) for listed, item, new, _ in WORKED)


def drawn_edits(cat, rng):
    """Any edit of any field: as it is, with the field damaged, with the new octets damaged."""
    for k in range(3 * RANDOM):
        field, item = good_field(cat, rng), rng.choice(numbers_of(cat))
        new = good_item(PAPERS[cat][item - 1], rng) if rng.randrange(4) else None
        room = max(0, len(spliced(cat, field, item, new)) + rng.choice([-1, 0, 0, 1, 3]))
        if k % 3 == 1:
            field = damaged(field, rng)
        if k % 3 == 2 and new:
            new = damaged(new, rng)
        yield room, cat, field, rng.choice([ALL, bit_of(item - 1), rng.randrange(256)]), item, new


def vectors_of(cat, rng):
    for kind in ROOMED:
        yield from itertools.chain.from_iterable(map(in_rooms, kind(cat)))
    for kind in (*RIGHT, *WRONG, lists):
        yield from ((fit(source), *source) for source in kind(cat))
    yield from every_combination(cat)
    for field in refused_fields(cat):
        yield from field_first(cat, field)
    yield from drawn_edits(cat, rng)


def vectors():
    rng = random.Random(21048007)
    yield from worked()
    for cat in PAPERS:
        yield from vectors_of(cat, rng)
    yield from unknown()


def request(room, cat, field, listed, item, new):
    return (b"remove", cat, field, listed, item, room) if new is None else (b"replace", cat, field, listed, item, new, room)


def requests():
    yield from itertools.starmap(request, vectors())


# ---- what the edits reach

def refusal_due(vector):
    """The first refusal that applies, as (number, place), or None: by 01's order, without the operation's own code."""
    room, cat, field, listed, item, new = vector
    reading = read(cat, field)
    if reading[0] != "ok":
        return reading[1:]
    if item not in numbers_of(cat):
        return 12, 0
    if f"{listed:08b}"[item - 1] == "0":
        return 13, 0
    if new is not None and (not 0 < len(new) < 254 or read(cat, with_item({}, item, new))[0] != "ok"):
        return 14, 0
    return (11, 0) if len(spliced(cat, field, item, new)) > room else None


def checked(vector):
    """The refusal, 0 for none; held against the one that is due, and what is written against the field's own octets and every item's view."""
    room, cat, field, listed, item, new = vector
    got, refusal = edit(cat, field, listed, item, new, room), refusal_due(vector)
    if refusal:
        assert got == ("refused", *refusal), vector
        return got[1]
    assert got == ("ok", spliced(cat, field, item, new)), vector
    for k in numbers_of(cat):
        before, behind = view(cat, field, k), view(cat, got[1], k)
        if k != item:
            assert behind[0] == before[0] and behind[3:] == before[3:], vector
        elif new is None:
            assert behind == ("refused", 15, 0), vector
        else:
            assert behind[3:] == (new,), vector
    return 0


def covered():
    """Each generator makes what it says; each answer is there often in each category; spare places of the list have no effect."""
    counts = defaultdict(int)
    for vector in dict.fromkeys(vectors()):
        counts[vector[1] if vector[1] in PAPERS else None, checked(vector)] += 1
    for cat in PAPERS:
        assert all(checked((ENOUGH, *source)) == 0 for kind in ROOMED + RIGHT for source in kind(cat))
        assert all(checked((ENOUGH, *source)) == 14 for kind in WRONG for source in kind(cat))
        assert all(checked(vector) != (11 if vector[0] == FEW else 0) for vector in every_combination(cat))
        assert min(counts[cat, answer] for answer in (0, 11, 12, 13, 14)) >= 30
        never = {4, 8} if cat == 21 else set()  # it has no spare place and no number with limits
        assert all(counts[cat, number] >= 4 for number in set(range(2, 10)) - never)
        for _, field, listed, item, new in lists(cat):
            assert len({edit(cat, field, listed ^ spare, item, new, ENOUGH) for spare in range(spare_places(cat) + 1)}) == 1
    assert counts[None, 1] >= 30
