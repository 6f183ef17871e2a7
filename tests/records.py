"""Requests that write a record, from tests/reference.py and tests/papers.py alone, the same at every run.

A source is (category, field, changes): the record that the field reads to, then each (place, value) in order. A generator below gives sources; its
first line says what it aims at. Those of ROOMED and RIGHT make records that a field reads to, those of WRONG make others. `vectors` has a room in
front of each source.
"""
import itertools
import random
from collections import defaultdict

from fields import (
    UNKNOWN, field_of, flags_in, full_field, good_field, item_octets, items_alone, least_count, limits, lowest, ones, single_bits, whole_item, width, zero,
)
from papers import PAPERS
from reference import SLOTS, lay_record, read, size, write
from specimens import specimen

PARTS, ITEMS, CATEGORY = 77, 85, 86  # the places behind the numbers' slots
ENOUGH = 64  # room for every field
RANDOM = 16  # sources of each random kind and category
EMPTY = b"\x02\x00"


# ---- records

def record_of(source):
    cat, field, changes = source
    got = read(cat, field)
    cat, items, parts, numbers = got[2] if got[0] == "ok" else (0, 0, [0] * 8, [0] * SLOTS)
    for place, value in changes:
        if place < PARTS:
            numbers[place] = value
        elif place < ITEMS:
            parts[place - PARTS] = value & 255
        elif place == ITEMS:
            items = value & 255
        elif place == CATEGORY:
            cat = value & 255
    return cat, items, parts, numbers


def changes_between(old, new):
    """The changes that lead from one record to another."""
    pairs = zip(old[3] + old[2] + [old[1], old[0]], new[3] + new[2] + [new[1], new[0]])
    return tuple((place, b) for place, (a, b) in enumerate(pairs) if a != b)


def first_slots(cat):
    """The slot of each item's first number, and the one behind the last."""
    return [0] + list(itertools.accumulate(map(size, PAPERS[cat])))


def lines_of(cat):
    """(item, its number from 0, the chain part from 0 or None, the subfield from 0 or None, first slot, numbers) of each part and subfield."""
    for i, (item, slot) in enumerate(zip(PAPERS[cat], first_slots(cat))):
        for k, (_, numbers) in enumerate(item[1]):
            yield item, i, k, None, slot, numbers
            slot += len(numbers)
        for k, (_, _, numbers) in enumerate(item[2]):
            yield item, i, None, k, slot, numbers
            slot += len(numbers)


def homes(cat):
    """(slot, number, field) of each number; the field is a short one that has its part or subfield, every number in it 0."""
    for item, i, part, sub, slot, numbers in lines_of(cat):
        count = part + 1 if part is not None else least_count(item, sub) if item[1] else 0
        field = field_of({i: item_octets(item, count, [sub], zero)})
        yield from ((slot + j, number, field) for j, number in enumerate(numbers))


def flags_of(cat):
    """(slot, field without the subfield, field with it and zeros, field with it and ones) of each flag of a subfield."""
    for item, i, _, sub, _, _ in lines_of(cat):
        if sub is not None and item[1]:
            count = least_count(item, sub)
            fields = [field_of({i: item_octets(item, count, there, pick)}) for there, pick in (([], zero), ([sub], zero), ([sub], ones))]
            yield first_slots(cat)[i] + sub, *fields


def chains_of(cat):
    return [(i, item) for i, item in enumerate(PAPERS[cat]) if item[1]]


def bit_of(i):
    return 1 << (7 - i)


# ---- records that a field reads to

def one_item(cat):
    """Every item alone, every chain length, without and with all that it can announce."""
    yield from ((cat, field, ()) for field in items_alone(cat))


def every_chain_length(cat):
    """All items with all that they can announce, with each number of parts that the longest chain can have; the others' at most that."""
    for most in range(1, max(len(item[1]) for item in PAPERS[cat]) + 1):
        counts = [min(most, len(item[1])) for item in PAPERS[cat]]
        whole = [item_octets(item, count, range(flags_in(item, count)), ones) for item, count in zip(PAPERS[cat], counts)]
        yield cat, field_of(dict(enumerate(whole))), ()


def one_subfield(cat):
    """Every subfield behind a chain alone, with ones."""
    yield from ((cat, field, ()) for _, _, _, field in flags_of(cat))


def just_inside(cat):
    """Every number at its lowest and its highest; a flag set so announces a subfield that is all zero."""
    for slot, number, field in homes(cat):
        yield from ((cat, field, ((slot, z),)) for z in limits(number) if z)


def flags_gone(cat):
    """A subfield that is all zero can go by its flag alone."""
    yield from ((cat, field, ((slot, 0),)) for slot, _, field, _ in flags_of(cat))


def parts_moved(cat):
    """Chain parts that are all zero can go and come by their number alone."""
    for i, item in chains_of(cat):
        counts = range(1, len(item[1]) + 1)
        for old, new in itertools.product(sorted({1, len(item[1])}), counts):
            yield cat, field_of({i: item_octets(item, old, [], zero)}), ((PARTS + i, new),)


def items_moved(cat):
    """An item that is all zero can come by its bit, with a chain by one part too, and go again."""
    for i, item in enumerate(PAPERS[cat]):
        count = int(bool(item[1]))
        yield cat, EMPTY, ((ITEMS, bit_of(i)), (PARTS + i, count))
        yield cat, field_of({i: item_octets(item, count, [], zero)}), ((PARTS + i, 0), (ITEMS, 0))


def made_by_changes(cat):
    """A record with everything in it, made from zeros; one of nothing, made of another category's; and the last of two changes counts."""
    yield cat, b"", changes_between(record_of((cat, b"", ())), specimen(cat, random.Random(cat))[1])
    yield from ((other, EMPTY, ((CATEGORY, cat),)) for other in PAPERS if other != cat)
    slot, number, field = next(homes(cat))
    yield cat, field, ((slot, limits(number)[1] + 1), (slot, limits(number)[1]))


def good(cat, rng):
    yield from ((cat, good_field(cat, rng), ()) for _ in range(RANDOM))


def led_over(cat, rng):
    """From one random record to another, by changes alone."""
    for _ in range(RANDOM // 3):
        field, other = good_field(cat, rng), good_field(cat, rng)
        yield cat, field, changes_between(record_of((cat, field, ())), record_of((cat, other, ())))


ROOMED = (one_item, every_chain_length)
RIGHT = (one_subfield, just_inside, flags_gone, parts_moved, items_moved, made_by_changes)


# ---- records that no field reads to

def outside(number):
    """Just below and above what a field holds, and what has the same lowest bits as a limit."""
    low, high = limits(number)
    return sorted({low - 1, high + 1, low + (1 << width(number)), high - (1 << width(number))})


def just_outside(cat):
    """Every number just outside its limits, and the last of each item at the ends of an i32."""
    for slot, number, field in homes(cat):
        yield from ((cat, field, ((slot, z),)) for z in outside(number))
        if slot + 1 in first_slots(cat):
            yield from ((cat, field, ((slot, z),)) for z in (-2147483648, 2147483647))


def in_absent_item(cat):
    """Numbers where nothing is present; the ends of an item where only that is absent; numbers left when the item's bit goes."""
    firsts = first_slots(cat)
    for item, _, part, sub, slot, numbers in lines_of(cat):
        absent_otherwise = part or sub is not None and item[1]
        for j in [slot % len(numbers)] if absent_otherwise else range(len(numbers)):
            yield cat, EMPTY, ((slot + j, limits(numbers[j])[j % 2] or 1),)
    for i, item in enumerate(PAPERS[cat]):
        rest = field_of({j: whole_item(other, zero) for j, other in enumerate(PAPERS[cat]) if j != i})
        yield from ((cat, rest, ((slot, 1),)) for slot in sorted({firsts[i], firsts[i + 1] - 1}))
        yield cat, field_of({i: item_octets(item, len(item[1]), [0], ones)}), ((ITEMS, 0), (PARTS + i, 0))


def in_absent_subfield(cat):
    """Every number of an absent subfield, no other there; one where all others are there; numbers left when the flag goes."""
    for item, i, _, sub, slot, numbers in lines_of(cat):
        if sub is not None and item[1]:
            bare = field_of({i: item_octets(item, len(item[1]), [], zero)})
            yield from ((cat, bare, ((slot + j, limits(number)[1]),)) for j, number in enumerate(numbers))
            if sub == i % len(item[2]):
                others = field_of({i: item_octets(item, len(item[1]), [k for k in range(len(item[2])) if k != sub], ones)})
                yield cat, others, ((slot, 1),)
    yield from ((cat, field, ((slot, 0),)) for slot, _, _, field in flags_of(cat))


def in_absent_part(cat):
    """Every number of the first absent part of a chain; numbers left when their part goes; what an absent part announces, with its flag and without."""
    for item, i, part, _, slot, numbers in lines_of(cat):
        if part:
            field = field_of({i: item_octets(item, part, [], zero)})
            yield from ((cat, field, ((slot + j, limits(number)[1]),)) for j, number in enumerate(numbers))
            yield cat, field_of({i: item_octets(item, part + 1, range(len(item[2])), ones)}), ((PARTS + i, part),)
    for i, item in chains_of(cat):
        first, late = first_slots(cat)[i], flags_in(item, 1)
        if late < len(item[2]):
            flag, number = (first + late, 1), (first + size(item) - 1, 1)
            one = field_of({i: item_octets(item, 1, range(late), ones)})
            yield from ((cat, one, changes) for changes in ((flag,), (flag, number), (number,)))


def wrong_parts(cat):
    """0, one too many and 255 in each chain, one too many in a full record; any in an absent item, in one without a chain, and behind the last."""
    for i, item in chains_of(cat):
        alone = field_of({i: item_octets(item, 1, [], zero)})
        yield from ((cat, alone, ((PARTS + i, n),)) for n in (0, len(item[1]) + 1, 255))
        yield cat, full_field(cat, ones), ((PARTS + i, len(item[1]) + 1),)
        yield cat, EMPTY, ((ITEMS, bit_of(i)),)
        yield cat, alone, ((ITEMS, 0),)
    for i in range(8):
        yield from ((cat, EMPTY, ((PARTS + i, n),)) for n in (1, 255))
    for i, item in enumerate(PAPERS[cat]):
        if not item[1]:
            yield cat, field_of({i: whole_item(item, ones)}), ((PARTS + i, 1),)


def wrong_flags(cat):
    """A presence flag of 2, of -1 and of what has 1 as its lowest bit or octet, with the subfield there; just_outside has 2 and -1 without it."""
    for slot, _, with_zeros, with_ones in flags_of(cat):
        yield cat, with_ones, ((slot, 2),)
        yield cat, with_ones, ((slot, -1),)
        yield cat, with_zeros, ((slot, (3, 257, 65537, 16777217, -255, -2147483647)[slot % 6]),)


def behind_last_slot(cat):
    """Each slot to spare, in an empty record; the first and the last of them in a full one."""
    spare = range(first_slots(cat)[-1], SLOTS)
    yield from ((cat, EMPTY, ((slot, (1, -1)[slot % 2]),)) for slot in spare)
    if spare:
        yield from ((cat, full_field(cat, ones), ((slot, z),)) for slot, z in ((spare[0], -2147483648), (spare[-1], 2147483647)))


def spare_items(cat):
    """Each spare bit of `items` alone; all of them in a full record."""
    mask, full = bit_of(len(PAPERS[cat]) - 1) - 1, full_field(cat, lowest)
    yield from ((cat, EMPTY, ((ITEMS, bit),)) for bit in single_bits(mask))
    if mask:
        yield cat, full, ((ITEMS, full[1] | mask),)


def other_category(cat):
    """Another category's record with its last item, which stands elsewhere here."""
    for other in PAPERS:
        if other != cat:
            i, item = len(PAPERS[other]) - 1, PAPERS[other][-1]
            yield other, field_of({i: whole_item(item, ones)}), ((CATEGORY, cat),)


WRONG = (just_outside, in_absent_item, in_absent_subfield, in_absent_part, wrong_parts, wrong_flags, behind_last_slot, spare_items, other_category)


def any_change(cat, rng):
    way = rng.random()
    if way < 0.7:
        return rng.randrange(SLOTS), rng.choice([0, 0, 1, 1, 2, -1, rng.getrandbits(7), rng.getrandbits(32) - (1 << 31)])
    if way < 0.85:
        return PARTS + rng.randrange(8), rng.choice([0, 1, 1, 2, 3, rng.getrandbits(8)])
    return (ITEMS, rng.getrandbits(8)) if way < 0.95 else (CATEGORY, rng.choice([7, 21, 48, cat, rng.getrandbits(8)]))


def damaged(cat, rng):
    """Any changes to a random record."""
    for _ in range(RANDOM):
        yield cat, good_field(cat, rng), tuple(any_change(cat, rng) for _ in range(rng.choice([1, 1, 2, 3])))


# ---- requests

def fit(source):
    """A room that what could be laid of the record fits into, with some octets to spare."""
    record = record_of(source)
    return len(lay_record(record)) + 2 if record[0] in PAPERS else 4


def in_rooms(source):
    """Exact, longer, one short and none."""
    length = len(lay_record(record_of(source)))
    yield from ((room, *source) for room in (length, length + 3, length - 1, 0))


def in_many_rooms(cat):
    """A full field and an empty one, in rooms from nothing to more than any field needs."""
    full = full_field(cat, lowest)
    yield from ((room, cat, full, ()) for room in (1, 2, len(full) // 2, len(full) - 2, len(full), ENOUGH))
    yield from ((room, cat, EMPTY, ()) for room in (0, 1, 2, 3, ENOUGH))


def short_of_room(cat):
    """10 comes before 11: a record of each kind of 10, in no room and in one short."""
    for kind in WRONG:
        for source in list(kind(cat))[-1:]:
            yield from ((room, *source) for room in (0, len(lay_record(record_of(source))) - 1))


def unknown():
    """1 comes before 10 and 11: of the request's own category, of a record that is right otherwise, and of one wrong in each way; no room, and enough."""
    wrong = [next(kind(21 if kind is behind_last_slot else 48)) for kind in WRONG]
    for k, cat in enumerate(UNKNOWN):
        yield from ((room, cat, field, ()) for room in (0, 4) for field in (EMPTY, b""))
        for known, field, changes in [(7, EMPTY, ()), wrong[k % len(wrong)]]:
            yield from ((room, known, field, changes + ((CATEGORY, cat),)) for room in (0, fit((known, field, changes))))


def vectors_of(cat, rng):
    for kind in ROOMED:
        yield from itertools.chain.from_iterable(map(in_rooms, kind(cat)))
    yield from in_many_rooms(cat)
    for kind in RIGHT + WRONG:
        yield from ((fit(source), *source) for source in kind(cat))
    yield from short_of_room(cat)
    for source in itertools.chain(good(cat, rng), led_over(cat, rng), damaged(cat, rng)):
        yield (max(0, fit(source) - rng.choice([0, 1, 2, 2, 3, 4])), *source)


def vectors():
    rng = random.Random(7021048)
    for cat in PAPERS:
        yield from vectors_of(cat, rng)
    yield from unknown()


def requests():
    for room, *source in vectors():
        cat, items, parts, numbers = record_of(source)
        yield (b"write", room, cat, items, *parts, *numbers)


# ---- what the records reach

def can_be_read(record):
    """Whether a field reads to the record, by 01's sentence on what is absent and the limits of each number: without laying or reading an octet."""
    cat, items, counts, numbers = record
    papers = PAPERS[cat]
    if items & (bit_of(len(papers) - 1) - 1) or any(counts[len(papers):]) or any(numbers[first_slots(cat)[-1]:]):
        return False
    for i, item in enumerate(papers):
        low = 1 if items & bit_of(i) and item[1] else 0
        if not low <= counts[i] <= (len(item[1]) if low else 0):
            return False
    for item, i, part, sub, slot, defined in lines_of(cat):
        present = items & bit_of(i) and (part < counts[i] if part is not None else not item[1] or numbers[first_slots(cat)[i] + sub] == 1)
        for number, z in zip(defined, numbers[slot:slot + len(defined)]):
            low, high = limits(number) if present else (0, 0)
            if not low <= z <= high:
                return False
    return True


def checked(vector):
    """The answer, 0 for ok; held against can_be_read, and the written octets against the record."""
    room, *source = vector
    record = record_of(source)
    got = write(record, room)
    if record[0] in PAPERS:
        assert (got[:2] != ("refused", 10)) == can_be_read(record), vector
    if got[0] == "ok":
        assert read(record[0], got[1]) == ("ok", len(got[1]), record), vector
        return 0
    return got[1]


def covered():
    """Each generator makes what it says, each answer is there often in each category."""
    counts = defaultdict(int)
    for vector in dict.fromkeys(vectors()):
        cat = record_of(vector[1:])[0]
        counts[cat if cat in PAPERS else None, checked(vector)] += 1
    for cat in PAPERS:
        assert all(checked((ENOUGH, *source)) == 0 for kind in ROOMED + RIGHT for source in kind(cat))
        assert all(checked((ENOUGH, *source)) == 10 for kind in WRONG for source in kind(cat))
        assert min(counts[cat, answer] for answer in (0, 10, 11)) >= 40
    assert counts[None, 1] >= 40
