"""Requests that read: `read`, `view` and `choose`, from tests/reference.py and tests/papers.py alone, the same at every run.

A generator below gives fields of a category; its first line says what it aims at. An item is (name, chain parts, subfields), as in papers.py.
"""
import random
from collections import defaultdict

from fields import (
    UNKNOWN, drawn, field_of, full_field, good_field, item_octets, items_alone, least_count, lowest, ones, single_bits, whole_item, width, zero,
)
from papers import PAPERS
from reference import choose, read, spare_bits, view

ITEMS = [0, 1, 2, 3, 4, 5, 6, 7, 8, 9]
BAD_FIELDS = {  # for each category fields that it refuses, by different numbers
    48: ["", "05", "00", "01 00", "02 01", "02 80", "03 20 0F", "03 20 07", "05 80 10 3F D7", "06 08 01 00 00 00"],
    21: ["", "05", "00", "01 00", "02 80", "04 80 10 00", "03 01 02", "03 01 01", "05 08 00 01 01", "05 80 00 00 00"],
    7: ["", "05", "00", "01 00", "02 04", "02 80", "06 80 80 00 00 00", "03 20 07", "05 40 10 3F D7", "03 00 00"],
}


# ---- lines of a field

def extremes(number):
    half = 1 << (width(number) - 1)
    at_the_limits = {"lat": [-4194304, 4194304], "ga": [-40, -39]}.get(number[3], [])
    return [0, -1] + ([-half, half - 1] if number[3] != "u" else []) + at_the_limits + beyond(number)


def beyond(number):
    """What 8 refuses: just beyond a limit, and furthest from it."""
    return {"lat": [-4194305, 4194305, -8388608], "ga": [-41, -8192]}.get(number[3], [])


def whole_lines(items):
    """(place, octets, numbers, FX) of each part and subfield of a field of whole items; FX is 'last' in a chain's last part, None in a subfield."""
    at = 2
    for _, parts, subs in items:
        for k, (octets, numbers) in enumerate(parts):
            yield at, octets, numbers, "last" if k == len(parts) - 1 else "more"
            at += octets
        for _, octets, numbers in subs:
            yield at, octets, numbers, None
            at += octets


def with_bits(field, at, octets, bits):
    """The field with these bits set in the part or subfield at a place."""
    old = int.from_bytes(field[at:at + octets], "big")
    return field[:at] + (old | bits).to_bytes(octets, "big") + field[at + octets:]


def with_number(field, at, octets, number, z):
    _, hi, lo, _ = number
    mask = (1 << (hi - lo + 1)) - 1
    old = int.from_bytes(field[at:at + octets], "big") & ~(mask << (lo - 1))
    return field[:at] + (old | (z & mask) << (lo - 1)).to_bytes(octets, "big") + field[at + octets:]


# ---- fields of a category

def subfields_alone(cat):
    """Every subfield alone, behind the fewest parts and behind all."""
    for i, item in enumerate(PAPERS[cat]):
        for k in range(len(item[2])) if item[1] else []:
            for count in sorted({least_count(item, k), len(item[1])}):
                for pick in (zero, ones):
                    yield field_of({i: item_octets(item, count, [k], pick)})


def numbers_at_their_ends(cat):
    """Every number at its ends, and the two that are limited just beyond theirs, its neighbours 0."""
    for i, item in enumerate(PAPERS[cat]):
        _, parts, subs = item
        lines = [(k, n) for k, (_, _, numbers) in enumerate(subs) for n in numbers] or \
                [(k, n) for k, (_, numbers) in enumerate(parts) for n in numbers]
        for k, number in lines:
            count = (least_count(item, k) if subs else k + 1) if parts else 0
            for z in extremes(number):
                yield field_of({i: item_octets(item, count, [k], lambda n: z if n == number else 0)})


def limits_later(cat):
    """A full field with every limited number at its end, and refusal 8 in it: each of these numbers beyond its end."""
    full = full_field(cat, lowest)
    yield full
    yield full_field(cat, ones)
    for at, octets, numbers, _ in whole_lines(PAPERS[cat]):
        for number in numbers:
            yield from (with_number(full, at, octets, number, z) for z in beyond(number))


def cut_short(cat):
    """Refusals 2, 3, 5: a full field cut at every length, and with every smaller LEN and all its octets still there."""
    full = full_field(cat, ones)
    for n in range(len(full)):
        yield full[:n]
        yield bytes([n]) + full[1:]


def spare_set(cat):
    """Refusals 4 and 6: each spare bit of the indicator, and of every part and subfield of each item alone."""
    for bit in single_bits((1 << (8 - len(PAPERS[cat]))) - 1):
        yield with_bits(full_field(cat, zero), 1, 1, bit)
        yield bytes([2, bit])
    for i, item in enumerate(PAPERS[cat]):
        alone = field_of({i: whole_item(item, zero)})
        for at, octets, numbers, fx in whole_lines([item]):
            yield from (with_bits(alone, at, octets, bit) for bit in single_bits(spare_bits(octets, numbers, fx is not None)))


def chain_over(cat):
    """Refusal 7: FX in the last part of each chain, in a full field and alone, and with a spare bit, which comes first."""
    full = full_field(cat, zero)
    for at, octets, numbers, fx in whole_lines(PAPERS[cat]):
        if fx == "last":
            yield with_bits(full, at, octets, 1)
            yield with_bits(full, at, octets, 1 | spare_bits(octets, numbers, True))
    for i, item in enumerate(PAPERS[cat]):
        if item[1]:
            alone = field_of({i: item_octets(item, len(item[1]), [], zero)})
            yield alone[:-1] + bytes([alone[-1] | 1])


def octets_left(cat):
    """Refusal 9: LEN counts octets that belong to no item, behind none, each one and all items."""
    fields = [field_of({})] + [field_of({i: whole_item(item, zero)}) for i, item in enumerate(PAPERS[cat])] + [full_field(cat, ones)]
    for field in fields:
        for more in (1, 3):
            yield bytes([len(field) + more]) + field[1:] + b"\0" * more


def behind_len(cat):
    """What stands behind LEN is never looked at, whatever it is; slices to 300 octets, LEN to 255."""
    full = full_field(cat, zero)
    for field in (full, field_of({}), full[:2] + b"\xFF" + full[3:], bytes([len(full) - 1]) + full[1:]):
        for tail in (b"\0", b"\xFF\xFF", full):
            yield field + tail
    yield full + b"\xFF" * (300 - len(full))
    yield from (b"\xFF" + full[1:] + b"\0" * (n - len(full)) for n in (254, 255))


def orders(cat):
    """Several refusals apply, and the first in 01's order is given. The first line of a full field with a spare bit set is each of its lines in turn."""
    full = bad = full_field(cat, zero)
    for at, octets, numbers, fx in reversed(list(whole_lines(PAPERS[cat]))):
        bad = with_bits(bad, at, octets, spare_bits(octets, numbers, fx is not None))
        yield bad
    yield bytes([len(full) + 1]) + bad[1:] + b"\0"
    yield bytes([1]) + bad[1:]
    yield bad[:-1]
    yield b"\x05" + bad[1:4]
    yield from (b"\x02\xFF", b"\x03\xFF\xFF", b"\x05\xFF")


def short_strings(rng):
    """Every string of one octet, and some of two."""
    yield from (bytes([o]) for o in range(256))
    yield from (bytes([2, 1 << k]) for k in range(8))
    yield from (bytes([first, rng.randrange(256)]) for first in (1, 2, 3) for _ in range(6))
    yield from (bytes([rng.randrange(256), rng.randrange(256)]) for _ in range(12))


def damaged(field, rng):
    for _ in range(rng.randrange(1, 4)):
        k = rng.randrange(len(field))
        field = field[:k] + bytes([field[k] ^ 1 << rng.randrange(8)]) + field[k + 1:]
    return field


def noise(cat, rng):
    """Octets drawn one by one; LEN and the indicator most often such that the items are reached."""
    octets = bytearray(rng.randrange(256) for _ in range(rng.randrange(3, 25)))
    if rng.randrange(4):
        octets[0] = len(octets)
        octets[1] &= 256 - (1 << (8 - len(PAPERS[cat])))
    return bytes(octets)


def reads_of(cat, rng):
    for fields in (items_alone, subfields_alone, numbers_at_their_ends, limits_later, cut_short, spare_set, chain_over, octets_left, behind_len, orders):
        yield from fields(cat)
    yield from short_strings(rng)
    for _ in range(12):
        yield good_field(cat, rng)
        yield damaged(good_field(cat, rng), rng)
        yield noise(cat, rng)
    yield from bad_fields(cat)


# ---- requests

def bad_fields(cat):
    return [bytes.fromhex(text) for text in BAD_FIELDS[cat]]


def views_of(cat, rng):
    """Every item number of a full field, an empty one, some others, and of refused ones."""
    full, bad = full_field(cat, drawn(rng)), bad_fields(cat)
    fields = [full, field_of({}), good_field(cat, rng) + b"\xFF"] + bad[-3:]
    yield from ((b"view", cat, field, item) for field in fields for item in ITEMS)
    yield from ((b"view", cat, field, item) for field in bad for item in (0, 3))
    yield (b"view", cat, full, 255)


def choices_of(cat, rng):
    """Both fields have the item, one, none; the base, the correction or both are refused."""
    one = field_of({i: whole_item(PAPERS[cat][i], drawn(rng)) for i in (2, 3)})
    two = field_of({i: whole_item(PAPERS[cat][i], drawn(rng)) for i in (2, 4)})
    none, bad = field_of({}), bad_fields(cat)
    for base, correction in ((one, two), (good_field(cat, rng), good_field(cat, rng))):
        yield from ((b"choose", cat, base, correction, item) for item in ITEMS + [255])
    for base, correction in ((two, one), (one, one), (one, none), (none, two), (none, none), (one + b"\xFF", two + b"\0")):
        yield from ((b"choose", cat, base, correction, item) for item in (0, 3, 4, 5))
    for k, field in enumerate(bad):
        yield from ((b"choose", cat, base, correction, 3) for base, correction in ((field, two), (one, field), (field, bad[k - 1])))
        yield (b"choose", cat, one, field, 9)


def unknown(rng):
    """Refusal 1, before anything else."""
    for cat in UNKNOWN:
        for field in (b"", b"\x01", b"\x02\x00", b"\x03\x20\x06", b"\x02\x80", full_field(48, drawn(rng))):
            yield (b"read", cat, field)
        for item in (0, 3, 9):
            yield (b"view", cat, b"\x03\x20\x06", item)
            yield (b"choose", cat, b"\x03\x20\x06", b"", item)
            yield (b"choose", cat, b"", b"\x03\x20\x04", item)


def requests():
    rng = random.Random(48021007)
    for cat in PAPERS:
        yield from ((b"read", cat, field) for field in reads_of(cat, rng))
        yield from views_of(cat, rng)
        yield from choices_of(cat, rng)
    yield from unknown(rng)


# ---- what the requests reach

def covered():
    """Each refusal that a category can give is among its readings at several places; each answer of a view and of a choice is there."""
    places, views, choices = defaultdict(set), defaultdict(set), defaultdict(set)
    for name, cat, *rest in dict.fromkeys(requests()):
        got = {b"read": read, b"view": view, b"choose": choose}[name](cat, *rest)
        if name == b"read" and got[0] == "refused":
            places[cat, got[1]].add(got[2])
        elif name == b"view":
            views[cat].add(got[1] if got[0] == "refused" else "ok")
        elif name == b"choose":
            choices[cat].add((got[1], got[3]) if got[0] == "refused" else got[1])
    for cat in PAPERS:
        spare = len(PAPERS[cat]) < 8
        limited = any(beyond(number) for _, _, numbers, _ in whole_lines(PAPERS[cat]) for number in numbers)
        assert places[cat, 2] == places[cat, 3] == {0} and places[cat, 4] == ({1} if spare else set())
        assert all(len(places[cat, number]) >= 4 for number in (5, 6, 7, 9)) and len(places[cat, 8]) >= (2 if limited else 0)
        assert {"ok", 12, 15} <= views[cat] and len(views[cat]) >= 8
        assert {1, 2, (12, 0), (15, 0)} <= choices[cat]
        assert all({(number, 1), (number, 2)} <= choices[cat] for number in (2, 3, 5, 6, 7))
    assert all(places[cat, 1] == {0} for cat in UNKNOWN)
