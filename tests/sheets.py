"""Requests of a sheet, from tests/reference.py and tests/papers.py alone, the same at every run.

An input is a category octet and a field. A generator below gives fields of a category; its first line says what it aims at.
"""
import itertools
import random
from collections import defaultdict

from edits import few
from fields import (
    UNKNOWN, drawn, field_of, flags_in, full_field, good_field, item_octets, items_alone, least_count, limits, lowest, ones, whole_item, zero,
)
from papers import PAPERS
from reads import (
    bad_fields, behind_len, chain_over, damaged, limits_later, noise, numbers_at_their_ends, octets_left, orders, spare_set, subfields_alone,
)
from reference import keys, lay_item, number_lines, sheet

RANDOM = 30  # fields of each random kind and category
LONGEST = {48: 1055, 21: 989, 7: 619}  # the octets of each category's longest sheet
WORKED = bytes.fromhex("30 06 28 06 01 00 00")
WORKED_TEXT = b"cat=48\nlen=6\nitems=M4E,ERR\nM4E=3\nERR=65536\nend=ok\n"  # its sheet, by hand from 01
HALF = 16384  # with a whole number of 32,768 beside it, its angle ends in half a millionth


# ---- numbers

def positions():
    """Where angles are rounded: at halves and beside them, at the ends, at 0, and where the decimal gets longer."""
    halves = [HALF + 32768 * k for k in (-256, -129, -128, -2, -1, 0, 1, 127, 128, 255)]
    longer = [round(10 ** k * 32768 / 703125) for k in range(1, 9)]
    ends = [0, 1, -1, 2, 4194304, -4194304, 4194303, -8388608, 8388607]
    beside = [n + d for n in halves for d in (-1, 0, 1)] + [s * (n + d) for n in longer for s in (1, -1) for d in (-1, 0, 1)]
    return list(dict.fromkeys(ends + beside))


def longer_decimals(number):
    """A number where its decimal gets a digit more, from both sides."""
    low, high = limits(number)
    tens = [s * (10 ** k - d) for k in range(1, 8) for s in (1, -1) for d in (1, 0)]
    return [z for z in tens if low <= z <= high]


def widest(number):
    """The number with the longest lines: with every number so, no sheet is longer. An angle's are longest near its lower end, which itself leaves 0."""
    low, high = limits(number)
    return max(range(low, low + 32) if number[0] in ("LAT", "LON") else (low, high), key=lambda z: sum(map(len, number_lines("." + number[0], z))))


# ---- fields that have a sheet of their numbers

def no_items(cat):
    yield field_of({})


def full(cat):
    """Every item, part and subfield, with zeros, at both ends, with the longest decimals, and drawn."""
    yield from (full_field(cat, pick) for pick in (zero, ones, lowest, lambda n: limits(n)[1], widest, drawn(random.Random(cat))))


def every_indicator(cat):
    """Every choice of items, with little in each: the names, and which lines follow which."""
    items = few(cat)
    for mask in range(1 << len(items)):
        yield field_of({i: octets for i, octets in items.items() if mask >> i & 1})


def with_one(cat, values):
    """Every number at each of its values, its neighbours 0, in a field with its item alone."""
    for i, item in enumerate(PAPERS[cat]):
        _, parts, subs = item
        lines = [(k, numbers) for k, (_, _, numbers) in enumerate(subs)] or [(k, numbers) for k, (_, numbers) in enumerate(parts)]
        for k, numbers in lines:
            count = (least_count(item, k) if subs else k + 1) if parts else 0
            for number, z in ((number, z) for number in numbers for z in values(number)):
                yield field_of({i: item_octets(item, count, [k], lambda n: z if n == number else 0)})


def decimals(cat):
    """Every number where its decimal gets longer."""
    yield from with_one(cat, longer_decimals)


def angles(cat):
    """Every latitude and longitude where angles are rounded, the other 0."""
    yield from with_one(cat, lambda n: [z for z in positions() if n[0] in ("LAT", "LON") and limits(n)[0] <= z <= limits(n)[1]])


def both_angles(cat):
    """Latitude and longitude at once, each with its own angle."""
    rng = random.Random(cat)
    for (i, item), _ in itertools.product(enumerate(PAPERS[cat]), range(6)):
        if "POS" in [name for name, _, _ in item[2]]:
            yield field_of({i: item_octets(item, 1, [2], drawn(rng))})


def pressures(cat):
    """BPS.tenths and BPS.sense at both ends and beside them, and where the tenths get a digit more."""
    yield from with_one(cat, lambda n: [0, 1, 1999, 2000, 4094, 4095] if n[0] == "BPS" else [])


def chain_values(item, count, pick):
    """The chain's numbers in its first parts but the last of them, which is empty."""
    filled = [(k, number) for k, (_, numbers) in enumerate(item[1]) for number in numbers]
    return [pick(number) if k < count - 1 else 0 for k, number in filled]


def empty_last_parts(cat):
    """Chains of each length with an empty last part behind parts that are not, with what they announce."""
    for i, item in enumerate(PAPERS[cat]):
        for count in range(2, len(item[1]) + 1):
            for pick in (ones, widest, drawn(random.Random(count))):
                if item[2]:
                    yield field_of({i: item_octets(item, count, range(flags_in(item, count - 1)), pick)})
                else:
                    yield field_of({i: lay_item(item, count, chain_values(item, count, pick))})


def one_part(cat):
    """Each part of a chain alone with something in it, in a chain of each length that has it."""
    for i, item in enumerate(PAPERS[cat]):
        for count in range(1, len(item[1]) + 1) if not item[2] else []:
            for k in range(count):
                values = [-1 if j == k else 0 for j, (_, numbers) in enumerate(item[1]) for _ in numbers]
                yield field_of({i: lay_item(item, count, values)})


def two_subfields(cat):
    """Each two subfields of an item without the others, in as many parts as the chain has."""
    rng = random.Random(cat)
    for i, item in enumerate(PAPERS[cat]):
        for pair in itertools.combinations(range(len(item[2])), 2) if item[1] else []:
            yield field_of({i: item_octets(item, len(item[1]), pair, drawn(rng))})


# ---- fields that are refused

def cut_short(cat):
    """Refusals 2, 3 and 5: a full field cut at every fourth length, and with every fourth smaller LEN; an item alone with each smaller LEN."""
    whole = full_field(cat, ones)
    for n in range(0, len(whole), 4):
        yield whole[:n]
        yield bytes([n]) + whole[1:]
    for i, item in enumerate(PAPERS[cat]):
        alone = field_of({i: whole_item(item, zero)})
        yield from (bytes([n]) + alone[1:] for n in range(len(alone)))


def refused(cat):
    """By each number that the category can give."""
    yield from bad_fields(cat)


KINDS = (
    no_items, full, items_alone, subfields_alone, refused, every_indicator, numbers_at_their_ends, decimals, angles, both_angles, pressures,
    empty_last_parts, one_part, two_subfields, limits_later, cut_short, spare_set, chain_over, octets_left, behind_len, orders,
)


# ---- requests

def unknown():
    """Refusal 1, before anything else."""
    for cat in UNKNOWN:
        yield from (bytes([cat]) + field for field in (b"", b"\x00", b"\x02\x00", b"\x03\x20\x06", b"\x02\x80"))


def long_inputs(cat):
    """Inputs of 255 octets and more: what stands behind LEN, and behind the first 256 octets, has no effect."""
    whole = full_field(cat, widest)
    for count, tail in itertools.product((255, 256, 257, 300), (b"\0", b"\xFF")):
        yield (bytes([cat]) + whole).ljust(count, tail)
    yield from (bytes([cat, n]).ljust(count, b"\0") for n, count in ((254, 255), (255, 255), (255, 256), (255, 300)))


def short_inputs():
    """Every category octet alone, and some inputs of two octets."""
    yield from (bytes([cat]) for cat in range(256))
    yield from (bytes([cat, n]) for cat in (*PAPERS, 0, 49) for n in (0, 1, 2, 3, 255))


def inputs_of(cat, rng):
    yield from (bytes([cat]) + field for kind in KINDS for field in kind(cat))
    yield from long_inputs(cat)
    for _ in range(RANDOM):
        fields = good_field(cat, rng), damaged(good_field(cat, rng), rng), noise(cat, rng)
        yield from (bytes([cat]) + field for field in fields)


def inputs():
    rng = random.Random(48007021)
    yield WORKED
    yield from short_inputs()
    for cat in PAPERS:
        yield from inputs_of(cat, rng)
    yield from unknown()


def requests():
    yield from ((b"sheet", given[0], given[1:]) for given in inputs())


# ---- what the sheets reach

def on_sheets(made):
    """What stands on them: {(category, key): values}, and the places of each refusal, {(category, number): places}."""
    seen, places = defaultdict(set), defaultdict(set)
    for given in made:
        pairs = dict(line.split("=") for line in sheet(given).splitlines())
        for key, value in pairs.items():
            seen[given[0], key].add(value)
        if "refused" in pairs:
            places[given[0] if given[0] in PAPERS else None, int(pairs["refused"])].add(int(pairs["at"]))
    return seen, places


def numbers_covered(cat, seen):
    """Each number stands on a sheet with its lowest and its highest, each chain with each number of parts."""
    for item in PAPERS[cat]:
        numbers = [n for _, defined in item[1] for n in defined] + [n for _, _, defined in item[2] for n in defined]
        for key, number in zip(keys(item), numbers):
            assert key is None or {str(z) for z in limits(number)} <= seen[cat, key], (cat, key)
        if len(item[1]) > 1:
            assert {str(n) for n in range(1, len(item[1]) + 1)} == seen[cat, item[0] + ".chain"]


def covered():
    """Each number and each refusal, these at several places; the longest sheets; inputs of the lengths at which they are cut."""
    made = list(dict.fromkeys(inputs()))
    seen, places = on_sheets(made)
    for cat in PAPERS:
        numbers_covered(cat, seen)
        assert max(len(sheet(given)) for given in made if given[0] == cat) == LONGEST[cat]
        never = {4, 8} if cat == 21 else set()  # it has no spare place and no number with limits
        assert {number for number in range(2, 10) if not places[cat, number]} == never
        assert all(len(places[cat, number]) >= 4 for number in (5, 6, 7, 9)) and (cat == 21 or len(places[cat, 8]) >= 2)
    assert places[None, 1] == {0}
    assert {1, 2, 255, 256, 257, 300} <= {len(given) for given in made}
    assert {"351563", "-351563", "21", "90000000"} <= seen[48, "MD5.POS.LAT.udeg"] and "-180000000" in seen[48, "M5N.POS.LON.udeg"]
    for where in (48, "MD5"), (48, "M5N"), (7, "M5N"):
        for name in ("LAT", "LON"):
            assert {"0", "16384", "-16384", "14997", "-14997", "1387", "-1387"} <= seen[where[0], f"{where[1]}.POS.{name}.left"]
    assert {"8000", "8001", "9999", "10000", "12094", "12095"} <= seen[21, "BPS.tenths"]
    assert seen[21, "BPS.sense"] == {"atmost", "equal", "atleast"}
