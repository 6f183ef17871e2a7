"""Numbers, items and fields for the tests, laid out whatever they hold; from tests/papers.py and tests/reference.py alone.

An item is (name, chain parts, subfields) and a number (name, high bit, low bit, kind), as in papers.py; `pick` gives a number its value.
"""
from papers import PAPERS
from reference import lay_item

UNKNOWN = [0, 1, 6, 8, 20, 22, 47, 49, 255]


def width(number):
    return number[1] - number[2] + 1


def zero(number):
    return 0


def ones(number):
    """All bits 1, or the highest latitude: with every number so, no range is left."""
    return 4194304 if number[3] == "lat" else -1


def limits(number):
    """The lowest and the highest that a field may hold."""
    half = 1 << (width(number) - 1)
    return {"u": (0, 2 * half - 1), "lat": (-4194304, 4194304), "ga": (-40, half - 1)}.get(number[3], (-half, half - 1))


def lowest(number):
    return limits(number)[0]


def drawn(rng):
    """Numbers that a field may hold."""
    def pick(number):
        low, high = limits(number)
        return rng.randrange(low, high + 1)
    return pick


def flags_in(item, count):
    """How many subfields the first parts of the chain can announce."""
    return sum(len(numbers) for _, numbers in item[1][:count])


def least_count(item, k):
    """The parts that the chain needs to announce subfield k."""
    return next(c for c in range(1, len(item[1]) + 1) if k < flags_in(item, c))


def item_octets(item, count, there, pick):
    """An item with so many parts, the subfields that are there, and the numbers that are picked."""
    _, parts, subs = item
    values = [int(k in there) for k in range(len(subs))] if subs and parts else [pick(n) for _, numbers in parts for n in numbers]
    return lay_item(item, count, values + [pick(n) for _, _, numbers in subs for n in numbers])


def whole_item(item, pick):
    return item_octets(item, len(item[1]), range(len(item[2])), pick)


def field_of(items):
    """The field of these items, {0 for the first: octets}."""
    body = b"".join(items[i] for i in sorted(items))
    return bytes([len(body) + 2, sum(1 << (7 - i) for i in items)]) + body


def full_field(cat, pick):
    return field_of({i: whole_item(item, pick) for i, item in enumerate(PAPERS[cat])})


def single_bits(mask):
    return [1 << k for k in range(mask.bit_length()) if mask >> k & 1]


def item_forms(item):
    """Every chain length, without and with all that it can announce."""
    for count in range(1, len(item[1]) + 1) if item[1] else [0]:
        there = range(flags_in(item, count)) if item[1] else [0]
        for some, pick in (([], zero), ([], ones), (there, zero), (there, ones)):
            yield item_octets(item, count, some, pick)


def items_alone(cat):
    """Every item alone, in every form."""
    for i, item in enumerate(PAPERS[cat]):
        yield from (field_of({i: octets}) for octets in item_forms(item))


def good_item(item, rng):
    """Any parts, subfields and numbers that the paper allows."""
    count = rng.randrange(1, len(item[1]) + 1) if item[1] else 0
    there = [k for k in range(flags_in(item, count)) if rng.randrange(2)]
    return item_octets(item, count, there, drawn(rng))


def good_field(cat, rng):
    """Any items, each as any that the paper allows."""
    return field_of({i: good_item(item, rng) for i, item in enumerate(PAPERS[cat]) if rng.randrange(2)})
