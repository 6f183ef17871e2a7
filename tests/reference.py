"""An implementation of document 01 and of the requests of 02 that are built, for the tests, written from these and the papers; it shares nothing with
crates/.

A record is (category, items, [8 parts], [77 numbers]). An operation answers ('ok', ..) or ('refused', number, place).
"""
import re

from papers import PAPERS

SLOTS = 77
LONGEST_FIELD = 52  # octets, of category 048
LONGEST_TEXT = 32768  # octets of a text that may be a sheet


class Refusal(Exception):
    def __init__(self, number, place):
        super().__init__(number, place)
        self.number, self.place = number, place


def cut(value, hi, lo):
    return value >> (lo - 1) & ((1 << (hi - lo + 1)) - 1)


def spare_bits(octets, numbers, fx):
    mask = (1 << 8 * octets) - 1
    for _, hi, lo, _ in numbers:
        mask &= ~(((1 << (hi - lo + 1)) - 1) << (lo - 1))
    return mask & ~1 if fx else mask


def signed(value, bits):
    return value - (1 << bits) if value >> (bits - 1) else value


def in_range(kind, z):
    if kind == "lat":
        return -4194304 <= z <= 4194304
    if kind == "ga":
        return z >= -40
    return True


def value_of(number, whole):
    _, hi, lo, kind = number
    v = cut(whole, hi, lo)
    return v if kind == "u" else signed(v, hi - lo + 1)


def take(field, at, octets, numbers, fx):
    """The octets of a chain part or subfield as one number: tried for 5, then 6."""
    if at + octets > field[0]:
        raise Refusal(5, at)
    whole = int.from_bytes(field[at:at + octets], "big")
    if whole & spare_bits(octets, numbers, fx):
        raise Refusal(6, at)
    return whole


def read_chain(field, at, parts):
    """The numbers of the parts there are (a list for each defined part, None where absent), the count, the next place."""
    found = [None] * len(parts)
    for k, (octets, numbers) in enumerate(parts):
        whole = take(field, at, octets, numbers, True)
        if whole & 1 and k == len(parts) - 1:
            raise Refusal(7, at)
        found[k] = [value_of(n, whole) for n in numbers]
        at += octets
        if not whole & 1:
            return found, k + 1, at
    raise AssertionError("a chain ends")


def read_item(field, at, item):
    """(parts, {slot in the item: number}, next place)"""
    _, parts, subs = item
    numbers, count, there = [], 0, [True] * len(subs)
    if parts:
        found, count, at = read_chain(field, at, parts)
        for (_, defined), got in zip(parts, found):
            numbers += got if got is not None else [0] * len(defined)
        there = [numbers[k] == 1 for k in range(len(subs))]
    for present, (_, octets, defined) in zip(there, subs):
        if not present:
            numbers += [0] * len(defined)
            continue
        whole = take(field, at, octets, defined, False)
        got = [value_of(n, whole) for n in defined]
        if not all(in_range(n[3], z) for n, z in zip(defined, got)):
            raise Refusal(8, at)
        numbers += got
        at += octets
    return count, numbers, at


def size(item):
    _, parts, subs = item
    return sum(len(n) for _, n in parts) + sum(len(n) for _, _, n in subs)


def walk(cat, field):
    """The record of a field and the span of each item, (0, 0) where absent."""
    if cat not in PAPERS:
        raise Refusal(1, 0)
    if not field:
        raise Refusal(2, 0)
    if field[0] < 2:
        raise Refusal(3, 0)
    if len(field) < field[0]:
        raise Refusal(2, 0)
    items, indicator, at = PAPERS[cat], field[1], 2
    if indicator & ((1 << (8 - len(items))) - 1):
        raise Refusal(4, 1)
    counts, numbers, spans = [0] * 8, [], [(0, 0)] * 8
    for i, item in enumerate(items):
        if not indicator >> (7 - i) & 1:
            numbers += [0] * size(item)
            continue
        start = at
        counts[i], got, at = read_item(field, at, item)
        numbers += got
        spans[i] = (start, at - start)
    if at != field[0]:
        raise Refusal(9, at)
    return (cat, indicator, counts, numbers + [0] * (SLOTS - len(numbers))), spans


def answered(operation):
    def call(*args):
        try:
            return operation(*args)
        except Refusal as r:
            return ("refused", r.number, r.place)
    return call


@answered
def read(cat, field):
    record, _ = walk(cat, field)
    return ("ok", field[0], record)


def lay(octets, numbers, values):
    whole = 0
    for (_, hi, lo, _), z in zip(numbers, values):
        whole |= (z & ((1 << (hi - lo + 1)) - 1)) << (lo - 1)
    return whole


def lay_item(item, count, values):
    """The octets of an item, by its numbers: chain parts as many as counted, then the subfields whose flag is set."""
    _, parts, subs = item
    out, at, first = b"", 0, values
    for k, (octets, numbers) in enumerate(parts):
        if k < count:
            whole = lay(octets, numbers, values[at:at + len(numbers)]) | (1 if k + 1 < count else 0)
            out += whole.to_bytes(octets, "big")
        at += len(numbers)
    for k, (_, octets, numbers) in enumerate(subs):
        if not parts or first[k] == 1:
            out += lay(octets, numbers, values[at:at + len(numbers)]).to_bytes(octets, "big")
        at += len(numbers)
    return out


def lay_record(record):
    """The octets that the record would have; no check."""
    cat, indicator, counts, numbers = record
    out, at = b"", 0
    for i, item in enumerate(PAPERS[cat]):
        if indicator >> (7 - i) & 1:
            out += lay_item(item, counts[i], numbers[at:at + size(item)])
        at += size(item)
    return bytes([len(out) + 2, indicator]) + out


@answered
def write(record, room):
    cat = record[0]
    if cat not in PAPERS:
        raise Refusal(1, 0)
    octets = lay_record(record)
    back = read(cat, octets)
    if back[0] != "ok" or back[2] != record:
        raise Refusal(10, 0)
    if len(octets) > room:
        raise Refusal(11, 0)
    return ("ok", octets)


@answered
def view(cat, field, item):
    record, spans = walk(cat, field)
    if not 1 <= item <= len(PAPERS[cat]):
        raise Refusal(12, 0)
    start, length = spans[item - 1]
    if not record[1] >> (8 - item) & 1:
        raise Refusal(15, 0)
    return ("ok", start, length, field[start:start + length])


def choose(cat, base, correction, item):
    """('ok', which, start, length, octets) or ('refused', number, place, which)"""
    if cat not in PAPERS:
        return ("refused", 1, 0, 0)
    for which, field in ((1, base), (2, correction)):
        got = read(cat, field)
        if got[0] != "ok":
            return got + (which,)
    for which, field in ((2, correction), (1, base)):
        got = view(cat, field, item)
        if got[0] == "ok":
            return ("ok", which) + got[1:]
    return got + (0,)


@answered
def edit(cat, field, listed, item, new, room):
    """new is None for a removal."""
    record, spans = walk(cat, field)
    if not 1 <= item <= len(PAPERS[cat]):
        raise Refusal(12, 0)
    bit = 1 << (8 - item)
    if not listed & bit:
        raise Refusal(13, 0)
    indicator, texts = field[1], [field[a:a + n] for a, n in spans]
    if new is None:
        indicator, texts[item - 1] = indicator & ~bit, b""
    else:
        if not 1 <= len(new) <= 253 or read(cat, bytes([len(new) + 2, bit]) + new)[0] != "ok":
            raise Refusal(14, 0)
        indicator, texts[item - 1] = indicator | bit, new
    body = b"".join(texts)
    if len(body) + 2 > room:
        raise Refusal(11, 0)
    return ("ok", bytes([len(body) + 2, indicator]) + body)


@answered
def copy(cat, field, withheld, room):
    """02, Ask 5: the field without the items on the list."""
    _, spans = walk(cat, field)
    indicator = field[1] & ~withheld
    body = b"".join(field[start:start + length] for i, (start, length) in enumerate(spans) if indicator >> (7 - i) & 1)
    if len(body) + 2 > room:
        raise Refusal(11, 0)
    return ("ok", bytes([len(body) + 2, indicator]) + body)


# ---- the sheet

def angle(n):
    """Millionths of a degree, nearest, halves away from zero, and what they leave over of the exact angle, n * 703125 / 32768, in parts of 32768."""
    whole, rest = divmod(abs(n) * 703125, 32768)
    up, side = 2 * rest >= 32768, -1 if n < 0 else 1
    return side * (whole + up), side * (rest - 32768 if up else rest)


def keys(item):
    """A key for each number of an item, in the order of its slots; None for a presence flag."""
    name, parts, subs = item
    alone = parts if not subs else [] if parts else [(octets, numbers) for _, octets, numbers in subs]
    if alone:
        several = sum(len(numbers) for _, numbers in alone) > 1
        return [f"{name}.{n[0]}" if several else name for _, numbers in alone for n in numbers]
    flags = [None for _, numbers in parts for _ in numbers]
    return flags + [f"{name}.{sub}.{n[0]}" if len(numbers) > 1 else f"{name}.{sub}" for sub, _, numbers in subs for n in numbers]


def shown(item, count, numbers):
    """For each number of an item whether its chain part or subfield is there."""
    _, parts, subs = item
    there = [k < count for k, (_, defined) in enumerate(parts) for _ in defined]
    return there + [not parts or numbers[k] == 1 for k, (_, _, defined) in enumerate(subs) for _ in defined]


# 02, Ask 1, by document 003, 2.3: a number at an end stands for what lies beyond it too
SENSES = {0: "atmost", 4095: "atleast"}


def number_lines(key, z):
    lines = [f"{key}={z}"]
    if key.endswith((".LAT", ".LON")):
        lines += [f"{key}.{word}={value}" for word, value in zip(("udeg", "left"), angle(z))]
    if key == "BPS":
        lines += [f"BPS.tenths={8000 + z}", f"BPS.sense={SENSES.get(z, 'equal')}"]
    return lines


def sheet(octets):
    """The text of a category octet and a field, at most 256 octets."""
    octets = octets[:256]
    if not octets:
        return "cat=none\nrefused=2\nat=0\n"
    cat, got = octets[0], read(octets[0], octets[1:])
    if got[0] != "ok":
        return f"cat={cat}\nrefused={got[1]}\nat={got[2]}\n"
    _, length, (_, indicator, counts, numbers) = got
    present = [(i, item) for i, item in enumerate(PAPERS[cat]) if indicator >> (7 - i) & 1]
    lines = [f"cat={cat}", f"len={length}", "items=" + ",".join(item[0] for _, item in present)]
    starts = [sum(map(size, PAPERS[cat][:i])) for i in range(8)]
    for i, item in present:
        own = numbers[starts[i]:starts[i] + size(item)]
        if len(item[1]) > 1:
            lines.append(f"{item[0]}.chain={counts[i]}")
        for key, there, z in zip(keys(item), shown(item, counts[i], own), own):
            lines += number_lines(key, z) if key and there else []
    return "\n".join(lines + ["end=ok"]) + "\n"


# ---- the sheet read back: 02, Ask 6

class Lines:
    """The lines of a text, taken one after the other. A line that can't stand where it does is refused by 18 with its number, from 1."""

    def __init__(self, text):
        *self.whole, self.cut = text.split("\n")  # what stands behind the last line feed is no whole line
        self.taken = 0

    def refuse(self):
        raise Refusal(18, self.taken)

    def has(self, key):
        """Whether the next line is there and has this key."""
        return self.taken < len(self.whole) and self.whole[self.taken].startswith(key + "=")

    def value(self, key):
        """The next line's, which has to have this key."""
        there = self.has(key)
        self.taken += 1
        if not there:
            self.refuse()
        return self.whole[self.taken - 1].removeprefix(key + "=")

    def exactly(self, line):
        key, _, wanted = line.partition("=")
        if self.value(key) != wanted:
            self.refuse()

    def decimal(self, key, low, high):
        """A number as the sheet prints it, from low to high."""
        value = self.value(key)
        if not re.fullmatch("0|-?[1-9][0-9]{0,9}", value) or not low <= int(value) <= high:
            self.refuse()
        return int(value)

    def end(self):
        if self.taken < len(self.whole) or self.cut:
            self.taken += 1
            self.refuse()


def number_in(lines, key, number):
    """A number that its bits hold and its range allows; the lines derived from it have to follow."""
    _, hi, lo, kind = number
    half = 1 << (hi - lo)
    z = lines.decimal(key, 0, 2 * half - 1) if kind == "u" else lines.decimal(key, -half, half - 1)
    if not in_range(kind, z):
        lines.refuse()
    for line in number_lines(key, z)[1:]:
        lines.exactly(line)
    return z


def chain_in(lines, parts, named, count):
    """The numbers of the parts that there are; zeros for the others."""
    return [number_in(lines, next(named), n) if k < count else 0 for k, (_, numbers) in enumerate(parts) for n in numbers]


def subfields_in(lines, subs, named, announced):
    """Flags and numbers of the subfields: one that the parts can announce is there if the next line opens it, and then it is there whole."""
    flags, values = [], []
    for k, (_, _, numbers) in enumerate(subs):
        own = [next(named) for _ in numbers]
        flags.append(int(k < announced and lines.has(own[0])))
        values += [number_in(lines, key, n) if flags[k] else 0 for key, n in zip(own, numbers)]
    return flags + values


def item_in(lines, item):
    """The octets of an item that is there."""
    name, parts, subs = item
    count = lines.decimal(f"{name}.chain", 1, len(parts)) if len(parts) > 1 else len(parts)
    named = iter(key for key in keys(item) if key)
    if not parts:
        return lay_item(item, 0, [number_in(lines, next(named), n) for _, _, numbers in subs for n in numbers])
    if not subs:
        return lay_item(item, count, chain_in(lines, parts, named, count))
    return lay_item(item, count, subfields_in(lines, subs, named, sum(len(numbers) for _, numbers in parts[:count])))


def names_in(lines, items):
    """The names of line 3: each an item's, in the order of their bits, none twice."""
    value = lines.value("items")
    names = value.split(",") if value else []
    if names != [item[0] for item in items if item[0] in names]:
        lines.refuse()
    return names


@answered
def rebuild(text, room):
    """('ok', category, octets) of the field whose sheet the text is. The refusal's place is a line."""
    if len(text) > LONGEST_TEXT:
        raise Refusal(18, 0)
    lines = Lines(text.decode("latin-1"))
    cat = lines.decimal("cat", 0, 255)
    if cat not in PAPERS:
        lines.refuse()
    length = lines.decimal("len", 2, 255)
    items = PAPERS[cat]
    names = names_in(lines, items)
    body = b"".join(item_in(lines, item) for item in items if item[0] in names)
    lines.exactly("end=ok")
    lines.end()
    if length != len(body) + 2:
        raise Refusal(18, 2)
    if length > room:
        raise Refusal(11, 0)
    return ("ok", cat, bytes([length, sum(0x80 >> i for i, item in enumerate(items) if item[0] in names)]) + body)
