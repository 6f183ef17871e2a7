"""Makes the corpora of the benchmark: `python3 bench/corpus.py SEED FOLDER`, one file NAME.bin for each corpus.

A file is requests, and a request serves every operation: a field, which is read and listed; an item, which is viewed
and edited; a record, which is written.
"""
import collections
import pathlib
import random
import struct
import sys

HERE = pathlib.Path(__file__).resolve().parent
sys.path.insert(0, str(HERE.parent / "tests"))
import fields  # noqa: E402
import records  # noqa: E402
import reference  # noqa: E402
from papers import PAPERS  # noqa: E402

MANY, FEW = 2048, 256
LENGTHS = (2, 8, 16, 32, 52)
ROOM, PLACES = 2048, 87  # of an output, and of a record's array
REMOVAL = 0xFFFF

# new is None for a removal; the record is the numbers of its array; room and places are the lengths that are lent
Request = collections.namedtuple("Request", "cat field listed item new record room places", defaults=(ROOM, PLACES))


def packed(r):
    """A request as driver.c takes it apart."""
    m = REMOVAL if r.new is None else len(r.new)
    head = struct.pack(f"<{PLACES}i4H2B2x", *r.record, r.places, r.room, len(r.field), m, r.listed, r.item)
    octets = head + bytes([r.cat]) + r.field + (r.new or b"")
    return octets + bytes(-len(octets) % 4)


def array_of(record):
    cat, items, parts, numbers = record
    return [cat, items, *parts, *numbers]


def own_record(cat, field, rng):
    """What the field reads to; zeros where it is refused."""
    return array_of(records.record_of((cat, field, ())))


def bad_record(cat, field, rng):
    """The field's record with a change, until it is refused."""
    while True:
        record = records.record_of((cat, field, (records.any_change(cat, rng),)))
        if reference.write(record, ROOM)[0] != "ok":
            return array_of(record)


def good_edit(cat, rng):
    """One time in three a removal, else octets that are right."""
    item = rng.randrange(1, len(PAPERS[cat]) + 1)
    return 255, item, None if rng.randrange(3) == 0 else fields.good_item(PAPERS[cat][item - 1], rng)


def bad_edit(cat, rng):
    """Refused by 12, 13 or 14."""
    kind, (_, item, new) = rng.randrange(3), good_edit(cat, rng)
    if kind == 0:
        return 255, rng.choice([0, len(PAPERS[cat]) + 1, 200]), new
    if kind == 1:
        return 255 ^ 1 << (8 - item), item, new
    return 255, item, (new or fields.whole_item(PAPERS[cat][item - 1], fields.zero)) + b"\x00"


def refused_field(cat, rng):
    """A field with one bit changed, cut short or with an octet too many, until it is refused."""
    while True:
        octets = bytearray(fields.good_field(cat, rng))
        kind = rng.randrange(4)
        if kind < 2:
            octets[rng.randrange(len(octets))] ^= 1 << rng.randrange(8)
        elif kind == 2:
            octets[0] -= 1
        else:
            octets[0] += 1
            octets += b"\x00"
        if reference.read(cat, bytes(octets))[0] != "ok":
            return bytes(octets)


def field_of_length(length, rng):
    """Any field of category 48 that is so long; the longest has every item and subfield."""
    while True:
        field = fields.full_field(48, fields.drawn(rng)) if length == 52 else fields.good_field(48, rng)
        if len(field) == length:
            return field


def corpora(seed):
    """Each corpus as its name and its requests."""
    def fill(name, count, cats, field=fields.good_field, edit=good_edit, record=own_record):
        rng = random.Random(f"{seed} {name}")
        drawn = [rng.choice(cats) for _ in range(count)]
        made = [(cat, field(cat, rng), *edit(cat, rng)) for cat in drawn]
        return name, [Request(*some, record(some[0], some[1], rng)) for some in made]

    yield fill("mixed", MANY, (48, 21, 7))
    for cat in (48, 21, 7):
        yield fill(f"cat{cat:03}", FEW, (cat,))
    yield fill("refused", FEW, (48, 21, 7), field=refused_field)
    yield fill("bad-edits", FEW, (48, 21, 7), edit=bad_edit)
    yield fill("bad-records", FEW, (48, 21, 7), record=bad_record)
    for length in LENGTHS:
        yield fill(f"len{length:02}", FEW, (48,), field=lambda _, rng, n=length: field_of_length(n, rng))


def main(seed, folder):
    folder = pathlib.Path(folder)
    folder.mkdir(parents=True, exist_ok=True)
    for name, requests in corpora(seed):
        (folder / f"{name}.bin").write_bytes(b"".join(map(packed, requests)))
        print(f"{name}: {len(requests)} requests")


if __name__ == "__main__":
    main(int(sys.argv[1]), sys.argv[2])
