"""Holds plain.c and the exported functions against each other: `python3 bench/check.py [SEED] [ROUNDS]`.

Every operation is tried on every request, twice: plain.c, built by the machine's own compiler, against
tests/reference.py; then the exported functions against plain.c, both as bench/run built them, by a checksum of the
answer and of all outputs. The last line has the number of differences, which must be 0.
"""
import collections
import ctypes
import itertools
import pathlib
import random
import subprocess
import sys

import programs
from corpus import PLACES, ROOM, Request, array_of, packed

HERE = pathlib.Path(__file__).resolve().parent
sys.path.insert(0, str(HERE.parent / "tests"))
import fields  # noqa: E402
import records  # noqa: E402
import reference  # noqa: E402
from papers import PAPERS  # noqa: E402

MARKS = b"\xA5" * ROOM  # what an output holds before the call
UNREAD = [-7] * 100  # and what a record's array holds


# ---- what the reference answers: the word, then the numbers and the octets that the record and the output begin with

def answered(got):
    """By ('ok', octets of the output) or ('refused', number, place)."""
    return (len(got[1]), [], got[1]) if got[0] == "ok" else (got[1] << 48 | got[2] << 16, [], b"")


def read(r):
    got = reference.read(r.cat, r.field)
    if got[0] == "ok" and r.places != PLACES:
        got = ("refused", 11, 0)
    return (got[1], array_of(got[2]), b"") if got[0] == "ok" else answered(got)


def write(r):
    """An array has more records than 01: 10 also for another length, and for items or parts that are no octets."""
    cat, items, parts, numbers = r.record[0], r.record[1], r.record[2:10], r.record[10:]
    if r.places != PLACES or cat in PAPERS and not all(0 <= z < 256 for z in (items, *parts)):
        return answered(("refused", 10, 0))
    return answered(reference.write((cat, items, parts, numbers), r.room))


def view(r):
    got = reference.view(r.cat, r.field, r.item)
    return (got[1] << 16 | got[2], [], b"") if got[0] == "ok" else answered(got)


def edit(r):
    return answered(reference.edit(r.cat, r.field, r.listed, r.item, r.new, r.room))


def sheet(r):
    text = reference.sheet(bytes([r.cat]) + r.field).encode()
    return answered(("ok", text) if len(text) <= r.room else ("refused", 11, 0))


EXPECTED = {"read": read, "write": write, "view": view, "edit": edit, "sheet": sheet}


# ---- what plain.c answers

def built():
    """plain.c as a library; whatever C does not define ends the run at once."""
    out = programs.WORK / "plain-check.so"
    subprocess.run(["cc", "-O2", "-Wall", "-Wextra", "-Werror", "-shared", "-fPIC", "-fsanitize=undefined",
                    "-fsanitize-undefined-trap-on-error", "-o", str(out), str(HERE / "plain.c")], check=True)
    library = ctypes.CDLL(str(out))
    octet, octets, size, numbers = ctypes.c_uint8, ctypes.c_void_p, ctypes.c_size_t, ctypes.c_void_p
    field, output = [octet, octets, size], [octets, size]
    for name, arguments in {"read": [*field, numbers, size], "write": [numbers, size, *output], "view": [*field, octet],
                            "remove": [*field, octet, octet, *output], "sheet": [octets, size, *output],
                            "replace": [*field, octet, octet, octets, size, *output]}.items():
        call = getattr(library, f"plain_{name}")
        call.argtypes, call.restype = arguments, ctypes.c_uint64
    return library


def called(library, operation, r, kept, out):
    """The word that plain.c answers."""
    field = r.cat, r.field, len(r.field)
    if operation == "read":
        return library.plain_read(*field, kept, r.places)
    if operation == "write":
        return library.plain_write((ctypes.c_int32 * (PLACES + 1))(*r.record), r.places, out, r.room)
    if operation == "view":
        return library.plain_view(*field, r.item)
    if operation == "sheet":
        return library.plain_sheet(bytes([r.cat]) + r.field, len(r.field) + 1, out, r.room)
    if r.new is None:
        return library.plain_remove(*field, r.listed, r.item, out, r.room)
    return library.plain_replace(*field, r.listed, r.item, r.new, len(r.new), out, r.room)


def plain_differs(library, operation, r, expected):
    kept, out = (ctypes.c_int32 * len(UNREAD))(*UNREAD), (ctypes.c_uint8 * ROOM).from_buffer_copy(MARKS)
    word, numbers, octets = expected
    told = called(library, operation, r, kept, out)
    return told != word or list(kept) != numbers + UNREAD[len(numbers):] or bytes(out) != octets + MARKS[len(octets):]


def empty_sheet_differs(library):
    """The one input that no request can say."""
    out = (ctypes.c_uint8 * ROOM).from_buffer_copy(MARKS)
    text = reference.sheet(b"").encode()
    return library.plain_sheet(b"", 0, out, ROOM) != len(text) or bytes(out) != text + MARKS[len(text):]


# ---- requests

def damaged(field, rng):
    """A field with a few octets changed, cut off, left over or exchanged for noise."""
    octets = bytearray(field)
    for _ in range(rng.randrange(1, 4)):
        kind = rng.randrange(7)
        at = rng.randrange(len(octets)) if octets else 0
        if kind == 0 and octets:
            octets[at] ^= 1 << rng.randrange(8)
        elif kind == 1 and octets:
            octets[at] = rng.randrange(256)
        elif kind == 2 and octets:
            octets[0] = max(0, min(255, octets[0] + rng.randrange(-3, 4)))
        elif kind == 3:
            del octets[at:]
        elif kind == 4:
            octets += rng.randbytes(rng.randrange(1, 4))
        elif kind == 5 and octets:
            octets[0] = len(octets) % 256
        elif kind == 6 and len(octets) > 2:
            at = rng.randrange(2, len(octets))
            octets[at:at] = rng.randbytes(1)
            octets[0] = len(octets) % 256
    return bytes(octets)


def paper_of(cat):
    return cat if cat in PAPERS else 48


def some_field(cat, rng):
    base = paper_of(cat)
    kind = rng.randrange(10)
    if kind == 0:
        octets = rng.randbytes(rng.randrange(60))
        return bytes([len(octets) + 1]) + octets
    field = fields.good_field(base, rng)
    if kind == 1:
        field = fields.full_field(base, fields.drawn(rng))
    elif kind == 2:
        index = rng.randrange(len(PAPERS[base]))
        field = fields.field_of({index: rng.choice(list(fields.item_forms(PAPERS[base][index])))})
    return field if rng.randrange(2) else damaged(field, rng)


def some_item(cat, item, rng):
    """New octets for an item, None for a removal."""
    kind, papers = rng.randrange(12), PAPERS[paper_of(cat)]
    if kind < 3:
        return None
    if kind == 3:
        return rng.randbytes(rng.choice([0, 1, 2, 3, 253, 254, 255, 300]))
    good = fields.good_item(papers[item - 1] if 1 <= item <= len(papers) else rng.choice(papers), rng)
    return good if kind < 9 else damaged(good, rng)


def some_record(cat, field, rng):
    """The field's record, or another where the field is refused; some with a few changes, also to what is no octet."""
    if reference.read(cat, field)[0] != "ok":
        cat = paper_of(cat)
        field = fields.good_field(cat, rng)
    changes = [records.any_change(cat, rng) for _ in range(rng.choice([0, 0, 1, 1, 2]))]
    array = array_of(records.record_of((cat, field, changes)))
    if rng.randrange(16) == 0:
        array[rng.randrange(10)] += rng.choice([256, -256, 65536, -1])
    return array


def request(cat, field, rng, **lent):
    """About a field, with all else drawn."""
    item = rng.randrange(10)
    listed = rng.choice([255, 255, rng.randrange(256)])
    return Request(cat, field, listed, item, some_item(cat, item, rng), some_record(cat, field, rng), **lent)


def at_limits(cat):
    """Whole fields with latitudes and altitudes on both sides of a limit."""
    for kind, values in (("lat", (-4194305, -4194304, 4194304, 4194305)), ("ga", (-8192, -41, -40, 8191))):
        yield from (fields.full_field(cat, lambda n, k=kind, z=value: z if n[3] == k else 0) for value in values)


def field_edges():
    """Fields at a limit; every item alone in each of its forms, and each such field cut off or with one bit changed."""
    for cat in PAPERS:
        yield from ((cat, field) for field in at_limits(cat))
        whole = [fields.full_field(cat, pick) for pick in (fields.lowest, fields.zero)]
        for field in [b"", *fields.items_alone(cat), *whole]:
            yield cat, field
            yield from ((cat, field[:n]) for n in range(len(field)))
            yield from ((cat, bytes([n]) + field[1:]) for n in range(len(field)))
            for at in range(len(field)):
                yield from ((cat, field[:at] + bytes([field[at] ^ 1 << b]) + field[at + 1:]) for b in range(8))


def record_edges():
    """Those of tests/records.py: each number on both sides of its limits, what is there without what announces it."""
    for cat, kind in itertools.product(PAPERS, (*records.ROOMED, *records.RIGHT, *records.WRONG)):
        yield from kind(cat)


def requests(rng, rounds):
    for cat, field in field_edges():
        yield request(cat, field, rng)
    for source in record_edges():
        yield request(*source[:2], rng)._replace(record=array_of(records.record_of(source)))
    yield request(48, fields.full_field(48, fields.ones) + rng.randbytes(300), rng)
    for _ in range(rounds):
        cat = rng.choice([48, 21, 7] * 9 + [rng.choice(fields.UNKNOWN)])
        room = rng.choice([ROOM, ROOM, 255, rng.randrange(ROOM), rng.randrange(60)])
        yield request(cat, some_field(cat, rng), rng, room=room, places=rng.choice([PLACES] * 9 + [0, 86, 88]))


# ---- the two comparisons

def reference_differences(library, operation, made):
    """The requests that plain.c answers otherwise, and how often each refusal is expected."""
    different, numbers = [], collections.Counter()
    for r in made:
        expected = EXPECTED[operation](r)
        numbers[expected[0] >> 48] += 1
        if plain_differs(library, operation, r, expected):
            different.append(r)
    return different, dict(sorted(numbers.items()))


def compiled_differences(operation, made, path):
    """The requests whose checksums differ between the two programs."""
    sums = [programs.told(programs.driver(side, operation, path)) for side in programs.SIDES]
    if not len(sums[0]) == len(sums[1]) == len(made):
        raise SystemExit("bench: a program did not answer every request")
    return [r for r, *pair in zip(made, *sums) if pair[0] != pair[1]]


def main(seed=1, rounds=5000):
    library, made, path = built(), list(requests(random.Random(seed), rounds)), programs.WORK / "check.bin"
    path.write_bytes(b"".join(map(packed, made)))
    total = int(empty_sheet_differs(library))
    for operation in programs.OPERATIONS:
        found, numbers = reference_differences(library, operation, made)
        compiled = compiled_differences(operation, made, path)
        total += len(found) + len(compiled)
        print(f"{operation}: {len(made)} tried, {len(found)} differences between plain.c and tests/reference.py, "
              f"{len(compiled)} between the exported functions and plain.c; by refusal, 0 for none: {numbers}")
        for r in [*found, *compiled][:10]:
            print("different:", r)
    print(f"{len(made) * len(programs.OPERATIONS) + 1} tried, {total} differences")
    return total != 0


if __name__ == "__main__":
    sys.exit(main(*map(int, sys.argv[1:])))
