#!/usr/bin/env python3
"""01's worked octets, edits and longest fields, and edits, copies, records and sheets written by hand, held against the reference implementation of the
tests; sheets that are read back, whole, cut and spoilt, against what is printed, and the texts whose answers crates/guess computes; and the papers' data
of crates/papers, as tests/slots.py takes it, and docs/SPARE.md held against the transcription of the tests. And that each public function has its wrong
programs, as tests/ledger.py counts them."""
import random
import re
from decimal import ROUND_HALF_UP, Decimal
from itertools import zip_longest
from math import inf

import copies
import ledger
import rebuilds
import slots
import spares
import specimens
import ways
from edits import BASE, WORKED
from fields import full_field, good_field
from papers import INDICATORS, MEASURES, PAPERS, SECTIONS
from printed import aside, checked, split
from reads import requests
from reference import LONGEST_TEXT, angle, choose, copy, edit, keys, read, rebuild, sheet, size, SLOTS, spare_bits, view, write
from sheets import inputs, positions, widest

h = bytes.fromhex

READS = [  # 01, 'Octets tried at each edge': octets, then the numbers that are not 0 by slot, or the refusal
    (48, "02 00", {}),
    (48, "02 80", (5, 2)),
    (48, "03 20 06", {67: 3}),
    (48, "03 20 0F", (6, 2)),
    (48, "03 20 07", (7, 2)),
    (48, "04 40 01 00", {}),
    (48, "04 40 01 01", (7, 3)),
    (48, "04 40 01 80", (5, 4)),
    (48, "05 40 01 80 1F", {40: 1, 66: 31}),
    (48, "05 40 01 80 20", (6, 4)),
    (48, "05 80 10 3F D8", {3: 1, 21: -40}),
    (48, "05 80 10 3F D7", (8, 3)),
    (48, "04 80 04 FF", {5: 1, 26: -1}),
    (48, "09 80 20 40 00 00 80 00 00", {2: 1, 18: 4194304, 19: -8388608}),
    (48, "09 80 20 40 00 01 80 00 00", (8, 3)),
    (48, "06 08 01 00 00 00", (9, 5)),
    (48, "03 01 00", (4, 1)),
    (21, "03 01 00", {}),
]

DESK = [  # by hand from 01: category, field, list, item, new octets, room, then the octets or the refusal
    (48, "06 28 06 01 00 00", 0x08, 5, "02 00 00", 6, "06 28 06 02 00 00"),
    (48, "06 28 06 01 00 00", 0x0F, 5, "02 00 00", 6, "06 28 06 02 00 00"),
    (48, "06 28 06 01 00 00", 0xFF, 5, "01 00 00", 6, "06 28 06 01 00 00"),
    (48, "06 28 06 01 00 00", 0xFF, 2, "01 00", 8, "08 68 01 00 06 01 00 00"),
    (48, "08 68 01 00 06 01 00 00", 0xFF, 2, "00", 7, "07 68 00 06 01 00 00"),
    (48, "07 68 00 06 01 00 00", 0xFF, 2, "01 80 1F", 9, "09 68 01 80 1F 06 01 00 00"),
    (48, "06 28 06 01 00 00", 0xFF, 1, "10 3F D8", 52, "09 A8 10 3F D8 06 01 00 00"),
    (48, "06 28 06 01 00 00", 0xFF, 5, None, 3, "03 20 06"),
    (48, "06 28 06 01 00 00 FF", 0xFF, 5, None, 3, "03 20 06"),
    (48, "03 20 06", 0x20, 3, None, 2, "02 00"),
    (48, "06 28 06 01 00 00", 0x80, 1, None, 6, "06 28 06 01 00 00"),
    (48, "02 00 FF", 0xFF, 5, None, 2, "02 00"),
    (48, "02 00 FF", 0xFF, 5, "01 00 00", 5, "05 08 01 00 00"),
    (21, "03 01 00", 0x01, 8, None, 2, "02 00"),
    (21, "02 00", 0x80, 1, "0F FF", 4, "04 80 0F FF"),
    (21, "05 0C 8F FE 02", 0x08, 5, "0F FF FE", 6, "06 0C 0F FF FE 02"),
    (21, "06 0C 0F FF FE 02", 0x08, 5, "8F FE", 5, "05 0C 8F FE 02"),
    (21, "06 0C 0F FF FE 02", 0x04, 6, "03 00", 7, "07 0C 0F FF FE 03 00"),
    (7, "02 00", 0xF8, 1, "20 00 3F FF", 6, "06 80 20 00 3F FF"),
    (7, "07 88 20 00 3F FF 01", 0xF8, 1, "20 00 3F FF", 7, (5, 6)),
    (48, "06 28 06 01 00 00", 0xFF, 6, None, 52, 12),
    (48, "06 28 06 01 00 00", 0xFF, 0, "06", 52, 12),
    (48, "06 28 06 01 00 00", 0x00, 255, "", 0, 12),
    (21, "03 01 00", 0xFF, 9, "00", 52, 12),
    (7, "02 00", 0xFF, 8, None, 0, 12),
    (48, "06 28 06 01 00 00", 0xF7, 5, "02 00 00", 52, 13),
    (48, "06 28 06 01 00 00", 0x07, 3, None, 52, 13),
    (48, "06 28 06 01 00 00", 0x30, 5, "", 0, 13),
    (48, "06 28 06 01 00 00", 0x00, 1, None, 0, 13),
    (21, "03 01 00", 0xFE, 8, None, 52, 13),
    (48, "06 28 06 01 00 00", 0xFF, 3, "", 0, 14),
    (48, "06 28 06 01 00 00", 0xFF, 3, "0E", 0, 14),
    (48, "06 28 06 01 00 00", 0xFF, 3, "07", 52, 14),
    (48, "06 28 06 01 00 00", 0xFF, 3, "06 00", 52, 14),
    (48, "06 28 06 01 00 00", 0xFF, 5, "01 00", 52, 14),
    (48, "06 28 06 01 00 00", 0xFF, 1, "10 3F D7", 52, 14),
    (48, "06 28 06 01 00 00", 0xFF, 1, "20 40 00 01 80 00 00", 52, 14),
    (48, "06 28 06 01 00 00", 0xFF, 3, "06" + "00" * 252, 52, 14),
    (48, "06 28 06 01 00 00", 0xFF, 3, "06" + "00" * 253, 52, 14),
    (48, "06 28 06 01 00 00", 0xFF, 3, "06" + "00" * 256, 52, 14),
    (21, "02 00", 0x80, 1, "1F FF", 4, 14),
    (48, "06 28 06 01 00 00", 0xFF, 2, "01 00", 7, 11),
    (48, "06 28 06 01 00 00", 0xFF, 1, None, 5, 11),
    (48, "06 28 06 01 00 00", 0xFF, 5, None, 2, 11),
    (48, "03 20 06", 0xFF, 3, None, 1, 11),
    (49, "06 28 06 01 00 00", 0xFF, 5, "02 00 00", 52, 1),
    (49, "", 0x00, 9, "", 0, 1),
    (48, "", 0x00, 9, "", 0, 2),
    (48, "06 28 06", 0x00, 9, "", 0, 2),
    (48, "01 28", 0x00, 9, "", 0, 3),
    (48, "03 01 00", 0x00, 9, "", 0, (4, 1)),
    (48, "02 80", 0x00, 9, "", 0, (5, 2)),
    (48, "03 20 0F", 0x00, 9, "", 0, (6, 2)),
    (48, "04 40 01 01", 0x00, 9, None, 0, (7, 3)),
    (48, "05 80 10 3F D7", 0x00, 9, "", 0, (8, 3)),
    (48, "06 08 01 00 00 00", 0x00, 9, "", 0, (9, 5)),
    (48, "03 20 07", 0xFF, 3, "06", 52, (7, 2)),
]

COPIES = [  # by hand from 02, Ask 5: category, field, list of what is withheld, room, then the octets or the refusal
    (48, "06 28 04 01 00 00 FF", 0x20, 5, "05 08 01 00 00"),
    (48, "05 08 01 00 00", 0x20, 5, "05 08 01 00 00"),
    (48, "05 08 01 00 00", 0x20, 4, 11),
    (48, "09 68 01 80 1F 06 01 00 00", 0x40, 6, "06 28 06 01 00 00"),
    (48, "09 68 01 80 1F 06 01 00 00", 0x28, 5, "05 40 01 80 1F"),
    (48, "04 40 01 00", 0xBF, 4, "04 40 01 00"),
    (48, "02 00", 0xFF, 2, "02 00"),
    (48, "02 00 FF", 0x00, 1, 11),
    (21, "05 81 0F FF 00", 0x01, 4, "04 80 0F FF"),
    (21, "05 81 0F FF 00", 0x80, 3, "03 01 00"),
    (21, "05 81 0F FF 00", 0x81, 2, "02 00"),
    (21, "06 0C 0F FF FE 02", 0xF7, 5, "05 08 0F FF FE"),
    (7, "07 A0 3F FF 00 19 06", 0x20, 6, "06 80 3F FF 00 19"),
    (7, "07 A0 3F FF 00 19 06", 0x87, 3, "03 20 06"),
    (49, "06 28 06 01 00 00", 0xFF, 52, 1),
    (48, "", 0xFF, 0, 2),
    (48, "01 28", 0xFF, 0, 3),
    (48, "03 01 00", 0x01, 0, (4, 1)),
    (48, "02 80", 0x80, 52, (5, 2)),
    (48, "03 20 0F", 0x20, 0, (6, 2)),
    (48, "04 40 01 01", 0x40, 52, (7, 3)),
    (48, "05 80 10 3F D7", 0x80, 52, (8, 3)),
    (48, "06 08 01 00 00 00", 0x08, 0, (9, 5)),
]

WRITES = [  # by hand from 01 and the papers: category, items, {item: parts}, {slot: number}, room, then the octets or the refusal
    (48, 0x00, {}, {}, 2, "02 00"),
    (48, 0x00, {}, {}, 1, 11),
    (48, 0x00, {}, {}, 0, 11),
    (48, 0x20, {3: 1}, {67: 3}, 3, "03 20 06"),
    (48, 0x20, {3: 1}, {67: 3}, 2, 11),
    (48, 0x20, {3: 1}, {67: 4}, 3, 10),
    (48, 0x20, {3: 1}, {67: -1}, 3, 10),
    (48, 0x20, {}, {67: 3}, 3, 10),
    (48, 0x20, {3: 2}, {67: 3}, 3, 10),
    (48, 0x20, {3: 255}, {67: 3}, 3, 10),
    (48, 0x00, {3: 1}, {}, 3, 10),
    (48, 0x00, {}, {67: 3}, 3, 10),
    (48, 0x40, {2: 2}, {}, 4, "04 40 01 00"),
    (48, 0x40, {2: 1}, {}, 3, "03 40 00"),
    (48, 0x40, {2: 3}, {}, 9, 10),
    (48, 0x40, {2: 2}, {40: 1, 66: 31}, 5, "05 40 01 80 1F"),
    (48, 0x40, {2: 2}, {40: 1}, 5, "05 40 01 80 00"),
    (48, 0x40, {2: 2}, {40: 1, 66: 32}, 5, 10),
    (48, 0x40, {2: 2}, {66: 31}, 5, 10),
    (48, 0x40, {2: 1}, {40: 1, 66: 31}, 5, 10),
    (48, 0x40, {2: 1}, {40: 1}, 5, 10),
    (48, 0x80, {1: 1}, {3: 1, 21: -40}, 5, "05 80 10 3F D8"),
    (48, 0x80, {1: 1}, {3: 1, 21: -41}, 5, 10),
    (48, 0x80, {1: 1}, {3: 1, 20: 1, 21: 8191}, 5, "05 80 10 5F FF"),
    (48, 0x80, {1: 1}, {3: 1, 21: 8192}, 5, 10),
    (48, 0x80, {1: 1}, {3: 1, 21: 16344}, 5, 10),
    (48, 0x80, {1: 1}, {3: 2, 21: -40}, 5, 10),
    (48, 0x80, {1: 1}, {3: -1, 21: -40}, 5, 10),
    (48, 0x80, {1: 1}, {5: 1, 26: -128}, 4, "04 80 04 80"),
    (48, 0x80, {1: 1}, {5: 1, 26: 127}, 4, "04 80 04 7F"),
    (48, 0x80, {1: 1}, {5: 1, 26: 128}, 4, 10),
    (48, 0x80, {1: 1}, {5: 1, 26: -129}, 4, 10),
    (48, 0x80, {1: 1}, {2: 1, 18: -4194304, 19: 8388607}, 9, "09 80 20 C0 00 00 7F FF FF"),
    (48, 0x80, {1: 1}, {2: 1, 18: -4194305}, 9, 10),
    (48, 0x80, {1: 1}, {2: 1, 18: 4194305}, 9, 10),
    (48, 0x80, {1: 1}, {2: 1, 19: 8388608}, 9, 10),
    (48, 0x08, {}, {76: 16777215}, 9, "05 08 FF FF FF"),
    (48, 0x08, {}, {76: 16777216}, 9, 10),
    (48, 0x08, {5: 1}, {76: 1}, 9, 10),
    (48, 0x00, {8: 1}, {}, 9, 10),
    (48, 0x01, {}, {}, 9, 10),
    (21, 0x01, {8: 1}, {}, 3, "03 01 00"),
    (21, 0x01, {8: 1}, {74: 1}, 3, 10),
    (21, 0x80, {}, {0: 4095}, 4, "04 80 0F FF"),
    (21, 0x80, {}, {0: 4096}, 4, 10),
    (21, 0x08, {5: 1}, {12: 1, 16: 2047}, 4, "04 08 8F FE"),
    (21, 0x08, {5: 2}, {16: 2047, 17: 127}, 5, "05 08 0F FF FE"),
    (21, 0x08, {5: 1}, {16: 2047, 17: 127}, 5, 10),
    (21, 0x04, {6: 6}, {42: 1, 43: 31}, 8, "08 04 01 01 01 01 01 FC"),
    (21, 0x04, {6: 5}, {42: 1, 43: 31}, 8, 10),
    (21, 0x04, {6: 7}, {42: 1, 43: 31}, 8, 10),
    (7, 0x80, {}, {0: -8192, 1: -1}, 6, "06 80 20 00 3F FF"),
    (7, 0x80, {}, {0: 8191, 1: -8192}, 6, "06 80 1F FF 20 00"),
    (7, 0x80, {}, {0: 8192}, 6, 10),
    (7, 0x80, {}, {0: -8193}, 6, 10),
    (7, 0x00, {}, {46: 1}, 2, 10),
    (7, 0x00, {}, {76: -1}, 0, 10),
    (49, 0x00, {}, {}, 2, 1),
    (0, 0x01, {8: 1}, {76: -1}, 0, 1),
]


# ---- crates/papers by tests/slots.py, against tests/papers.py

KINDS = {(False, None): "u", (True, None): "s", (True, (-4194304, 4194304)): "lat", (True, (-40, 8191)): "ga"}
OTHER_NAMES = {(21, "True North Heading"): "TNH"}  # the number has no short name in document 003
ABOVE = list(zip("SUM PMN POS GA EM1 TOS XP".split(), range(16, 9, -1)))  # 2.4 of documents 000 and 004: the first octet of M5N is bits 16/9


def same_line(cat, structure, octets, defined, fx):
    """A chain part or subfield: its octets, its numbers in order, its spare bits."""
    numbers = [r for r in structure.runs if hasattr(r, "name")]
    taken = [(OTHER_NAMES.get((cat, n.name), n.name), n.hi, n.lo, KINDS[n.signed, n.limits]) for n in numbers]
    assert (structure.octets, taken) == (octets, defined), (cat, structure)
    spare = sum((2 << r.hi - r.lo) - 1 << r.lo - 1 for r in structure.runs if r not in numbers)
    assert spare == spare_bits(octets, defined, fx), (cat, structure)


def same_item(cat, entry, item):
    name, parts, subs = item
    assert (entry.name, len(entry.parts)) == (name, len(parts)), (cat, entry)
    assert [s.name for s in entry.subs] == [sub for sub, _, _ in subs], (cat, entry)
    for part, (octets, defined) in zip(entry.parts, parts):
        same_line(cat, part, octets, defined, True)
    for structure, (_, octets, defined) in zip(entry.subs, subs):
        same_line(cat, structure, octets, defined, False)
    return len(parts) + len(subs)


def same_measure(cat, key, number):
    """Both LSBs as fractions; a flag or code, which has none, as 0/1."""
    times, over, unit, start = MEASURES.get((cat, key), (0, 1, "", 0))
    taken_times, taken_over = number.lsb or (0, 1)
    assert taken_times * over == times * taken_over, (cat, key, number)
    assert (number.unit, number.start) == (unit, start), (cat, key, number)


def same_paper(cat):
    """The count of the checks: one for the indicator, for each chain part and subfield, and for each slot."""
    entries, items = slots.paper(cat), PAPERS[cat]
    rows = slots.rows(entries)
    assert len(entries) == len(items), cat
    same_line(cat, slots.indicator(cat), 1, INDICATORS[cat], False)
    checks = 1 + sum(same_item(cat, entry, item) for entry, item in zip(entries, items))
    assert [row.key for row in rows] == [key for item in items for key in keys(item)], cat
    flags = [f"{name}.{sub}" for name, parts, subs in items if parts for sub, _, _ in subs]
    assert [row.name for row in rows if row.key is None] == flags, cat
    assert [row.slot for row in rows] == list(range(sum(map(size, items)))) and len(rows) <= SLOTS, cat
    for row in rows:
        same_measure(cat, row.key, row.number)
    above = [(row.name, row.number.hi + row.number.below) for row in rows if row.number.below]
    assert above == ([(f"M5N.{name}", bit) for name, bit in ABOVE] if cat != 21 else []), (cat, above)
    return checks + len(rows)


# ---- docs/SPARE.md, which tests/spares.py makes from the tables of the code, against tests/papers.py

def spare_row(section, item, place, octets, mask):
    runs = []
    for bit in (b for b in range(8 * octets, 0, -1) if mask >> b - 1 & 1):
        if runs and runs[-1][-1] == bit + 1:
            runs[-1].append(bit)
        else:
            runs.append([bit])
    numbers = ", ".join(str(run[0]) if len(run) == 1 else f"{run[0]}/{run[-1]}" for run in runs)
    return [section, item, place, str(octets), "`" + " ".join(f"{o:08b}" for o in mask.to_bytes(octets, "big")) + "`", numbers or "none"]


def spare_rows(cat):
    yield spare_row("2.2", "indicator", "", 1, spare_bits(1, INDICATORS[cat], False))
    for name, parts, subs in PAPERS[cat]:
        for k, (octets, numbers) in enumerate(parts, 1):
            yield spare_row(SECTIONS[cat][name], name, f"part {k}", octets, spare_bits(octets, numbers, True))
        for k, (sub, octets, numbers) in enumerate(subs, 1):
            yield spare_row(SECTIONS[cat][name], name, f"#{k} {sub}" if parts else "", octets, spare_bits(octets, numbers, False))


def same_spares(cat, page):
    """The rows of the category's table on the page, below its head; the count of them."""
    found = page.partition(f"\n## Category {cat:03}, ")[2].partition("\n## ")[0]
    cells = [[cell.strip() for cell in line[1:-1].split("|")] for line in found.splitlines() if line.startswith("| ")][1:]
    wrong = [pair for pair in zip_longest(cells, spare_rows(cat)) if pair[0] != pair[1]]
    assert not wrong, (cat, wrong)
    return len(cells)


def pressed(n):
    """The input with BPS alone."""
    return h("15 04 80") + n.to_bytes(2, "big")


def said(n):
    """The lowest and the highest setting, in tenths of hPa, that the sheet of a number says."""
    lines = dict(line.split("=") for line in sheet(pressed(n)).splitlines())
    tenths = int(lines["BPS.tenths"])
    return {"atmost": (-inf, tenths), "atleast": (tenths, inf), "equal": (tenths, tenths)}[lines["BPS.sense"]]


def one_number_each():
    """From 800 hPa or less to 1209.5 hPa or more, each set begins right behind the one before: every setting is in exactly one."""
    sets = [said(n) for n in range(4096)]
    return sets[0] == (-inf, 8000) and sets[-1] == (12095, inf) and all(low == high + 1 for (_, high), (low, _) in zip(sets, sets[1:]))


def by_decimals(n):
    """The angle by the rounding that decimals have of their own, and the leftover by 02's sum."""
    udeg = int((Decimal(n) * 703125 / 32768).quantize(Decimal(1), ROUND_HALF_UP))
    return udeg, n * 703125 - udeg * 32768


# ---- the sheet read back

def cut_at(text, places):
    """Cut at each of these places, a sheet is refused at the line that is then not whole; how many there are."""
    for n in places:
        assert rebuild(text[:n], 0) == ("refused", 18, 1 + text[:n].count(b"\n")), text[:n]
    return len(places)


def back_again(given):
    """The sheet of an accepted input gives it again where there is room. With another length it is refused at line 2; cut right before or right behind a
    line feed, at the line that is then not whole. How many checks that is, the lengths not counted."""
    text, length = sheet(given).encode(), given[1]
    assert rebuild(text, length) == ("ok", given[0], given[1:]) and rebuild(text, length - 1) == ("refused", 11, 0), text
    for other in {2, length - 1, length + 1, 255} - {1, length}:
        assert rebuild(text.replace(b"\nlen=%d\n" % length, b"\nlen=%d\n" % other), 300) == ("refused", 18, 2), text
    feeds = [n for n, octet in enumerate(text) if octet == 10]
    return 2 + cut_at(text, feeds + [n + 1 for n in feeds[:-1]])


def tree_of(texts):
    """Sheets as a tree of their lines, the value of `len` set aside."""
    tree = {}
    for text in texts:
        at = tree
        for line in aside(split(text)[0]):
            at = at.setdefault(line, {})
    return tree


def shared(tree, text):
    """How many of its lines some sheet of the tree begins with."""
    lines = aside(split(text)[0])
    for k, line in enumerate(lines):
        if line not in tree:
            return k
        tree = tree[line]
    return len(lines)


def computed():
    """(text, room, answer) of each text that crates/guess computes from its definition."""
    rows = (slots.ROOT / "crates/guess/specs/Examples.antt").read_text(encoding="utf-8")
    found = re.findall(r'read = "(.*)"; room = (\d+); answer = (?:accepted \((\d+), (.*)\)|refused (\d+) (\d+)) }', rows)
    assert len(found) == rows.count("record {") > 0
    for text, room, cat, octets, number, line in found:
        answer = ("ok", int(cat), bytes(int(o, 16) for o in octets.split(" ∷ ")[:-1])) if cat else ("refused", int(number), int(line))
        yield text.replace("\\n", "\n").encode(), int(room), answer


def spoilt_sheets(count):
    """Answers to spoilt sheets by 02's sentence; and no sheet of the pool has all lines up to the refused one, but for 2, which may be for the length."""
    rng = random.Random(18)
    sheets = [sheet(given).encode() for given in inputs() if rng.randrange(2) and read(given[0], given[1:])[0] == "ok"]
    tree = tree_of(sheets)
    for text, room in rebuilds.spoilt_vectors(rng, count, sheets):
        got = checked(text, room)
        assert got[0] == "ok" or got[2] in (0, 2) or shared(tree, text) < got[2], (text, got)
    return count


def longest(cat):
    return 2 + sum(sum(o for o, _ in parts) + sum(o for _, o, _ in subs) for _, parts, subs in PAPERS[cat])


checks = 0
for cat, octets, expected in READS:
    got = read(cat, h(octets))
    if isinstance(expected, tuple):
        assert got == ("refused",) + expected, (octets, got)
    else:
        assert got[:2] == ("ok", len(h(octets))), (octets, got)
        assert {k: z for k, z in enumerate(got[2][3]) if z} == expected, (octets, got)
        assert write(got[2], 255) == ("ok", h(octets))
    checks += 1
for cat, field, listed, item, new, room, expected in [(48, BASE.hex(), *row[:3], 52, row[3]) for row in WORKED] + DESK:
    got = edit(cat, h(field), listed, item, None if new is None else h(new), room)
    refusal = (expected, 0) if isinstance(expected, int) else expected
    assert got == (("ok", h(expected)) if isinstance(expected, str) else ("refused", *refusal)), (field, item, new, got)
    checks += 1
for cat, field, withheld, room, expected in [(48, copies.BASE.hex(), *row) for row in copies.WORKED] + COPIES:
    got = copy(cat, h(field), withheld, room)
    refusal = (expected, 0) if isinstance(expected, int) else expected
    assert got == (("ok", h(expected)) if isinstance(expected, str) else ("refused", *refusal)), (field, withheld, got)
    checks += 1
for cat, items, parts, numbers, room, expected in WRITES:
    record = (cat, items, [parts.get(i, 0) for i in range(1, 9)], [numbers.get(slot, 0) for slot in range(SLOTS)])
    got = write(record, room)
    assert got == (("refused", expected, 0) if isinstance(expected, int) else ("ok", h(expected))), (record, got)
    checks += 1
for name, cat, field, *_ in requests():  # what is read is written again, as it stood before LEN
    got = read(cat, field)
    if name == b"read" and got[0] == "ok":
        assert write(got[2], got[1]) == ("ok", field[:got[1]]), field
        checks += 1
assert not slots.differs(), "python3 tests/slots.py write"
assert ways.differing() == [], "python3 tests/ways.py write"
assert not spares.differs(), "python3 tests/spares.py write"
for place, row in (("papers/specs/Specimens.antt", specimens.contents_row), ("scope/specs/Sheets.antt", specimens.sheet_row)):
    assert specimens.rows(row) in (slots.ROOT / "crates" / place).read_text(encoding="utf-8"), "python3 tests/specimens.py"
assert spares.asked() == ["if ind & layout::spare_of(cat) == 0 {", "if n & format.spare == 0 {"], "one comparison with a mask, and no other condition"
checks += sum(same_spares(cat, spares.PAGE.read_text(encoding="utf-8")) for cat in PAPERS)
assert ledger.wanting() == [], "two wrong programs for each public function, one for a function that only hands on"
assert set(MEASURES) <= {(cat, row.key) for cat in PAPERS for row in slots.rows(slots.paper(cat))}
checks += sum(same_paper(cat) for cat in PAPERS)
assert [longest(c) for c in (48, 21, 7)] == [52, 31, 38]
assert [sum(map(size, PAPERS[c])) for c in (48, 21, 7)] == [77, 74, 46]
assert view(48, BASE, 5) == ("ok", 3, 3, h("01 00 00"))
assert choose(48, BASE, h("03 20 04"), 3) == ("ok", 2, 2, 1, h("04"))
assert sheet(h("30 06 28 06 01 00 00")) == "cat=48\nlen=6\nitems=M4E,ERR\nM4E=3\nERR=65536\nend=ok\n"
assert [angle(n) for n in (1, 16384, -16384, 4194304)] == [(21, 14997), (351563, -16384), (-351563, 16384), (90000000, 0)]
for n in positions() + list(range(-(1 << 23), 1 << 23, 4093)):
    assert angle(n) == by_decimals(n) and abs(angle(n)[1]) <= 16384, n
    checks += 1
assert sheet(h("30 09 80 20 00 40 00 FF C0 00")) == (
    "cat=48\nlen=9\nitems=MD5\nMD5.POS.LAT=16384\nMD5.POS.LAT.udeg=351563\nMD5.POS.LAT.left=-16384\n"
    "MD5.POS.LON=-16384\nMD5.POS.LON.udeg=-351563\nMD5.POS.LON.left=16384\nend=ok\n")
for n, sense in ((0, "atmost"), (1, "equal"), (4094, "equal"), (4095, "atleast")):
    assert sheet(pressed(n)) == f"cat=21\nlen=4\nitems=BPS\nBPS={n}\nBPS.tenths={8000 + n}\nBPS.sense={sense}\nend=ok\n"
    checks += 1
assert one_number_each()
for text, room, expected in rebuilds.WORKED:
    got = rebuild(text, room)
    assert got == (("ok", expected[0], h(expected[1])) if isinstance(expected[1], str) else ("refused", *expected)), (text, got)
    checks += 1
examples = list(computed())
assert all(rebuild(text, room) == answer for text, room, answer in examples)
checks += len(examples)
rng = random.Random(6)
for cat in PAPERS:
    checks += sum(back_again(bytes([cat]) + field) for field in [full_field(cat, widest)] + [good_field(cat, rng) for _ in range(60)])
    whole = sheet(bytes([cat]) + full_field(cat, widest)).encode()
    checks += cut_at(whole, range(len(whole)))
    assert rebuild(whole.ljust(LONGEST_TEXT, b"\0"), 300) == ("refused", 18, 1 + whole.count(b"\n"))
    assert rebuild(whole.ljust(LONGEST_TEXT + 1, b"\0"), 300) == ("refused", 18, 0)
checks += spoilt_sheets(4000)
assert rebuild(b"\n" * LONGEST_TEXT, 300) == ("refused", 18, 1) and rebuild(b"\n" * (LONGEST_TEXT + 1), 300) == ("refused", 18, 0)
print(f"{checks + 18} passed, 0 failed")
