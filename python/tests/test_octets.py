"""The octet map, against tests/papers.py and tests/reference.py: every octet once, every bit with its number or
spare, of accepted and of refused fields."""
import random
import unittest

import reference
from drive import some_field
from papers import PAPERS
from ref.answers import line_data
from ref.octets import read_lines, rows
from ref.why import reading

from tests.given import WithDesk

SEEDED = 1500


def lines_in(cat, field):
    """(item, part or subfield, octets, numbers, whether it is a part) of each line that a field has, by the papers;
    the field is accepted."""
    _, _, (_, indicator, counts, numbers) = reference.read(cat, field)
    at = 0
    for i, item in enumerate(PAPERS[cat]):
        name, parts, subs = item
        own, at = numbers[at : at + reference.size(item)], at + reference.size(item)
        if not indicator >> 7 - i & 1:
            continue
        for k, (octets, defined) in enumerate(parts[: counts[i]]):
            yield name, f"part {k + 1}", octets, defined, True
        for k, (sub, octets, defined) in enumerate(subs):
            if not parts or own[k] == 1:
                yield name, sub, octets, defined, False


def lines_before(cat, field, place):
    """(item, part or subfield) of each line that begins before a place or there, by the papers: as the octets announce them."""
    at = 2
    for name, parts, subs in (item for i, item in enumerate(PAPERS[cat]) if field[1] >> 7 - i & 1):
        flags, more = [], bool(parts)
        for k, (octets, defined) in enumerate(parts):
            if more and at <= place:
                yield name, f"part {k + 1}"
                whole = int.from_bytes(field[at : at + octets], "big")
                flags += [reference.value_of(number, whole) for number in defined]
                more, at = whole & 1, at + octets
        for k, (sub, octets, _) in enumerate(subs):
            if at <= place and (not parts or flags[k : k + 1] == [1]):
                yield name, sub
                at += octets


def bit_kinds(octets, defined, chain):
    """Of each bit of a line, the highest first: the number that it is of, None for spare, 'FX'."""
    kinds = {bit: name for name, hi, lo, _ in defined for bit in range(lo, hi + 1)}
    return ["FX" if chain and bit == 1 else kinds.get(bit) for bit in range(8 * octets, 0, -1)]


class Maps(WithDesk):
    def fields(self):
        """With the record or the refusal of each."""
        rng = random.Random(48)
        for cat in rng.choices(list(PAPERS), k=SEEDED):
            field = some_field(rng, cat)
            yield cat, field, *reading(self.desk, cat, field)

    def every_octet_once(self, field, found):
        """In order, as hex and as bits; the bits of an octet are told apart by its rows."""
        there = [(row.at, row.octet) for row in found if row.octet not in ("", "--")]
        self.assertEqual(there, [(at, f"{octet:02X}") for at, octet in enumerate(field)])
        for at, octet in enumerate(field):
            shown = [row.shown for row in found if row.at == at]
            told = ["".join(bits[k] for bits in shown if bits and bits[k] != ".") for k in range(8)]
            self.assertEqual(told, list(f"{octet:08b}"), shown)

    def test_every_octet(self):
        for cat, field, record, refused in self.fields():
            self.every_octet_once(field, rows(cat, field, record, refused))

    def test_accepted(self):
        """Each line where the papers have it, its bits with the numbers that they are of, and each number with its
        key as on the sheet."""
        for cat, field, record, refused in self.fields():
            if refused:
                continue
            got = [line_data(placed, record) for placed in read_lines(cat, field, None)]
            wanted, at = list(lines_in(cat, field)), 2
            self.assertEqual([(line["item"], line["line"]) for line in got], [row[:2] for row in wanted])
            for line, (_, _, octets, defined, chain) in zip(got, wanted):
                self.assertEqual((line["at"], line["octets"]), (at, field[at : at + octets].hex().upper()))
                self.line(line, octets, defined, chain)
                at += octets
            self.assertEqual(at, field[0])
            told = {run["key"]: run["number"] for line in got for run in line["runs"] if run["kind"] == "number"}
            self.assertEqual(told, {key: int(number) for key, number in record.items()})

    def line(self, line, octets, defined, chain):
        """Its runs, and that the number which each is by its bits is the one that is told."""
        whole = int(line["octets"], 16)
        self.assertEqual("".join(run["bits"] for run in line["runs"]), f"{whole:0{8 * octets}b}")
        kinds = [run["kind"] for run in line["runs"] for _ in run["bits"]]
        wanted = bit_kinds(octets, defined, chain)
        self.assertEqual([kind == "spare" for kind in kinds], [kind is None for kind in wanted])
        self.assertEqual([kind == "fx" for kind in kinds], [kind == "FX" for kind in wanted])
        numbers = [run["number"] for run in line["runs"] if run["kind"] == "number"]
        if numbers:
            self.assertEqual(numbers, [reference.value_of(number, whole) for number in defined])

    def test_refused(self):
        """The lines before the place are those of the papers, and the last one stands at the place where 5, 6, 7 or 8
        are given."""
        for cat, field, _, refused in self.fields():
            if refused is None:
                continue
            got = read_lines(cat, field, refused)
            if refused.number < 5:
                self.assertEqual(got, [])
                continue
            names = [(placed.item.name, placed.line.name) for placed in got]
            place = refused.place - (refused.number == 9)
            self.assertEqual(names, list(lines_before(cat, field, place)))
            self.assertEqual(
                [placed.at for placed in got], [2, *(one.at + one.line.octets for one in got)][:-1] if got else []
            )
            if refused.number == 9:
                self.assertEqual(got[-1].at + got[-1].line.octets if got else 2, refused.place)
            else:
                self.assertEqual((got[-1].at, got[-1].whole), (refused.place, refused.number != 5))

    def test_by_hand(self):
        """01's edge `05 40 01 80 1F`: two parts, and FOM in bits 5/1 of its subfield."""
        field = bytes.fromhex("054001801F")
        found = rows(48, field, *reading(self.desk, 48, field))
        told = [(row.at, row.shown, row.name, row.bits, row.text) for row in found]
        self.assertEqual(
            told[:3],
            [
                (0, "00000101", "LEN", "", "5 octets"),
                (1, "01000...", "indicator", "bits 8/4", "M5N"),
                (1, ".....000", "", "bits 3/1", "spare"),
            ],
        )
        self.assertEqual(told[3], (2, "0.......", "M5N part 1", "bit 8 (16)", "M5N.SUM is absent"))
        self.assertEqual(told[10], (2, ".......1", "", "bit 1 (9)", "FX = 1, another part follows"))
        self.assertEqual(
            told[11:],
            [
                (3, "1.......", "M5N part 2", "bit 8", "M5N.FOM is there"),
                (3, ".000000.", "", "bits 7/2", "spare"),
                (3, ".......0", "", "bit 1", "FX = 0, the last part"),
                (4, "000.....", "M5N FOM", "bits 8/6", "spare"),
                (4, "...11111", "", "bits 5/1", "M5N.FOM = 31"),
            ],
        )

    def test_refused_by_hand(self):
        for cat, octets, row in (
            (48, "04400180", (4, "--", "", "M5N FOM", "1 octet should stand here before LEN", "wrong")),
            (48, "032007", (2, "", ".......1", "", "FX = 1, no other part is defined", "wrong")),
            (48, "03200F", (2, "0F", "00001...", "M4E part 1", "spare, must be 0", "wrong")),
            (48, "060801000000", (5, "00", "00000000", "", "left over", "wrong")),
            (48, "0280AA", (2, "--", "", "MD5 part 1", "1 octet should stand here before LEN", "wrong")),
            (48, "0280AA", (2, "AA", "10101010", "", "behind LEN, not looked at", "behind")),
            (49, "0200", (0, "02", "00000010", "LEN", "2 octets", "head")),
            (49, "0200", (1, "00", "00000000", "", "not read", "unread")),
            (48, "03200F", (2, "", ".....11.", "", "M4E = 3", "number")),
            (48, "032007", (2, "", ".....11.", "", "M4E = 3", "number")),
            (48, "0780400003AAFF", (3, "00", "00......", "MD5 PMN", "spare", "spare")),
            (48, "0780400003AAFF", (6, "FF", "11......", "", "spare, must be 0", "wrong")),
            (48, "0580103FD7", (3, "", "..111111", "", "MD5.GA.GA = -41, -1025 ft", "wrong")),
            (48, "0580103FD7", (3, "", ".0......", "", "MD5.GA.RES = 0", "number")),
            (48, "05", (0, "05", "00000101", "LEN", "5 octets", "wrong")),
            (48, "0100", (0, "01", "00000001", "LEN", "1 octet", "wrong")),
            (48, "030100", (1, "", ".....001", "", "spare, must be 0", "wrong")),
        ):
            field = bytes.fromhex(octets)
            found = rows(cat, field, *reading(self.desk, cat, field))
            self.assertIn(row, [(r.at, r.octet, r.shown, r.name, r.text, r.kind) for r in found])

    def test_empty(self):
        self.assertEqual(rows(48, b"", *reading(self.desk, 48, b"")), [])


if __name__ == "__main__":
    unittest.main()
