"""The requests of a Desk, by the built program: worked ones by hand from 01 and 02, seeded ones against
tests/reference.py."""
import doctest
import random
import unittest
from fractions import Fraction

import paltinoma
import reference
from drive import damaged, some_field
from fields import good_field, good_item
from paltinoma import CATEGORIES, LONGEST, Field, Record, Refused, UnknownName, View, slot
from papers import PAPERS

from tests.given import BASE, WithDesk

SEEDED = 3000


def load_tests(loader, tests, pattern):
    tests.addTests(doctest.DocTestSuite(paltinoma))
    return tests


def outcome(method, *args):
    """What tests/reference.py has for the same: ('ok', ..) or ('refused', number, place), and of `choose` the field
    behind it."""
    try:
        got = method(*args)
    except Refused as refused:
        which = (paltinoma.WHICH.index(refused.which),) if method.__name__ == "choose" else ()
        return ("refused", refused.number, refused.place, *which)
    if isinstance(got, View):
        return ("ok", got.start, len(got.octets), got.octets)
    if isinstance(got, paltinoma.Choice):
        return ("ok", paltinoma.WHICH.index(got.which), got.start, len(got.octets), got.octets)
    return ("ok", *got) if isinstance(got, Field) else ("ok", got)


class Refusing(WithDesk):
    def refused(self, number, place, method, *args):
        with self.assertRaises(Refused) as caught:
            method(*args)
        self.assertEqual((caught.exception.number, caught.exception.place), (number, place))
        return caught.exception


class Worked(Refusing):
    """By hand: 01's octets and edits, the pages of 02."""

    def test_read(self):
        record = self.desk.read(48, BASE)
        self.assertEqual((record.cat, record.indicator, record.present), (48, 0x28, ("M4E", "ERR")))
        self.assertEqual([(key, int(n)) for key, n in record.items()], [("M4E", 3), ("ERR", 65536)])
        self.assertEqual(
            (record["ERR"], record["ERR"].value, record["ERR"].unit, record["ERR"].text), (65536, 256, "NM", "256 NM")
        )
        self.assertEqual((record.chain("M4E"), record.chain("ERR"), record.chain("M5N")), (1, 0, 0))
        self.assertEqual(repr(record), "Record(48, M4E, ERR: {'M4E': 3, 'ERR': 65536})")

    def test_absent_is_no_zero(self):
        record = self.desk.read(48, BASE)
        self.assertNotIn("MD5.TOS", record)
        with self.assertRaises(KeyError):
            record["MD5.TOS"]

    def test_edges(self):
        """01, 'Octets tried at each edge'."""
        for octets, keys in (
            ("0200", {}),
            ("032006", {"M4E": 3}),
            ("04400100", {}),
            ("054001801F", {"M5N.FOM": 31}),
            ("0580103FD8", {"MD5.GA.RES": 0, "MD5.GA.GA": -40}),
            ("048004FF", {"MD5.TOS": -1}),
            ("098020400000800000", {"MD5.POS.LAT": 4194304, "MD5.POS.LON": -8388608}),
        ):
            self.assertEqual({key: int(n) for key, n in self.desk.read(48, bytes.fromhex(octets)).items()}, keys)
        for octets, number, place in (
            ("0280", 5, 2),
            ("03200F", 6, 2),
            ("032007", 7, 2),
            ("04400101", 7, 3),
            ("04400180", 5, 4),
            ("0540018020", 6, 4),
            ("0580103FD7", 8, 3),
            ("098020400001800000", 8, 3),
            ("060801000000", 9, 5),
            ("030100", 4, 1),
        ):
            self.refused(number, place, self.desk.read, 48, bytes.fromhex(octets))
        self.assertEqual(self.desk.read(48, bytes.fromhex("04400100")).chain("M5N"), 2)
        self.assertEqual(self.desk.read(21, bytes.fromhex("030100")).present, ("MES",))

    def test_write(self):
        record = self.desk.read(48, BASE)
        self.assertEqual(self.desk.write(record), BASE)
        self.assertEqual(self.desk.write(record.changed({"ERR": 131072})), bytes.fromhex("062806020000"))
        self.refused(10, 0, self.desk.write, record.changed({"M4E": 4}))
        self.refused(11, 0, self.desk.write, record, 5)

    def test_write_afresh(self):
        """By key alone: the item, its parts and its flags follow."""
        rows = [
            (48, {"M4E": 3, "ERR": 65536}, {}, "062806010000"),
            (48, {"M5N.FOM": 31}, {}, "054001801F"),
            (48, {}, {"M5N": 2}, "04400100"),
            (48, {"MD5.GA.GA": -40}, {}, "0580103FD8"),
            (21, {"BPS": 4095}, {}, "04800FFF"),
            (21, {"SGV.HGT": 127}, {}, "05080001FE"),
            (21, {"STA.TAO#VAL": 31}, {}, "080401010101017C"),
            (21, {}, {"MES": 1}, "030100"),
            (7, {"TA.TAmax": -1, "TA.TAmin": 25}, {}, "06803FFF0019"),
        ]
        for cat, numbers, parts, octets in rows:
            self.assertEqual(
                self.desk.write(Record(cat).changed(numbers, parts)), bytes.fromhex(octets), (numbers, parts)
            )

    def test_sheet_and_back(self):
        text = "cat=48\nlen=6\nitems=M4E,ERR\nM4E=3\nERR=65536\nend=ok\n"
        self.assertEqual(self.desk.sheet(48, BASE), text)
        self.assertEqual(self.desk.rebuild(text), (48, BASE))
        self.refused(18, 4, self.desk.rebuild, text.replace("M4E=3", "M4E=4"))
        self.refused(18, 2, self.desk.rebuild, text.replace("len=6", "len=7"))
        self.refused(11, 0, self.desk.rebuild, text, 5)

    def test_view_and_choose(self):
        self.assertEqual(self.desk.view(48, BASE, "ERR"), (3, b"\1\0\0"))
        self.assertEqual(self.desk.choose(48, BASE, bytes.fromhex("032004"), "M4E"), ("correction", 2, b"\4"))
        self.assertEqual(self.desk.choose(48, BASE, bytes.fromhex("032004"), "ERR"), ("base", 3, b"\1\0\0"))
        self.refused(15, 0, self.desk.view, 48, BASE, "MD5")
        refused = self.refused(6, 2, self.desk.choose, 48, BASE, bytes.fromhex("03200F"), "M4E")
        self.assertEqual(
            (refused.which, str(refused)),
            ("correction", "refused by 6 at octet 2 of the correction: spare bit set in a chain part or subfield"),
        )

    def test_edits(self):
        every = slot("MD5", "M5N", "M4E", "RPC", "ERR")
        self.assertEqual(self.desk.replace(48, BASE, every, "ERR", b"\2\0\0"), bytes.fromhex("062806020000"))
        self.assertEqual(self.desk.remove(48, BASE, every, "M4E"), bytes.fromhex("0508010000"))
        self.assertEqual(self.desk.replace(48, BASE, every, "RPC", b"\x80\7"), bytes.fromhex("0838068007010000"))
        refused = self.refused(13, 0, self.desk.replace, 48, BASE, slot("M4E", "RPC"), "ERR", b"\2\0\0")
        self.assertEqual(str(refused), "refused by 13: item is not on the slot's list")
        self.assertIn("book one that was", refused.advice)
        self.refused(14, 0, self.desk.replace, 48, BASE, every, "ERR", b"\2\0")

    def test_copy(self):
        self.assertEqual(
            self.desk.copy(48, bytes.fromhex("0838068007010000"), slot("M4E", "ERR")), bytes.fromhex("04108007")
        )
        self.assertEqual(self.desk.copy(48, BASE, slot()), BASE)

    def test_unknown_category(self):
        """The program refuses it by 1, whatever item or list is named."""
        for method, *args in (
            (self.desk.read, BASE),
            (self.desk.sheet, BASE),
            (self.desk.view, BASE, "ERR"),
            (self.desk.choose, BASE, BASE, "ERR"),
            (self.desk.remove, BASE, slot("ERR"), "ERR"),
            (self.desk.replace, BASE, slot("ERR"), "ERR", b"\2\0\0"),
            (self.desk.copy, BASE, slot("ERR")),
        ):
            for cat in (49, 0, 255, 256, -1, 10**9):
                self.refused(1, 0, method, cat, *args)
        self.refused(1, 0, self.desk.write, Record(256))
        self.refused(1, 0, self.desk.write, Record(49, 256))

    def test_records_that_no_field_reads_to(self):
        """Whatever their numbers are: by 10, behind 1 and before 11."""
        for record in (
            Record(48, 256),
            Record(48, -1),
            Record(48).changed({"ERR": 1 << 31}),
            Record(48).changed({"ERR": -(1 << 31)}),
            Record(48).changed({"ERR": 10**20}),
            Record(48).changed({}, {"M5N": 256}),
            Record(48).changed({"M5N.FOM": 31}, {"M5N": 1}),
        ):
            self.refused(10, 0, self.desk.write, record, 0)

    def test_any_length(self):
        """No octet string is a fault: what lies behind the first 255, or 4,096, can't matter."""
        self.assertEqual(self.desk.read(48, BASE + bytes(100000)).present, ("M4E", "ERR"))
        self.assertEqual(self.desk.choose(48, BASE + bytes(9000), BASE + bytes(9000), "ERR").which, "correction")
        self.refused(14, 0, self.desk.replace, 48, BASE, slot("ERR"), "ERR", bytes(100000))
        self.refused(18, 7, self.desk.rebuild, self.desk.sheet(48, BASE) + "x" * 20000)
        self.refused(18, 1, self.desk.rebuild, "x" * 32768)
        self.refused(18, 0, self.desk.rebuild, "x" * 32769)
        self.refused(18, 1, self.desk.rebuild, "\ud800")
        self.assertEqual(self.desk.copy(48, BASE, slot(), 10**12), BASE)


class Names(WithDesk):
    def test_unknown_names(self):
        for call in (
            lambda: slot("RPC", "RCP"),
            lambda: self.desk.view(48, BASE, "BPS"),
            lambda: self.desk.view(49, BASE, "ERRR"),
            lambda: self.desk.copy(48, BASE, slot("MES")),
            lambda: self.desk.copy(48, BASE, "MD5"),
            lambda: Record(48).changed({"M4E.X": 1}),
            lambda: Record(48).changed({}, {"BPS": 1}),
            lambda: Record(49).changed({"M4E": 1}),
            lambda: Record(0).chain("M4E"),
        ):
            self.assertRaises(UnknownName, call)
        with self.assertRaisesRegex(UnknownName, "category 048 has no item 'BPS'; it has MD5, M5N, M4E, RPC, ERR"):
            self.desk.view(48, BASE, "BPS")

    def test_mistakes_of_the_caller(self):
        for call in (
            lambda: self.desk.copy(48, BASE, slot(), -1),
            lambda: Record(48, 0, (0,) * 7),
            lambda: Record(48, 0, (0,) * 8, (0,) * 78),
        ):
            self.assertRaises(ValueError, call)
        self.assertRaises(TypeError, self.desk.read, "48", BASE)
        self.assertRaises(TypeError, self.desk.read, 48.7, BASE)
        self.assertRaises(TypeError, self.desk.write, Record(21).changed({"BPS": Fraction(10132, 10)}))
        self.assertRaises(TypeError, self.desk.write, Record(48).changed({"ERR": 1.9}))
        self.assertRaises(TypeError, self.desk.copy, 48, BASE, slot(), 52.5)
        self.assertRaises(TypeError, self.desk.read, 48, 6)
        self.assertRaises(TypeError, self.desk.read, 48, "0200")
        self.assertEqual(self.desk.read(48, BASE)["M4E"], 3)  # and the desk goes on

    def test_other_octets(self):
        self.assertEqual(self.desk.read(48, memoryview(b"x" + BASE)[1:]).present, ("M4E", "ERR"))
        self.assertEqual(self.desk.read(48, bytearray(BASE)).present, ("M4E", "ERR"))


def names(rng, cat):
    return slot(*(item.name for item in CATEGORIES[cat].items if rng.randrange(2)))


def octet(cat, listed):
    return sum(0x80 >> k for k, (name, _, _) in enumerate(PAPERS[cat]) if name in listed)


class Seeded(WithDesk):
    """Fields that are right, damaged, or bad by hand; every method against tests/reference.py."""

    def fields(self, count):
        rng = random.Random(22)
        for cat in rng.choices(list(PAPERS), k=count):
            yield rng, cat, some_field(rng, cat)

    def test_reading(self):
        for _, cat, field in self.fields(SEEDED):
            wanted = reference.read(cat, field)
            got = outcome(self.desk.read, cat, field)
            if wanted[0] == "ok":
                _, _, (_, items, parts, numbers) = wanted
                self.assertEqual(got, ("ok", Record(cat, items, tuple(parts), tuple(numbers))))
                self.assertEqual(self.desk.write(got[1]), field[: field[0]])
                self.keys(got[1], reference.sheet(bytes([cat]) + field))
            else:
                self.assertEqual(got, wanted)

    def keys(self, record, sheet):
        """The record's keys and numbers are those of the sheet, whose derived lines and chains left out; and from
        these it is made afresh."""
        lines = [line.split("=") for line in sheet.splitlines()[3:-1]]
        told = {
            key: int(value)
            for key, value in lines
            if not key.endswith((".udeg", ".left", ".tenths", ".sense", ".chain"))
        }
        self.assertEqual([(key, int(n)) for key, n in record.items()], list(told.items()))
        parts = {name: record.chain(name) for name in record.present}
        self.assertEqual(Record(record.cat).changed(told, parts), record)

    def test_sheets(self):
        for _, cat, field in self.fields(SEEDED):
            wanted = reference.read(cat, field)
            text = reference.sheet(bytes([cat]) + field)
            self.assertEqual(outcome(self.desk.sheet, cat, field), ("ok", text) if wanted[0] == "ok" else wanted)
            self.assertEqual(outcome(self.desk.rebuild, text), reference.rebuild(text.encode(), LONGEST))

    def test_views(self):
        for rng, cat, field in self.fields(SEEDED):
            number, other = rng.randrange(len(PAPERS[cat])) + 1, good_field(cat, rng)
            name = PAPERS[cat][number - 1][0]
            self.assertEqual(outcome(self.desk.view, cat, field, name), reference.view(cat, field, number))
            self.assertEqual(
                outcome(self.desk.choose, cat, other, field, name), reference.choose(cat, other, field, number)
            )
            self.assertEqual(
                outcome(self.desk.choose, cat, field, other, name), reference.choose(cat, field, other, number)
            )

    def test_edits(self):
        for rng, cat, field in self.fields(SEEDED):
            number, listed, room = (
                rng.randrange(len(PAPERS[cat])) + 1,
                names(rng, cat),
                rng.choice([LONGEST, rng.randrange(60)]),
            )
            name, new = PAPERS[cat][number - 1][0], good_item(PAPERS[cat][number - 1], rng)
            new = damaged(rng, new) if rng.randrange(3) == 0 else new
            self.assertEqual(
                outcome(self.desk.replace, cat, field, listed, name, new, room),
                reference.edit(cat, field, octet(cat, listed), number, new, room),
            )
            self.assertEqual(
                outcome(self.desk.remove, cat, field, listed, name, room),
                reference.edit(cat, field, octet(cat, listed), number, None, room),
            )
            self.assertEqual(
                outcome(self.desk.copy, cat, field, listed, room), reference.copy(cat, field, octet(cat, listed), room)
            )


if __name__ == "__main__":
    unittest.main()
