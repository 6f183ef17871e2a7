"""paltinoma.json, as the module has it, against the second transcription of the papers, tests/papers.py."""
import pickle
import unittest
from fractions import Fraction

from paltinoma import CATEGORIES, REFUSALS, Number
from papers import INDICATORS, MEASURES, PAPERS, SECTIONS
from reference import keys, spare_bits

KINDS = {(False, None): "u", (True, None): "s", (True, (-4194304, 4194304)): "lat", (True, (-40, 8191)): "ga"}
CODES = {"SelH.SelH", "GAO.Lateral"}  # an LSB is printed, but no measure of the number follows from it
OCTAL = (
    "EM1.EM1",
    "M2.M2",
)  # 2.3 and 2.4 of 000 and 2.4 of 004, subfield #5; 2.10 of 003, #3 and #6: "in octal representation"


def bits_of(runs):
    return sum(1 << bit - 1 for run in runs for bit in range(run.lo, run.hi + 1))


def every_line():
    return [(cat, item, line) for cat, category in CATEGORIES.items() for item in category.items for line in item.lines]


class Layouts(unittest.TestCase):
    def line(self, line, octets, defined, chain):
        """Its octets, the bits and kinds of its numbers, its spare bits."""
        numbers = [run for run in line.runs if run.slot is not None]
        self.assertEqual((line.octets, line.chain), (octets, chain))
        self.assertEqual(
            [(run.hi, run.lo, KINDS[run.signed, run.limits]) for run in numbers],
            [tuple(number[1:]) for number in defined],
        )
        self.assertEqual(bits_of(run for run in line.runs if run.slot is None), spare_bits(octets, defined, chain))

    def test_lines(self):
        for cat, items in PAPERS.items():
            self.assertEqual([item.name for item in CATEGORIES[cat].items], [name for name, _, _ in items])
            for item, (name, parts, subs) in zip(CATEGORIES[cat].items, items):
                self.assertEqual((item.section, len(item.lines)), (SECTIONS[cat][name], len(parts) + len(subs)))
                for line, (octets, defined) in zip(item.lines, parts):
                    self.line(line, octets, defined, True)
                for line, (sub, octets, defined) in zip(item.lines[len(parts) :], subs):
                    self.assertEqual(line.name, sub)
                    self.line(line, octets, defined, False)

    def test_indicators(self):
        for cat, flags in INDICATORS.items():
            items = CATEGORIES[cat].items
            self.assertEqual(
                [(item.name, item.bit) for item in items], [(name, 1 << hi - 1) for name, hi, _, _ in flags]
            )
            self.assertEqual(bits_of(CATEGORIES[cat].spare), spare_bits(1, flags, False))

    def test_keys_and_slots(self):
        for cat, items in PAPERS.items():
            runs = [
                run
                for item in CATEGORIES[cat].items
                for line in item.lines
                for run in line.runs
                if run.slot is not None
            ]
            self.assertEqual([run.slot for run in runs], list(range(len(runs))))
            self.assertEqual(
                [None if run.flag else run.key for run in runs], [key for item in items for key in keys(item)]
            )

    def test_flags(self):
        """Each subfield of an item with a chain has the flag in its turn; no other line has one."""
        for category in CATEGORIES.values():
            for item in category.items:
                flags = [(k, run) for k, part in enumerate(item.parts, 1) for run in part.runs if run.flag]
                subfields = [line for line in item.lines if not line.chain] if item.parts else []
                self.assertEqual([item.flag(line) for line in subfields], flags)
                self.assertTrue(all(item.flag(line) is None for line in item.lines if line not in subfields))

    def test_longest(self):
        self.assertEqual({cat: category.longest for cat, category in CATEGORIES.items()}, {48: 52, 21: 31, 7: 38})

    def test_units(self):
        """What one number more is in its unit, and what 0 is."""
        for cat, category in CATEGORIES.items():
            for run in (
                run for item in category.items for line in item.lines for run in line.runs if run.key and not run.flag
            ):
                times, over, unit, start = MEASURES.get((cat, run.key), (0, 1, "", 0))
                if times and run.key not in CODES:
                    self.assertEqual(Number(3, run).value, start + 3 * Fraction(times, over), run.key)
                    self.assertEqual(Number(3, run).unit, unit)
                else:
                    words = "octal 0003" if run.key.endswith(OCTAL) else "3"
                    self.assertEqual(
                        (Number(3, run).value, Number(3, run).unit, Number(3, run).text), (None, "", words)
                    )

    def test_numbered_on(self):
        """000 and 004, 2.4: the first octet of M5N's primary subfield is bits 16/9, and no other part is numbered so."""
        above = [(cat, item.name, line.name, line.below) for cat, item, line in every_line() if line.below]
        self.assertEqual(above, [(48, "M5N", "part 1", 8), (7, "M5N", "part 1", 8)])

    def test_values_in_words(self):
        """By hand, from the LSBs of the papers: 1/256 NM, 180/2^23 degrees, 25 ft, 0.1 hPa from 800, 1/128 s."""
        rows = [
            (48, "ERR", 65536, "256 NM"),
            (48, "ERR", 1, "0.00390625 NM"),
            (48, "MD5.POS.LAT", -4194304, "-90 degrees"),
            (48, "MD5.POS.LAT", 1, "about 0.000021 degrees"),
            (48, "MD5.POS.LON", -16384, "-0.3515625 degrees"),
            (48, "MD5.POS.LON", -8388607, "about -179.999979 degrees"),
            (48, "MD5.GA.GA", -40, "-1000 ft"),
            (48, "MD5.TOS", -1, "-0.0078125 s"),
            (21, "BPS", 0, "800 hPa or less"),
            (21, "BPS", 1, "800.1 hPa"),
            (21, "BPS", 4094, "1209.4 hPa"),
            (21, "BPS", 4095, "1209.5 hPa or more"),
            (48, "M4E", 3, "3"),
            (21, "MES.M2.M2", 640, "octal 1200"),
            (48, "MD5.EM1.EM1", 4095, "octal 7777"),
            (7, "TA.TAmin", -8192, "-204800 ft"),
        ]
        for cat, key, number, words in rows:
            self.assertEqual(Number(number, CATEGORIES[cat].number_at(key)[2]).text, words)

    def test_numbers_are_integers(self):
        """With all that belongs to one: a flag that is 0 is false, and a number is written into a record as it is."""
        number = Number(0, CATEGORIES[21].number_at("NAV.AP")[2])
        self.assertFalse(number)
        self.assertEqual((number, number + 1, f"{number:>3}", hash(number)), (0, 1, "  0", hash(0)))
        again = pickle.loads(pickle.dumps(number))
        self.assertEqual((again, again.key), (0, "NAV.AP"))

    def test_refusals(self):
        """01 has 1 to 15, and 02's Ask 6 has 18."""
        self.assertEqual(sorted(REFUSALS), [*range(1, 16), 18])
        self.assertEqual(REFUSALS[13].words, "item is not on the slot's list")


if __name__ == "__main__":
    unittest.main()
