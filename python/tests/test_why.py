"""`ref why`: what it says of each refusal, by hand from 01 and the papers; and of seeded refusals, that what it says
is so by tests/reference.py."""
import random
import re
import unittest

import reference
from drive import some_field
from paltinoma import Refused, slot
from papers import PAPERS
from ref.why import refusal, why, why_new

from tests.given import WithDesk

SEEDED = 2500


class Explained(WithDesk):
    def why(self, cat, octets):
        field = bytes.fromhex(octets)
        refused = refusal(self.desk, cat, field)
        self.assertIsNotNone(refused)
        return why(self.desk, cat, field, refused)


class ByHand(Explained):
    """Of each number: what stands there, what may stand there, what is said, the field that is mended."""

    ROWS = [
        (
            (49, "0200"),
            ("", ""),
            [
                "The categories are 48, 21, 7.",
                "As category 48 it is accepted.",
                "As category 21 it is accepted.",
                "As category 7 it is accepted.",
            ],
            None,
        ),
        ((48, ""), ("", ""), ["There are no octets; a field has LEN and the items indicator at least."], None),
        ((48, "05"), ("", ""), ["LEN is 5, and there is 1 octet: 4 octets more should follow."], None),
        (
            (48, "072806010000"),
            ("", ""),
            ["LEN is 7, and there are 6 octets: 1 octet more should follow.", "With 06 at octet 0 it is accepted."],
            "062806010000",
        ),
        (
            (48, "012006"),
            ("", ""),
            ["LEN counts itself and the items indicator, so it is 2 or more.", "With 03 at octet 0 it is accepted."],
            "032006",
        ),
        (
            (48, "030100"),
            ("00000001", "xxxxx000"),
            [
                "Bit 1 is spare and must be 0.",
                "With 00 at octet 1 it is refused by 9 at octet 2, octets left between the last item and LEN.",
                "As category 21 it is accepted.",
            ],
            "030000",
        ),
        ((48, "0280"), ("", "xxxxxxx0"), ["It has 1 octet, and LEN, which is 2, leaves none."], None),
        (
            (48, "04080200"),
            ("00000010 00000000", "xxxxxxxx xxxxxxxx xxxxxxxx"),
            ["It has 3 octets, and LEN, which is 4, leaves 2 octets.", "As category 21 it is accepted."],
            None,
        ),
        (
            (48, "052806010000"),
            ("00000001 00000000", "xxxxxxxx xxxxxxxx xxxxxxxx"),
            ["It has 3 octets, and LEN, which is 5, leaves 2 octets.", "With 06 at octet 0 it is accepted."],
            "062806010000",
        ),
        (
            (48, "03200E"),
            ("00001110", "00000xx0"),
            ["Bit 4 is spare and must be 0.", "With 06 at octet 2 it is accepted."],
            "032006",
        ),
        (
            (48, "03200F"),
            ("00001111", "00000xx0"),
            [
                "Bit 4 is spare and must be 0.",
                "Bit 1 is FX: 1 says that another part follows, and the edition defines 1 part.",
                "With 06 at octet 2 it is accepted.",
            ],
            "032006",
        ),
        (
            (48, "0540018020"),
            ("00100000", "000xxxxx"),
            ["Bit 6 is spare and must be 0.", "With 00 at octet 4 it is accepted."],
            "0540018000",
        ),
        (
            (48, "0780400003AAFF"),
            ("00000000 00000011 10101010 11111111", "00xxxxxx xxxxxxxx 00xxxxxx 00xxxxxx"),
            ["Bits 16, 8, 7 are spare and must be 0.", "With 2A 3F at octet 5 it is accepted."],
            "07804000032A3F",
        ),
        (
            (48, "04400101"),
            ("00000001", "x0000000"),
            [
                "Bit 1 is FX: 1 says that another part follows, and the edition defines 2 parts.",
                "With 00 at octet 3 it is accepted.",
                "As category 21 it is accepted.",
            ],
            "04400100",
        ),
        (
            (48, "0580103FD7"),
            ("00111111 11010111", ""),
            ["MD5.GA.GA is -41, -1025 ft; it may be from -40 to 8191, -1000 ft to 204775 ft."],
            None,
        ),
        (
            (48, "098020400001800000"),
            ("01000000 00000000 00000001 10000000 00000000 00000000", ""),
            [
                "MD5.POS.LAT is 4194305, about 90.000021 degrees; "
                "it may be from -4194304 to 4194304, -90 degrees to 90 degrees."
            ],
            None,
        ),
        (
            (48, "060801000000"),
            ("", ""),
            [
                "The indicator has ERR; what it has ends before octet 5, and LEN is 6: 1 octet is left over.",
                "With 05 at octet 0 it is accepted.",
            ],
            "050801000000",
        ),
        (
            (48, "0400FFFF"),
            ("", ""),
            [
                "The indicator has no items; what it has ends before octet 2, and LEN is 4: 2 octets are left over.",
                "With 02 at octet 0 it is accepted.",
            ],
            "0200FFFF",
        ),
    ]

    def test_rows(self):
        for asked, bits, facts, mended in self.ROWS:
            told = self.why(*asked)
            self.assertEqual(((told.bits, told.right), told.facts), (bits, facts), asked)
            self.assertEqual(told.mended, bytes.fromhex(mended) if mended else None, asked)

    def test_subjects(self):
        for cat, octets, subject in (
            (48, "05", "Octet 0 is LEN, the length of the whole field."),
            (48, "030100", "Octet 1 is the items indicator (document 000, 2.2)."),
            (48, "03200F", "At octet 2 stands M4E part 1 (document 000, 2.5: Extended Mode 4 Report)."),
            (7, "03200F", "At octet 2 stands M4E part 1 (document 004, 2.5: Extended Mode 4)."),
            (48, "04400180", "At octet 4 should stand M5N FOM (document 000, 2.4: Mode 5 Reports, New Format)."),
            (48, "04080200", "At octet 2 should stand ERR (document 000, 2.7: Extended Range Report)."),
        ):
            self.assertEqual(self.why(cat, octets).subject, [subject])

    def test_marks(self):
        self.assertEqual(list(self.why(48, "03200F").marked()), ["   0  03 20 0F", "            ^^"])
        self.assertEqual(list(self.why(48, "04400180").marked()), ["   0  04 40 01 80 --", "                  ^^"])
        self.assertEqual(list(self.why(48, "").marked()), ["   0  --", "      ^^"])
        long = self.why(48, "1580FE" + "00" * 18)  # MD5 with all of its subfields ends before octet 20, and LEN is 21
        self.assertEqual(
            list(long.marked()), ["   0  15 80 FE" + " 00" * 13, "  16  00 00 00 00 00", "                  ^^"]
        )

    def test_no_mark(self):
        """A category is no octet."""
        self.assertEqual(list(self.why(49, "0200").marked()), ["   0  02 00"])

    def test_new_octets(self):
        """Of the octets themselves: what they are tried behind is neither shown nor counted."""
        told = why_new(self.desk, 48, "ERR", b"\2\0")
        self.assertEqual(list(told.marked()), ["   0  02 00", "      ^^"])
        self.assertEqual(told.subject, ["At octet 0 should stand ERR (document 000, 2.7: Extended Range Report)."])
        self.assertEqual((told.facts, told.mended), (["It has 3 octets, and there are 2 octets."], None))
        told = why_new(self.desk, 48, "ERR", b"\2\0\0\0")
        self.assertEqual(list(told.marked()), ["   0  02 00 00 00", "               ^^"])
        self.assertEqual((told.facts, told.mended), (["ERR ends before octet 3: 1 octet is left over."], None))
        told = why_new(self.desk, 48, "M5N", b"\1\x80\x3f")
        self.assertEqual(told.subject, ["At octet 2 stands M5N FOM (document 000, 2.4: Mode 5 Reports, New Format)."])
        self.assertEqual(told.facts, ["Bit 6 is spare and must be 0.", "With 1F at octet 2 it is accepted."])
        told = why_new(self.desk, 48, "M5N", b"\1\xc0\x20")
        said = "With 80 at octet 1 it is refused by 6 at octet 2, spare bit set in a chain part or subfield."
        self.assertEqual(told.facts, ["Bit 7 is spare and must be 0.", said])
        told = why_new(self.desk, 48, "M5N", b"\1")
        self.assertEqual(told.compared(), ["it is      nothing", "it may be  x0000000"])
        self.assertIsNone(why_new(self.desk, 48, "ERR", b""))
        self.assertIsNone(why_new(self.desk, 48, "ERR", b"\2\0\0"))


def cleared(cat, item, line, octets):
    """The octets of a part or subfield without the bits that every field has 0, by tests/papers.py."""
    name, parts, subs = next(one for one in PAPERS[cat] if one[0] == item)
    if line.startswith("part "):
        size, defined = parts[int(line[5:]) - 1]
        fixed = reference.spare_bits(size, defined, True) | (line == f"part {len(parts)}")
    else:
        size, defined = next((size, defined) for sub, size, defined in subs if sub == line)
        fixed = reference.spare_bits(size, defined, False)
    return (int.from_bytes(octets, "big") & ~fixed).to_bytes(size, "big"), fixed


class Seeded(WithDesk):
    def refused_fields(self):
        rng = random.Random(7)
        for cat in rng.choices(list(PAPERS), k=SEEDED):
            field = some_field(rng, cat)
            refused = refusal(self.desk, cat, field)
            self.assertEqual(reference.read(cat, field)[0] == "ok", refused is None)
            if refused:
                yield cat, field, refused

    def test_what_is_said_is_so(self):
        """The claims about the mended field and about other categories; and that the mended field passes what was
        refused."""
        count = 0
        for cat, field, refused in self.refused_fields():
            told = why(self.desk, cat, field, refused)
            count += 1
            others = {int(fact.split()[2]) for fact in told.facts if fact.startswith("As category")}
            self.assertEqual(
                others, {other for other in PAPERS if other != cat and reference.read(other, field)[0] == "ok"}
            )
            self.mended(told)
        self.assertGreater(count, SEEDED / 4)

    def mended(self, told):
        """What is said of the mended field: of new octets, counted from the first of these."""
        claims = [fact for fact in told.facts if fact.startswith("With ")]
        if told.mended is None:
            return self.assertEqual(claims, [])
        octets, at, said = re.fullmatch(r"With ([0-9A-F ]+) at octet (\d+) it is (.*)\.", claims[0]).groups()
        put, place = bytes.fromhex(octets), int(at) + told.made
        self.assertEqual(told.field[:place] + put + told.field[place + len(put) :], told.mended)
        got = reference.read(told.cat, told.mended)
        if got[0] == "ok":
            return self.assertEqual(said, "accepted")
        self.assertRegex(said, rf"^refused by {got[1]} at octet {got[2] - told.made}, ")
        self.assertNotEqual(got[1:], (told.refused.number, told.refused.place))

    def test_patterns(self):
        """What may stand at the place, and what is put there, by the papers' own bits."""
        for cat, field, refused in self.refused_fields():
            if refused.number not in (6, 7):
                continue
            told = why(self.desk, cat, field, refused)
            item, _, line = re.match(r"At octet \d+ stands (\w+)( (part \d|\w+))? \(", told.subject[0]).groups()
            octets = bytes(int(bits, 2) for bits in told.bits.split())
            wanted, fixed = cleared(cat, item, line or item, octets)
            self.assertEqual(told.mended, field[: refused.place] + wanted + field[refused.place + len(wanted) :])
            self.assertEqual(
                told.right.replace(" ", ""),
                "".join("0" if bit == "1" else "x" for bit in f"{fixed:0{8 * len(wanted)}b}"),
            )

    def test_new_octets(self):
        """14 is explained by the field of that item alone, as 01 defines it."""
        rng, count = random.Random(14), 0
        for _ in range(SEEDED):
            cat = rng.choice([48, 21, 7])
            number = rng.randrange(len(PAPERS[cat])) + 1
            name, new = PAPERS[cat][number - 1][0], bytes(rng.randrange(256) for _ in range(rng.randrange(1, 6)))
            try:
                self.desk.replace(cat, b"\2\0", slot(name), name, new)
            except Refused as refused:
                self.assertEqual(refused.number, 14)
                told = why_new(self.desk, cat, name, new)
                alone = bytes([len(new) + 2, 0x80 >> number - 1]) + new
                self.assertEqual(("refused", told.refused.number, told.refused.place), reference.read(cat, alone))
                self.mended(told)
                count += 1
        self.assertGreater(count, 100)


if __name__ == "__main__":
    unittest.main()
