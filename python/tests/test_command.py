"""`ref` as a person starts it: what it prints, what it says on standard error in one line, and its exit status."""
import io
import json
import os
import pty
import random
import re
import signal
import subprocess
import sys
import threading
import unittest
from contextlib import suppress
from unittest import mock

import reference
from fields import good_field
from papers import PAPERS
from ref.command import COMMANDS, Run, parsed

from tests.given import ENVIRONMENT, HANGS, REF, InFolder

MAP = """\
category 048, edition 1.9 (document 000): accepted

   0  06  00000110  LEN                     6 octets
   1  28  00101...  indicator   bits 8/4    M4E, ERR
          .....000              bits 3/1    spare
   2  06  00000...  M4E part 1  bits 8/4    spare
          .....11.              bits 3/2    M4E = 3
          .......0              bit 1       FX = 0, the last part
   3  01  00000001  ERR         bits 24/1   ERR = 65536, 256 NM
   4  00  00000000
   5  00  00000000
"""
WHY = """\
refused by 6 at octet 2: spare bit set in a chain part or subfield

   0  03 20 0F
            ^^

At octet 2 stands M4E part 1 (document 000, 2.5: Extended Mode 4 Report).
  it is      00001111
  it may be  00000xx0
Bit 4 is spare and must be 0.
Bit 1 is FX: 1 says that another part follows, and the edition defines 1 part.
With 06 at octet 2 it is accepted.
The octets from octet 2 on are of another edition or category, or damaged (docs/SPARE.md). Keep the field as it is and ask its maker.
"""


class Shown(InFolder):
    def test_screens(self):
        self.assertEqual(self.ref("map", "48", "062806010000"), (0, MAP, ""))
        self.assertEqual(self.ref("why", "48", "03", "20", "0F"), (1, WHY, ""))
        self.assertEqual(self.ref("why", "48", "032006"), (0, "accepted\n", ""))

    def test_sheet(self):
        sheet = "cat=48\nlen=6\nitems=M4E,ERR\nM4E=3\nERR=65536\nend=ok\n"
        for words, given in (
            (["48", "062806010000"], ""),
            (["48", "06 28 06 01 00 00"], ""),
            (["-"], "48 062806010000\n"),
            ([], "48 06 28 06 01 00 00"),
            (["48", "-"], "062806010000"),
            ([self.file("48 062806010000\n")], ""),
        ):
            self.assertEqual(self.ref("sheet", *words, given=given), (0, sheet, ""), words)
        self.assertEqual(self.ref("sheet", "48", "03200F"), (1, "cat=48\nrefused=6\nat=2\n", ""))

    def test_read(self):
        self.assertEqual(self.ref("read", "21", "04800FFF"), (0, "BPS       4095  1209.5 hPa or more\n", ""))
        self.assertEqual(self.ref("read", "48", "062806010000"), (0, "M4E          3\nERR      65536  256 NM\n", ""))
        position = "MD5.POS.LAT    4194304  90 degrees\nMD5.POS.LON   -8388608  -180 degrees\n"
        self.assertEqual(self.ref("read", "48", "098020400000800000"), (0, position, ""))
        self.assertEqual(
            self.ref("read", "48", "0280"),
            (1, "", "ref: refused by 5 at octet 2: chain part or subfield not wholly before LEN\n"),
        )

    def test_read_without_numbers(self):
        """01's edges `02 00`, `04 40 01 00` and, in category 21, `03 01 00`: each is told of, among others too."""
        empty = "MES             nothing in it\n"
        self.assertEqual(self.ref("read", "48", "0200"), (0, "no items\n", ""))
        self.assertEqual(self.ref("read", "48", "04400100"), (0, "M5N.chain          2\n", ""))
        self.assertEqual(self.ref("read", "21", "030100"), (0, empty, ""))
        self.assertEqual(
            self.ref("read", self.file("48 0200\n21 030100\n")),
            (0, f"day.txt, line 1: 48 0200\nno items\n\nday.txt, line 2: 21 030100\n{empty}", ""),
        )

    def test_items(self):
        self.assertEqual(self.ref("view", "--item", "ERR", "48", "062806010000"), (0, "ERR at octet 3: 01 00 00\n", ""))
        self.assertEqual(
            self.ref("view", "--item", "MD5", "48", "062806010000"), (1, "", "ref: refused by 15: item absent\n")
        )
        self.assertEqual(
            self.ref("choose", "--item", "M4E", "48", "062806010000", "032004"),
            (0, "M4E of the correction at octet 2: 04\n", ""),
        )
        self.assertEqual(
            self.ref("choose", "--item", "M4E", "48", "062806010000", "03200F"),
            (1, "", "ref: refused by 6 at octet 2 of the correction: spare bit set in a chain part or subfield\n"),
        )


class Written(InFolder):
    def test_edit(self):
        field = ["48", "062806010000"]
        self.assertEqual(
            self.ref("edit", "--slot", "RPC,ERR", "--item", "ERR", "--to", "020000", *field),
            (0, "48 062806020000\n", ""),
        )
        self.assertEqual(
            self.ref("edit", *field, "--slot", "M4E", "--item", "M4E", "--remove"), (0, "48 0508010000\n", "")
        )
        self.assertEqual(
            self.ref("edit", "--slot", "RPC", "--item", "RPC", "--to", "80 07", *field),
            (0, "48 0838068007010000\n", ""),
        )
        self.assertEqual(
            self.ref("edit", "--slot", "M4E,RPC", "--item", "ERR", "--to", "020000", *field),
            (1, "", "ref: refused by 13: item is not on the slot's list\n"),
        )

    def test_why_not(self):
        status, told, said = self.ref(
            "why", "--slot", "M4E,RPC", "--item", "ERR", "--to", "020000", "48", "062806010000"
        )
        self.assertEqual((status, said), (1, ""))
        self.assertEqual(
            told,
            "refused by 13: item is not on the slot's list\n\nThe slot is booked for M4E, RPC, and ERR is not among them.\n",
        )
        status, told, _ = self.ref("why", "--slot", "ERR", "--item", "ERR", "--to", "0200", "48", "062806010000")
        self.assertEqual((status, told.splitlines()[0]), (1, "refused by 14: new octets are not exactly one such item"))
        self.assertIn("At octet 0 should stand ERR (document 000, 2.7: Extended Range Report).\n", told)
        status, told, _ = self.ref("why", "--slot", "ERR", "--item", "ERR", "--to", "", "48", "062806010000")
        self.assertIn("There are no octets for ERR; to take an item away is a removal.\n", told)
        self.assertEqual(
            self.ref("why", "--slot", "ERR", "--item", "ERR", "--to", "020000", "48", "062806010000")[:2],
            (0, "accepted\n48 062806020000\n"),
        )

    def test_copy(self):
        self.assertEqual(self.ref("copy", "--withhold", "M4E,ERR", "48", "0838068007010000"), (0, "48 04108007\n", ""))
        for lists in (["M4E", "ERR"], ["M4E", "48=ERR"], ["48=M4E", "RPC , ERR"], ["48=M4E", "48=ERR"]):
            words = [word for text in lists for word in ("--withhold", text)]
            self.assertEqual(self.ref("copy", *words, "48", "062806010000"), (0, "48 0200\n", ""), lists)
        for words in ("", "48=", "21=MES", ","):
            said = "ref: --withhold names no items for category 048\n"
            self.assertEqual(self.ref("copy", "--withhold", words, "48", "032006"), (2, "", said))
        said = "ref: --withhold 'x=M4E' is no list; one is RPC,ERR or 48=RPC,ERR\n"
        self.assertEqual(self.ref("copy", "--withhold", "x=M4E", "48", "032006"), (2, "", said))

    def test_lists_of_categories(self):
        """A name must be an item of the field's own category, so that nothing stays in a copy by mistake."""
        day = self.file("48 032006\n21 030100\n")
        self.assertEqual(
            self.ref("copy", "--withhold", "48=M4E", "--withhold", "21=MES", day), (0, "48 0200\n21 0200\n", "")
        )
        status, _, said = self.ref("copy", "--withhold", "MES", "48", "032006")
        self.assertEqual((status, said), (2, "ref: category 048 has no item 'MES'; it has MD5, M5N, M4E, RPC, ERR\n"))
        status, told, said = self.ref("copy", "--withhold", "48=M4E", day)
        self.assertEqual(
            (status, told, said), (2, "48 0200\n", "ref: day.txt, line 2: --withhold names no items for category 021\n")
        )

    def test_write(self):
        self.assertEqual(self.ref("write", "48", "M4E=3", "ERR=65536"), (0, "48 062806010000\n", ""))
        self.assertEqual(self.ref("write", "48", "M5N.chain=2"), (0, "48 04400100\n", ""))
        self.assertEqual(
            self.ref("write", "48", "M4E=4"), (1, "", "ref: refused by 10: record that no field reads to\n")
        )
        self.assertEqual(self.ref("write", "49", "M4E=4")[0], 1)
        for word in ("M4E=2147483648", "M5N.chain=256", "M5N.chain=0"):
            self.assertEqual(
                self.ref("write", "48", word)[::2], (1, "ref: refused by 10: record that no field reads to\n")
            )
        for word in ("M4E", "M4E=x", "M4E=", "M4E=\u0663", "M4E=12345678901"):
            self.assertEqual(self.ref("write", "48", word), (2, "", f"ref: {word!r} is no KEY=NUMBER, as ERR=65536\n"))
        self.assertEqual(self.ref("write", "48", "M4E=3", "M4E=3"), (2, "", "ref: M4E is given twice\n"))

    def test_rebuild(self):
        sheet = reference.sheet(bytes.fromhex("30062806010000"))
        self.assertEqual(self.ref("rebuild", given=sheet), (0, "48 062806010000\n", ""))
        wrong = self.file(f"{sheet}\n{sheet.replace('M4E=3', 'M4E=4')}", "sheets.txt")
        self.assertEqual(
            self.ref("rebuild", wrong),
            (
                1,
                "48 062806010000\n",
                "ref: sheets.txt, line 11: refused by 18 at line 4: text that is no sheet of a field\n",
            ),
        )

    def test_rebuild_octets(self):
        """The text is its octets, whatever they are: these are one line, and fewer than 32,768."""
        (self.folder / "no.txt").write_bytes(b"\xff" * 20000)
        said = "ref: no.txt, line 1: refused by 18 at line 1: text that is no sheet of a field\n"
        self.assertEqual(self.ref("rebuild", "no.txt"), (1, "", said))


class Many(InFolder):
    def fields(self, count):
        rng = random.Random(21)
        return [(cat, good_field(cat, rng)) for cat in (rng.choice(list(PAPERS)) for _ in range(count))]

    def test_sheets_and_back(self):
        fields = self.fields(300)
        status, told, said = self.ref("sheet", self.day(fields))
        self.assertEqual(
            (status, told, said), (0, "\n".join(reference.sheet(bytes([cat]) + field) for cat, field in fields), "")
        )
        self.assertEqual(
            self.ref("rebuild", given=told), (0, "".join(f"{cat} {field.hex().upper()}\n" for cat, field in fields), "")
        )

    def test_readings(self):
        """Keys and numbers are those of the sheet, but for the lines that are derived."""
        fields = self.fields(300)
        blocks = self.ref("read", self.day(fields))[1].split("\n\n")
        self.assertEqual(len(blocks), len(fields))
        for (cat, field), block in zip(fields, blocks):
            told = [
                row.split()[:2] for row in block.splitlines()[1:] if not row.endswith(("no items", "nothing in it"))
            ]
            lines = [line.split("=") for line in reference.sheet(bytes([cat]) + field).splitlines()[3:-1]]
            derived = (".udeg", ".left", ".tenths", ".sense")
            self.assertEqual(told, [line for line in lines if not line[0].endswith(derived)])

    def test_every_command(self):
        """Each takes a file of fields, and tells of as many as it has, of the refused one too."""
        day = self.file("48 062806010000\n48 03200F\n48 032006\n")
        options = {
            "edit": ["--slot", "M4E", "--item", "M4E", "--remove"],
            "copy": ["--withhold", "ERR"],
            "view": ["--item", "M4E"],
        }
        for command in set(COMMANDS) - {"choose", "write", "rebuild"}:
            status, told, _ = self.ref(command, "--json", *options.get(command, []), day)
            rows = [json.loads(row) for row in told.splitlines()]
            self.assertEqual((status, [row["accepted"] for row in rows]), (1, [True, False, True]), command)
            self.assertEqual([row["where"] for row in rows], ["day.txt, line 1", "day.txt, line 2", "day.txt, line 3"])
            self.assertEqual(
                rows[1]["refused"], {"number": 6, "place": 2, "words": "spare bit set in a chain part or subfield"}
            )
        for command, line in (("choose", "48 062806010000 032004"), ("write", "48 M4E=3")):
            told = self.ref(
                command, "--json", *(["--item", "M4E"] if command == "choose" else []), self.file(f"{line}\n{line}\n")
            )[1]
            self.assertEqual([json.loads(row)["accepted"] for row in told.splitlines()], [True, True])

    def test_headings(self):
        day = self.file("48 03 20 06\n48 03200F\n")
        status, told, _ = self.ref("why", day)
        self.assertEqual(
            (status, told), (1, f"day.txt, line 1: 48 03 20 06\naccepted\n\nday.txt, line 2: 48 03200F\n{WHY}")
        )

    def test_wrong_lines(self):
        """Each is told, the others are answered, and the status is 2."""
        day = self.file("48 032006\n48 zz\n48 03200F\n21 030100\n48 0200\n")
        status, told, said = self.ref("copy", "--withhold", "ERR", day)
        self.assertEqual((status, told), (2, "48 032006\n48 0200\n"))
        self.assertEqual(
            said.splitlines(),
            [
                "ref: day.txt, line 2: 'z' in 'zz' is no hex digit",
                "ref: day.txt, line 3: refused by 6 at octet 2: spare bit set in a chain part or subfield",
                "ref: day.txt, line 4: category 021 has no item 'ERR'; it has BPS, SelH, NAV, GAO, SGV, STA, TNH, MES",
            ],
        )
        status, told, _ = self.ref("sheet", "--json", day)
        rows = [json.loads(row) for row in told.splitlines()]
        self.assertEqual((status, [row.get("error") for row in rows][1]), (2, "'z' in 'zz' is no hex digit"))
        self.assertEqual([row["accepted"] for row in rows], [True, False, False, True, True])

    def test_refusals_write_nothing(self):
        day = self.file("48 03200F\n48 032006\n")
        self.assertEqual(
            self.ref("copy", "--withhold", "ERR", day),
            (
                1,
                "48 032006\n",
                "ref: day.txt, line 1: refused by 6 at octet 2: spare bit set in a chain part or subfield\n",
            ),
        )

    def test_progress(self):
        """On standard error, where a run is long; the answers are as without it."""
        copy = ["copy", "--withhold", "48=ERR", "--withhold", "21=STA", "--withhold", "7=ERR"]
        fields = self.fields(1200)
        status, told, said = self.ref(*copy, self.day(fields))
        self.assertEqual((status, told.count("\n"), said), (0, 1200, "ref: 1,200 asked, 0 refused, all answered\n"))
        self.assertEqual(self.ref(*copy, self.day(fields[:1000]))[2], "")

    def test_long_progress(self):
        _, told, said = self.ref("sheet", "--json", self.file("48 0200\n" * 20001))
        self.assertEqual(told.count("\n"), 20001)
        self.assertEqual(
            said,
            "ref: 10,000 asked, 0 refused\nref: 20,000 asked, 0 refused\nref: 20,001 asked, 0 refused, all answered\n",
        )

    def test_streams(self):
        """Each line is answered before the next one comes, so that a recorder can be listened to."""
        words = [str(REF), "copy", "--withhold", "ERR", "-"]
        with subprocess.Popen(words, stdin=subprocess.PIPE, stdout=subprocess.PIPE, text=True, env=ENVIRONMENT) as ref:
            guard = threading.Timer(60, ref.kill)
            guard.start()
            ref.stdin.write("48 0200\n")
            ref.stdin.flush()
            self.assertEqual(ref.stdout.readline(), "48 0200\n")
            ref.stdin.close()
            self.assertEqual(ref.wait(), 0)
            guard.cancel()


class Json(InFolder):
    def told(self, *words):
        return json.loads(self.ref(*words)[1])

    def test_sheet(self):
        asked = {"accepted": True, "cat": 48, "field": "062806010000"}
        numbers = {"len": 6, "items": ["M4E", "ERR"], "numbers": {"M4E": 3, "ERR": 65536}}
        self.assertEqual(self.told("sheet", "--json", "48", "062806010000"), {**asked, **numbers})
        pressure = {"BPS": 4095, "BPS.tenths": 12095, "BPS.sense": "atleast"}
        self.assertEqual(self.told("sheet", "--json", "21", "04800FFF")["numbers"], pressure)

    def test_read(self):
        pressure = {"key": "BPS", "number": 4095, "value": 1209.5, "unit": "hPa", "sense": "atleast"}
        self.assertEqual(self.told("read", "--json", "21", "04800FFF")["numbers"], [pressure])
        code = self.told("read", "--json", "21", "0501040280")["numbers"][-1]
        self.assertEqual(code, {"key": "MES.M2.M2", "number": 640, "octal": "1200"})
        self.assertEqual(self.told("read", "--json", "48", "04400100")["items"], [{"name": "M5N", "parts": 2}])

    def test_edit(self):
        edit = ["edit", "--json", "--slot", "ERR", "--item", "ERR", "--to", "020000", "48", "062806010000"]
        wanted = {"accepted": True, "cat": 48, "field": "062806010000", "result": "062806020000"}
        self.assertEqual(self.told(*edit), wanted)

    def test_map(self):
        number = {"key": "MD5.TOS", "number": -1, "value": -0.0078125, "unit": "s", "sense": "equal"}
        run = {"hi": 8, "lo": 1, "bits": "11111111", "kind": "number", **number}
        line = {"at": 3, "octets": "FF", "item": "MD5", "line": "TOS", "runs": [run]}
        self.assertEqual(self.told("map", "--json", "48", "048004FF")["lines"][1], line)

    def test_why(self):
        told = self.told("why", "--json", "48", "03200F")
        self.assertEqual((told["refused"]["number"], told["why"]["may_be"]), (6, "00000xx0"))
        self.assertEqual(told["why"]["mended"], "032006")


class Words(InFolder):
    def test_any_order(self):
        for words in (
            ["48", "--json", "032006"],
            ["--json", "48", "03", "20", "06"],
            ["48", "03", "--json", "20", "06"],
        ):
            self.assertEqual(json.loads(self.ref("sheet", *words)[1])["numbers"], {"M4E": 3})

    def test_behind_len(self):
        """What is not looked at is not passed over in silence, unless the answer shows it."""
        status, told, said = self.ref("sheet", "48", "032006", "21", "04800FFF")
        self.assertEqual(
            (status, told.splitlines()[1], said), (0, "len=3", "ref: 5 octets behind LEN, not looked at\n")
        )
        self.assertEqual(self.ref("map", "48", "032006FF")[2], "")
        self.assertEqual(json.loads(self.ref("sheet", "--json", "48", "03200FAABB")[1])["behind"], 2)
        self.assertNotIn("behind", json.loads(self.ref("sheet", "--json", "48", "010203")[1]))
        choose = ["choose", "--item", "M4E", "48", "032006AA", "032004BB"]
        self.assertEqual(self.ref(*choose)[2], "ref: 2 octets behind LEN, not looked at\n")
        day = self.file("48 032006AA\n48 0200\n48 0200BBCC\n")
        said = "ref: 3 octets behind LEN, of 2 fields, not looked at\n"
        self.assertEqual(self.ref("copy", "--withhold", "ERR", day), (0, "48 032006\n48 0200\n48 0200\n", said))

    def test_streams_that_are_not_there(self):
        for command, said in (
            ("sheet 48 0200 >&-", "ref: there is no standard output\n"),
            ("sheet <&-", "ref: there is no standard input\n"),
            ("sheet 48 0200 >/dev/full", "ref: the answers can't be written: No space left on device\n"),
            ("page --out /dev/full 48 0200", "ref: /dev/full can't be written: No space left on device\n"),
        ):
            ended = subprocess.run(["sh", "-c", f"'{REF}' {command}"], capture_output=True, text=True, env=ENVIRONMENT)
            self.assertEqual((ended.returncode, ended.stdout, ended.stderr), (2, "", said), command)
        for words, wanted in (("copy --withhold ERR 48 0200", (0, "48 0200\n")), ("view --item ERR 48 0200", (1, ""))):
            quiet = f"exec '{sys.executable}' '{REF}' {words} 2>&-"
            ended = subprocess.run(["sh", "-c", quiet], capture_output=True, text=True, env=ENVIRONMENT)
            self.assertEqual((ended.returncode, ended.stdout), wanted)

    def test_names_that_are_no_text(self):
        name = os.fsdecode(b"bad\xff.txt")
        self.file("48 0200\n", name)
        for command in (["map"], ["page"], ["page", "--out", "page.html"]):
            for env in ({}, {"PYTHONIOENCODING": "ascii"}, {"LC_ALL": "C"}):
                self.assertEqual(self.ref(*command, name, **env)[::2], (0, ""))


class OneLine(InFolder):
    """What can't be asked is told in one line, with status 2, and nothing is printed."""

    def said(self, words, wanted, **env):
        status, told, said = self.ref(*words, **env)
        self.assertEqual((status, told, said.count("\n"), said[:5]), (2, "", 1, "ref: "), (words, said))
        self.assertIn(wanted, said)

    def test_words(self):
        self.said(["sheet", "48", "06", "2G"], "'G' in '062G' is no hex digit")
        self.said(["sheet", "48", "06 2G"], "'06 2G' is neither hex nor a file")
        self.said(["sheet", "48", "062"], "'062' has 3 hex digits, and an octet is two")
        self.said(["sheet", "48", "02" * 300], "a field has at most 255 octets, and these are 300")
        self.said(
            ["edit", "--slot", "ERR", "--item", "ERR", "--to", "00" * 254, "48", "0200"],
            "an item has at most 253 octets, and these are 254",
        )
        self.said(["view", "--item", "ERRR", "48", "0200"], "no category has an item 'ERRR'")
        self.said(
            ["view", "--item", "BPS", "48", "0200"], "category 048 has no item 'BPS'; it has MD5, M5N, M4E, RPC, ERR"
        )
        self.said(["edit", "--slot", "RCP", "--item", "ERR", "--remove", "48", "0200"], "no category has an item 'RCP'")
        self.said(["write", "48", "ERR.X=1"], "category 048 has no number 'ERR.X'")
        self.said(["sheet", "300", "0200"], "'300' is no category")
        self.said(["sheet", "48"], "no octets stand behind the category")
        self.said(["sheet", "nowhere.txt"], "nowhere.txt can't be read: No such file or directory")
        self.said(["choose", "--item", "ERR", "48", "0200"], "a choice is asked as CATEGORY BASE CORRECTION")

    def test_usage(self):
        self.said([], "the following arguments are required: COMMAND (ref --help says more)")
        self.said(["list"], "invalid choice: 'list'")
        self.said(["view", "48", "0200"], "the following arguments are required: --item (ref view --help says more)")
        self.said(["sheet", "--loud", "48", "0200"], "unrecognized arguments: --loud")
        self.said(
            ["edit", "--slot", "ERR", "--item", "ERR", "48", "0200"],
            "an edit has --slot, --item, and one of --to and --remove",
        )
        self.said(
            ["edit", "--slot", "ERR", "--item", "ERR", "--remove", "--to", "00", "48", "0200"],
            "one of --to and --remove",
        )
        self.said(["why", "--item", "ERR", "--remove", "48", "0200"], "an edit has --slot")
        self.said(["why", "--slot", "ERR", "48", "0200"], "an edit has --slot")
        self.said(
            ["why", "--slot", "BPS", "--item", "BPS", "--remove", "48", "03200F"], "category 048 has no item 'BPS'"
        )
        self.said(["sheet", "--js", "48", "0200"], "unrecognized arguments: --js")
        self.said(
            ["page", "--out", "no/such/folder.html", "48", "0200"],
            "no/such/folder.html can't be written: No such file or directory",
        )

    def test_no_page_is_begun(self):
        self.said(["page", "48", "0G"], "is neither hex nor a file")
        before = self.folder / self.file("another page", "page.html")
        self.said(["page", "--out", "page.html", "48", "0G"], "is neither hex nor a file")
        self.assertEqual(before.read_text(), "another page")

    def test_page_of_itself(self):
        """The page is written when all is read."""
        self.file("48 0200\n" * 500)
        self.assertEqual(self.ref("page", "--out", "day.txt", "day.txt"), (0, "", ""))
        self.assertEqual((self.folder / "day.txt").read_text().count("<article>"), 500)
        self.assertIn("<article>", self.ref("page", "--out", "-", "48", "0200")[1])

    def test_page_takes_a_place(self):
        """It is another file that has the name then: who has the older one open has it whole."""
        older = self.folder / self.file("another page", "page.html")
        os.link(older, self.folder / "kept.html")
        self.assertEqual(self.ref("page", "--out", "page.html", "48", "0200"), (0, "", ""))
        self.assertIn("<article>", older.read_text())
        self.assertEqual((self.folder / "kept.html").read_text(), "another page")
        (self.folder / "folder").mkdir()
        self.said(["page", "--out", "folder", "48", "0200"], "folder can't be written: Is a directory")
        (self.folder / "other.part").mkdir()
        self.said(["page", "--out", "other", "48", "0200"], "other can't be written: Is a directory")
        self.assertEqual(sorted(os.listdir(self.folder)), ["folder", "kept.html", "other.part", "page.html"])

    def test_program(self):
        self.said(
            ["sheet", "--program", "/nowhere/refdesk", "48", "0200"],
            "/nowhere/refdesk can't be started: No such file or directory",
        )
        self.said(["sheet", "48", "0200"], "/nowhere/refdesk can't be started", REFDESK="/nowhere/refdesk")
        ends = self.file(f"#!{sys.executable}\n", "ends")
        (self.folder / ends).chmod(0o755)
        self.said(["sheet", "--program", f"./{ends}", "48", "0200"], "ended without an answer")


class Terminal(InFolder):
    def on_terminal(self, *words, **env):
        """What a person sees, and the exit status."""
        return self.seen([str(REF), *words], env)

    def on_shell(self, command):
        return self.seen(["/bin/sh", "-c", command], {})

    def seen(self, command, env):
        pid, fd = self.begun(command, env)
        told = self.rest(fd)
        return os.waitstatus_to_exitcode(os.waitpid(pid, 0)[1]), told.decode().replace("\r\n", "\n")

    def begun(self, command, env):
        """A command on a terminal of its own. Ctrl-C ends it, also where these tests run in the background and ignore
        Ctrl-C themselves; if it hangs, it is ended."""
        pid, fd = pty.fork()
        if pid == 0:
            signal.signal(signal.SIGINT, signal.SIG_DFL)
            signal.alarm(HANGS)
            os.execve(command[0], command, {**ENVIRONMENT, "TERM": "xterm", **env})
        return pid, fd

    def rest(self, fd):
        """What is written until the other side is closed."""
        told = b""
        with open(fd, "rb", buffering=0) as screen, suppress(OSError):
            while piece := screen.read(65536):
                told += piece
        return told

    def test_colour(self):
        status, told = self.on_terminal("why", "48", "03200F")
        self.assertEqual((status, told[:6]), (1, "\033[1;31"))
        self.assertEqual(re.sub("\033\\[[0-9;]*m", "", told), WHY)
        self.assertEqual(self.on_terminal("why", "48", "03200F", NO_COLOR="1"), (1, WHY))
        self.assertEqual(self.on_terminal("why", "48", "03200F", TERM="dumb"), (1, WHY))
        self.assertEqual(re.sub("\033\\[[0-9;]*m", "", self.on_terminal("map", "48", "062806010000")[1]), MAP)

    def test_progress_is_written_over(self):
        """Where the answers go elsewhere; where they go to the terminal, they are the progress."""
        day = self.folder / self.file("48 0200\n" * 12000)
        _, told = self.on_terminal("page", "--out", str(self.folder / "page.html"), str(day))
        self.assertRegex(
            told, r"^(\rref: [\d,]+ asked, 0 refused )+\r +\rref: 12,000 asked, 0 refused, all answered\n$"
        )
        _, told = self.on_terminal("copy", "--withhold", "ERR", str(day))
        self.assertEqual(told, "48 0200\n" * 12000 + "ref: 12,000 asked, 0 refused, all answered\n")

    def test_complaints_have_lines_of_their_own(self):
        """The line that is written over makes room for one."""

        class Screen(io.StringIO):
            def isatty(self):
                return True

        line = "ref: 2 asked, 1 refused"
        with mock.patch("sys.stderr", Screen()) as screen, mock.patch("sys.stdout", io.StringIO()):
            with mock.patch("ref.progress.LONG", 1), mock.patch("ref.progress.PAUSE", -1):
                run = Run(parsed(["read", "day.txt"]))
                run.progress.step(True)
                run.progress.step(False)
                run.say("this")
        self.assertEqual(screen.getvalue(), f"\r{line} \r{' ' * len(line)} \rref: this\n")

    def test_complaints_among_answers(self):
        day = self.folder / self.file("48 0200\n" * 3000 + "48 0280\n" + "48 0200\n" * 3000)
        _, told = self.on_shell(f"'{REF}' read '{day}' > '{self.folder}/out'")
        said = "ref: .*, line 3001: refused by 5 at octet 2: chain part or subfield not wholly before LEN\n"
        self.assertRegex(told, rf"(^|\r){said}")

    def test_interrupted(self):
        """Ctrl-C, when a line is answered, ends it without a trace of Python."""
        pid, fd = self.begun([str(REF), "sheet", "-"], {})
        os.write(fd, b"48 0200\n")
        told = b""
        while b"end=ok" not in told:
            told += os.read(fd, 65536)
        os.write(fd, b"\x03")
        self.assertNotIn(b"Traceback", told + self.rest(fd))
        self.assertEqual(os.waitstatus_to_exitcode(os.waitpid(pid, 0)[1]), 130)

    def test_reader_that_goes_away(self):
        self.file("48 0200\n" * 5000)
        ended = subprocess.run(
            ["bash", "-c", f"'{REF}' sheet day.txt | head -n 1; echo ${{PIPESTATUS[0]}}"],
            cwd=self.folder,
            capture_output=True,
            text=True,
            timeout=HANGS,
            env=ENVIRONMENT,
        )
        self.assertEqual((ended.stdout, ended.stderr), ("cat=48\n141\n", ""))


class Help(InFolder):
    def test_examples(self):
        """Each example of the help does what the help says; the fields in them are accepted, but for those that ask
        why."""
        self.file("48 062806010000\n21 030100\n")
        self.file(reference.sheet(bytes.fromhex("30062806010000")), "sheet.txt")
        for name, command in COMMANDS.items():
            status, told, _ = self.ref(name, "--help")
            self.assertEqual(status, 0)
            for example in command.examples:
                self.assertIn(f"  {example}\n", told)
                ended = subprocess.run(
                    ["sh", "-euc", example],
                    cwd=self.folder,
                    capture_output=True,
                    text=True,
                    env={**ENVIRONMENT, "PATH": f"{REF.parent}:{os.environ['PATH']}"},
                )
                self.assertEqual((ended.returncode, ended.stderr), (1 if name == "why" else 0, ""), example)

    def test_top(self):
        status, told, _ = self.ref("--help")
        self.assertEqual(status, 0)
        for name, command in COMMANDS.items():
            self.assertIn(f"  {command.examples[0]}\n", told)


if __name__ == "__main__":
    unittest.main()
