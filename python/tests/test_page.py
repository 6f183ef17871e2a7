"""`ref page`: one file without scripts and without anything from elsewhere, whose text has the sheet and the map; in
a browser too, where one is installed."""
import os
import random
import re
import shutil
import subprocess
import unittest
from html.parser import HTMLParser

import reference
from fields import full_field, good_field
from sheets import widest

from tests.given import HANGS, InFolder

CHROMIUM = shutil.which("chromium")
ALONE = {"meta", "br", "hr", "link", "img", "input", "wbr"}  # tags without an end


FRAME = """<!DOCTYPE html><output></output><iframe src="page.html" style="border: 0; height: 700px; width: 360px" onload="
    const page = this.contentDocument, cells = [...page.querySelectorAll('td, th')];
    document.querySelector('output').textContent =
        [page.documentElement.scrollWidth, Math.ceil(Math.max(...cells.map(cell => cell.offsetHeight))), cells.length].join(' ')"></iframe>
"""


class Page(HTMLParser):
    """The text of each cell, paragraph and heading; the tags and attributes; and that each tag ends where it should."""

    def __init__(self, html):
        super().__init__()
        self.open, self.tags, self.attributes, self.cells = [], set(), set(), []
        self.feed(html)
        self.close()
        assert self.open == [], self.open

    def handle_starttag(self, tag, attributes):
        self.tags.add(tag)
        self.attributes |= {name for name, _ in attributes}
        if tag not in ALONE:
            self.open.append(tag)
        if tag in ("td", "th", "p", "pre", "h1", "h2"):
            self.cells.append("")

    def handle_endtag(self, tag):
        assert self.open.pop() == tag, tag

    def handle_data(self, data):
        if self.cells and self.open[-1:] != ["style"]:
            self.cells[-1] += data


def in_turn(wanted, cells):
    """Whether these cells follow each other, with others between them."""
    rest = iter(cells)
    return all(any(cell.strip() == one for cell in rest) for one in wanted)


class Pages(InFolder):
    """Pages of a day's fields."""

    def page(self, *words, status=0):
        self.assertEqual(self.ref("page", "--out", "page.html", *words), (status, "", ""))
        return (self.folder / "page.html").read_text(encoding="utf-8")

    def fields(self):
        rng = random.Random(9)
        return [(cat, full_field(cat, widest)) for cat in (48, 21, 7)] + [
            (cat, good_field(cat, rng)) for cat in (48, 21, 7) for _ in range(5)
        ]

    def has_sheets(self, fields, html):
        """Of each article: every line of the sheet, key and value, and no other."""
        articles = html.split("<article>")[1:]
        self.assertEqual(len(articles), len(fields))
        for (cat, field), text in zip(fields, articles):
            table = re.search("<h2>Sheet</h2>.*?<table>(.*?)</table>", text, re.S)[1]
            found = [Page(f"<table>{row}</table>").cells[:2] for row in re.findall("<tr>.*?</tr>", table, re.S)]
            wanted = [line.split("=") for line in reference.sheet(bytes([cat]) + field).splitlines()]
            self.assertEqual([[cell.strip() for cell in cells] for cells in found], wanted)


class AsText(Pages):
    def test_stands_for_itself(self):
        html = self.page(self.day(self.fields()))
        page = Page(html)
        self.assertFalse(page.tags & {"script", "link", "img", "iframe", "object", "embed", "form", "base"})
        self.assertFalse(
            page.attributes & {"src", "href", "srcset", "style", "action"}
            | {name for name in page.attributes if name.startswith("on")}
        )
        self.assertNotRegex(html, r"https?:|@import|url\(|//")
        self.assertIn('<meta name="viewport" content="width=device-width, initial-scale=1">', html)
        self.assertIn("@media print", html)

    def test_numbers(self):
        fields = self.fields()
        self.has_sheets(fields, self.page(self.day(fields)))
        told = Page(self.page("48", "062806010000")).cells
        self.assertTrue(
            in_turn(
                [
                    "Category 048, edition 1.9 (document 000)",
                    "06 28 06 01 00 00",
                    "ERR",
                    "65536",
                    "256 NM",
                    "M4E part 1 000, 2.5",
                    "2",
                    "06",
                    "00000...",
                    "bits 8/4: spare",
                    ".....11.",
                    "bits 3/2: M4E = 3",
                    "ERR 000, 2.7",
                    "bits 24/1: ERR = 65536, 256 NM",
                ],
                told,
            ),
            told,
        )

    def test_refused(self):
        cells = Page(self.page("48", "03200F", status=1)).cells
        self.assertTrue(
            in_turn(
                [
                    "03 20 0F",
                    "Refused by 6 at octet 2: spare bit set in a chain part or subfield",
                    "Bit 4 is spare and must be 0.",
                    "With 06 at octet 2 it is accepted.",
                    "bits 8/4: spare, must be 0",
                ],
                cells,
            ),
            cells,
        )
        for octets in ("", "05", "0280", "060801000000", "0101"):
            Page(self.page("48", octets, status=1))
        Page(self.page("49", "0200", status=1))

    def test_no_fields(self):
        """A page without fields takes the place of an older one, too."""
        self.file("an older page", "page.html")
        self.assertEqual(Page(self.page(self.file("# none\n"))).cells, [])

    def test_words_stay_as_they_are(self):
        self.assertIn("Refused by 3 at octet 0: LEN is 0 or 1\n", Page(self.page("48", "0100", status=1)).cells)

    def test_names_of_files(self):
        """What a file is called can't become a tag."""
        page = Page(self.page(self.day([(48, b"\2\0")], "<b>&.txt")))
        self.assertIn("<b>&.txt, line 1\n", page.cells)
        self.assertNotIn("b", page.tags)


@unittest.skipUnless(CHROMIUM, "chromium is not installed")
class InABrowser(Pages):
    def browser(self, option, name):
        start = [
            CHROMIUM,
            "--headless",
            "--no-sandbox",
            "--disable-gpu",
            "--allow-file-access-from-files",
            f"--user-data-dir={self.folder}/browser",
        ]
        return subprocess.run(
            [*start, option, f"file://{self.folder}/{name}"], capture_output=True, text=True, timeout=HANGS, check=True
        ).stdout

    def test_numbers(self):
        """As the browser has them after it took the page apart."""
        fields = self.fields()
        self.page(self.day(fields))
        self.has_sheets(fields, self.browser("--dump-dom", "page.html"))

    def test_print(self):
        self.page(self.day(self.fields()))
        self.browser(f"--print-to-pdf={self.folder}/page.pdf", "page.html")
        self.assertGreater(os.path.getsize(self.folder / "page.pdf"), 10000)

    def test_telephone(self):
        """In a window of 360 points nothing stands beyond its edge, and no cell has more than three lines."""
        self.page(self.day(self.fields()))
        (self.folder / "frame.html").write_text(FRAME)
        wide, high, cells = re.search(
            r"<output>(\d+) (\d+) (\d+)</output>", self.browser("--dump-dom", "frame.html")
        ).groups()
        self.assertLessEqual(int(wide), 360)
        self.assertLess(int(high), 4 * 24)
        self.assertGreater(int(cells), 1000)


if __name__ == "__main__":
    unittest.main()
