"""What `ref` takes for a line: hex with and without spaces, files, standard input; and what it says of the rest, in
one line."""
import os
import subprocess
import unittest
from pathlib import Path

from ref.lines import Asked, Usage, lines, texts

from tests.given import InFolder


class Here(InFolder):
    """The folder is the one that names of files are of."""

    def setUp(self):
        super().setUp()
        self.addCleanup(os.chdir, os.getcwd())
        os.chdir(self.folder)


class Lines(Here):
    def fields(self, *words):
        return [(line.cat(), line.field().hex()) for line in lines(list(words))]

    def test_words(self):
        for words in (
            ["48", "062806010000"],
            ["48", "06 28 06 01 00 00"],
            ["48", "06", "28", "06", "01", "00", "00"],
            ["048", "0628 0601", "0000"],
        ):
            self.assertEqual(self.fields(*words), [(48, "062806010000")])
        self.assertEqual(self.fields("7", "aBcD"), [(7, "abcd")])
        self.assertEqual(self.fields("48", ""), [(48, "")])

    def test_files(self):
        name = self.file("\ufeff# a day\n48 0200\n\n  21 03 01 00\r\n007 -\n")
        self.assertEqual(self.fields(name), [(48, "0200"), (21, "030100"), (7, "")])
        self.assertEqual(self.fields(name, name), 2 * self.fields(name))
        self.assertEqual(
            [line.where for line in lines([name])], ["day.txt, line 2", "day.txt, line 4", "day.txt, line 5"]
        )

    def test_files_of_one_category(self):
        self.assertEqual(self.fields("21", self.file("0200\n03 01 00\n")), [(21, "0200"), (21, "030100")])

    def test_pipes(self):
        os.mkfifo("pipe")
        with subprocess.Popen(["sh", "-c", "echo 0200 > pipe"]):
            self.assertEqual(self.fields("48", "./pipe"), [(48, "0200")])

    def test_hex_is_no_file(self):
        self.file("0200\n", "beef")
        self.assertEqual(self.fields("48", "beef"), [(48, "beef")])
        self.assertEqual(self.fields("48", "./beef"), [(48, "0200")])

    def test_wrong(self):
        category = "is no category; one is a number from 0 to 255, as 48"
        rows = [
            (["48", "zz"], "'zz' is neither hex nor a file"),
            (["48", "06", "2G"], "'G' in '062G' is no hex digit"),
            (["48", "062"], "'062' has 3 hex digits, and an octet is two"),
            (["48", "02" * 300], "a field has at most 255 octets, and these are 300"),
            (["48"], "no octets stand behind the category; '' stands for none"),
            (["256", "0200"], f"'256' {category}"),
            (["9" * 100, "0200"], f"'{'9' * 40}..' {category}"),
            (["nowhere"], "nowhere can't be read: No such file or directory"),
            (["."], ". can't be read: Is a directory"),
            (["/proc/self/mem"], "/proc/self/mem can't be read: Input/output error"),
        ]
        for words, said in rows:
            with self.assertRaises(Usage) as caught:
                self.fields(*words)
            self.assertEqual(str(caught.exception), said)

    def test_wrong_in_a_file(self):
        wanted = [
            "'x' is no category; one is a number from 0 to 255, as 48",
            "no octets stand behind the category; '-' stands for none",
            "'020' has 3 hex digits, and an octet is two",
            "'G' in '060G' is no hex digit",
        ]
        name = self.file("48 0200\nx 0200\n48\n48 020\n48 06 0G\n")
        for line, said in zip(list(lines([name]))[1:], wanted):
            with self.assertRaises(Usage) as caught:
                line.cat(), line.field()
            self.assertEqual(str(caught.exception), said)

    def test_255_octets(self):
        self.assertEqual(len(Asked("", ["48", "00" * 255]).field()), 255)


class Texts(Here):
    def test_one_is_taken_as_it_is(self):
        for text in (b"a=1\nend=ok\n", b"a=1\r\nend=ok\r\n", b"a=1", b"", b"\xff\xfe\n"):
            Path("sheet.txt").write_bytes(text)
            self.assertEqual(list(texts(["sheet.txt"])), [("sheet.txt", 1, text)])

    def test_many(self):
        found = list(texts([self.file("a=1\nb=2\n\nc=3\n\nd=4", "sheets.txt")]))
        wanted = [("sheets.txt", 1, b"a=1\nb=2\n"), ("sheets.txt", 4, b"c=3\n"), ("sheets.txt", 6, b"d=4")]
        self.assertEqual(found, wanted)


if __name__ == "__main__":
    unittest.main()
