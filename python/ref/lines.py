"""What a command is asked about: lines of words, from the command line, files or standard input.

A line is a category and what belongs to it, mostly the octets of a field: `48 062806010000`, hex with or without
spaces. On the command line stands one such line, or the names of files that have many; blank lines there and what
begins with # are passed over.
"""
from __future__ import annotations

import os
import re
import sys
from collections.abc import Iterator
from contextlib import contextmanager
from io import TextIOWrapper
from typing import NamedTuple

FIELD = 255  # octets that a field has at most: LEN is one octet
NEW = 253  # and an item: a field has LEN and the indicator before it


class Usage(Exception):
    """What was asked can't be asked so; the text is one line."""


class Asked(NamedTuple):
    """A line of words, and where it stands; '' for the command line itself."""

    where: str
    words: list[str]

    def cat(self) -> int:
        """The category, its first word."""
        word = self.words[0]
        if not re.fullmatch("[0-9]{1,3}", word) or int(word) > 255:
            raise Usage(f"{shortened(word)!r} is no category; one is a number from 0 to 255, as 48")
        return int(word)

    def field(self) -> bytes:
        """The octets behind the category."""
        if not self.words[1:]:
            none = "'-'" if self.where else "''"
            raise Usage(f"no octets stand behind the category; {none} stands for none")
        return self.octets("".join(self.words[1:]), "a field", FIELD)

    def octets(self, text: str, what: str, most: int) -> bytes:
        """Octets in hex, with or without spaces; '-' for none."""
        digits = "" if text == "-" else "".join(text.split())
        strange = re.search("[^0-9A-Fa-f]", digits)
        if strange and not self.where and self.words[1:] == [text]:
            raise Usage(f"{shortened(text)!r} is neither hex nor a file")
        if strange:
            raise Usage(f"{strange[0]!r} in {shortened(text)!r} is no hex digit")
        if len(digits) % 2:
            raise Usage(f"{shortened(text)!r} has {len(digits)} hex digits, and an octet is two")
        if len(digits) > 2 * most:
            raise Usage(f"{what} has at most {most} octets, and these are {len(digits) // 2}")
        return bytes.fromhex(digits)


def shortened(text: str) -> str:
    return text if len(text) <= 40 else f"{text[:40]}.."


def is_file(word: str) -> bool:
    """Whether a word behind a category names standard input or a file; what is hex is octets."""
    return word == "-" or not re.fullmatch(r"[0-9A-Fa-f\s]*", word) and os.path.exists(word)


def split(words: list[str]) -> tuple[list[str], list[str]]:
    """The words that stand before each line, and the names of the files; no names if the words are a line
    themselves."""
    if not words or not re.fullmatch("[0-9]+", words[0]):
        return [], words or ["-"]
    if len(words) == 2 and is_file(words[1]):
        return words[:1], words[1:]
    return words, []


def is_many(words: list[str]) -> bool:
    """Whether files are asked about, and not one line."""
    return bool(split(words)[1])


def lines(words: list[str]) -> Iterator[Asked]:
    """The lines that are asked about. Of `48 FILE`, every line of the file is of category 48."""
    front, names = split(words)
    if not names:
        yield Asked("", front)
    for name in names:
        with opened(name) as file:
            for number, text in enumerate(file, 1):
                if text.split() and not text.lstrip().startswith("#"):
                    yield Asked(f"{called(name)}, line {number}", front + text.split())


def texts(words: list[str]) -> Iterator[tuple[str, int, bytes]]:
    """Sheets, and the file and the line where each begins. A file may have many, with a blank line before each but the
    first."""
    for name in words or ["-"]:
        with opened(name) as file:
            *others, last = file.buffer.read().split(b"\n\n")
        at = 1
        for text in [other + b"\n" for other in others] + [last]:
            yield called(name), at, text
            at += text.count(b"\n") + 1


def called(name: str) -> str:
    return "standard input" if name == "-" else name


@contextmanager
def opened(name: str) -> Iterator[TextIOWrapper]:
    """A file of words, with or without a mark of its encoding in front."""
    if name == "-" and sys.stdin is None:
        raise Usage("there is no standard input")
    file: int | str = sys.stdin.fileno() if name == "-" else name
    try:
        with open(file, encoding="utf-8-sig", errors="replace", closefd=name != "-") as found:
            yield found
    except OSError as error:
        raise Usage(f"{name} can't be read: {error.strerror}") from None
