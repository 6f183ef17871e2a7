"""The progress line of a long run, on standard error."""
from __future__ import annotations

import time
from typing import TextIO

LONG = 1000  # fields from which on a run is long
EVERY = 10000  # fields from one line to the next where the line is not written over
PAUSE = 0.25  # seconds before it is written over again


class Progress:
    """Counts the answers. At a terminal one line is written over, unless the answers go there too; elsewhere a line
    stands for many."""

    def __init__(self, to: TextIO, answers_there: bool) -> None:
        self.to, self.count, self.refused, self.shown = to, 0, 0, time.monotonic()
        self.over, self.apart = to.isatty() and not answers_there, not to.isatty()

    def step(self, accepted: bool) -> None:
        self.count += 1
        self.refused += not accepted
        if self.count > LONG and self.over and time.monotonic() - self.shown > PAUSE:
            self.shown = time.monotonic()
            self.to.write(f"\r{self.line()} ")
            self.to.flush()
        elif self.apart and self.count % EVERY == 0:
            self.to.write(f"{self.line()}\n")

    def clear(self) -> None:
        """Makes room for another line."""
        if self.over:
            self.to.write(f"\r{' ' * len(self.line())} \r")

    def end(self) -> None:
        if self.count > LONG:
            self.clear()
            self.to.write(f"{self.line()}, all answered\n")

    def line(self) -> str:
        return f"ref: {self.count:,} asked, {self.refused:,} refused"
