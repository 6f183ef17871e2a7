"""What several tests stand on: a desk, a folder of their own, the command."""
import os
import subprocess
import tempfile
import unittest
from pathlib import Path

from paltinoma import Desk

from tests import ROOT

REF = ROOT / "bin" / "ref"
BASE = bytes.fromhex("062806010000")  # 01's worked field: M4E 3, ERR 65,536
ENVIRONMENT = {
    name: value for name, value in os.environ.items() if name not in ("PYTHONUNBUFFERED", "REFDESK", "NO_COLOR")
}
HANGS = 120  # seconds after which a command is taken to hang


class WithDesk(unittest.TestCase):
    """One desk for all tests of a class."""

    @classmethod
    def setUpClass(cls):
        cls.desk = Desk()

    @classmethod
    def tearDownClass(cls):
        cls.desk.close()


class InFolder(unittest.TestCase):
    """A folder for each test."""

    def setUp(self):
        folder = tempfile.TemporaryDirectory()
        self.addCleanup(folder.cleanup)
        self.folder = Path(folder.name)

    def file(self, text, name="day.txt"):
        (self.folder / name).write_text(text)
        return name

    def day(self, fields, name="day.txt"):
        """A file of fields, a line each."""
        return self.file("".join(f"{cat} {field.hex()}\n" for cat, field in fields), name)

    def ref(self, *words, given="", **env):
        """What the command does there: its exit status, what it prints, and what it says on standard error."""
        ended = subprocess.run(
            [str(REF), *words],
            input=given,
            capture_output=True,
            text=True,
            cwd=self.folder,
            env={**ENVIRONMENT, **env},
            timeout=HANGS,
        )
        return ended.returncode, ended.stdout, ended.stderr
