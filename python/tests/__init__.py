"""The tests of what stands in python/, against the built program: `python3 -m unittest` in the folder python/.

What they expect comes from tests/reference.py and tests/papers.py of the repository, which share nothing with the
program, or stands here by hand from 01 and the papers.
"""
import sys
from pathlib import Path

ROOT = Path(__file__).resolve().parent.parent.parent
sys.path[:0] = [str(ROOT / "python"), str(ROOT / "tests")]
