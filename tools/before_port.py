#!/usr/bin/env python3
"""Renames the one name that hides this repository's age from port.py: run it at the top before port.py.

port.py leaves out all of its steps for an older spelling where a proof has a word of today's library bare. The proof of
`lines::join` binds a variable `so_far`, which is such a word. It is bound in that file alone, so another name says the same.
"""

import pathlib

proof = pathlib.Path("crates/lines/proofs/join/Proof.antt")
proof.write_text(proof.read_text().replace("so_far", "gone"))
