#!/usr/bin/env python3
"""Moves what follows from a crate's definitions out of its specs/, for the crates whose wrong programs are definitions.

A must-fail edit of a definition counts only where all that it breaks stands in proofs/: there a theorem that falls refuses it, and
in specs/ the text around that theorem is unread. Run it once, at the top, behind respell.py. No statement changes.
"""

import pathlib
import re
import subprocess

MOVED = {it: "Laws" for it in ("codec", "papers", "scope", "longest", "guess", "interface")} | {"demands": "Kept"}


def main():
    for crate, module in MOVED.items():
        specs, proofs = (pathlib.Path("crates", crate, it) for it in ("specs", "proofs"))
        proofs.mkdir(exist_ok=True)
        for it in (specs / module, specs / f"{module}.antt"):
            subprocess.run(["git", "mv", it, proofs], check=True)
        lib = specs / "Lib.antt"
        lib.write_text(lib.read_text().replace(f"pub mod {module}\n", ""))
        (proofs / "Lib.antt").write_text(f"pub mod {module}\n")
    path = re.compile("|".join(rf"\bRattle\.{crate}\.specs\.{module}\b" for crate, module in MOVED.items()))
    for file in pathlib.Path("crates").rglob("*"):
        if file.suffix in (".antt", ".rt") and "out" not in file.parts:
            text = file.read_text()
            turned = path.sub(lambda it: it[0].replace(".specs.", ".proofs."), text)
            if turned != text:
                file.write_text(turned)


if __name__ == "__main__":
    main()
