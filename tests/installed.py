#!/usr/bin/env python3
"""Installs into a folder of its own and uses what is there, from another folder and without the repository: the command, the module, and for C the
archive, by what its pkg-config file says. One figure.

Where there is no pkg-config, the file is read here. On another processor than x86-64, or without a C compiler, the C program is not built: tests/c/run
has it built by the kit there.
"""
import os
import platform
import re
import shutil
import subprocess
import sys
import tempfile
from pathlib import Path

from reference import sheet
from sheets import WORKED

ROOT = Path(__file__).resolve().parent.parent
FILES = ["bin/ref", "bin/refdesk", "include/refdesk.h", "lib/librefdesk.a", "lib/pkgconfig/refdesk.pc", "share/doc/paltinoma/SPARE.md"]
MODULE = "import paltinoma; desk = paltinoma.Desk(); print(desk.program, desk.sheet(48, bytes.fromhex('062806010000')), end='')"


def told(folder, *command, **env):
    """What a command prints. None of the repository's folders is on its paths."""
    known = {name: value for name, value in os.environ.items() if name not in ("REFDESK", "PYTHONPATH", "PKG_CONFIG_PATH")}
    return subprocess.run(command, cwd=folder, env={**known, **env}, stdout=subprocess.PIPE, text=True, timeout=120, check=True).stdout


def same(what, got, wanted):
    if got != wanted:
        sys.exit(f"installed: {what}:\n{got}\nand not\n{wanted}")
    return 1


def flags_in(prefix):
    """What refdesk.pc says, with its variables put in."""
    text = Path(prefix, "lib/pkgconfig/refdesk.pc").read_text()
    for name, value in re.findall(r"^(\w+)=(.*)$", text, re.M):
        text = text.replace(f"${{{name}}}", value)
    return " ".join(re.findall(r"^(?:Cflags|Libs): (.*)$", text, re.M))


def for_c(folder, prefix):
    """The flags, and the example that is built by them."""
    ask = ["pkg-config", "--cflags", "--libs", "refdesk"]
    flags = told(folder, *ask, PKG_CONFIG_PATH=f"{prefix}/lib/pkgconfig") if shutil.which("pkg-config") else flags_in(prefix)
    count = same("refdesk.pc", flags.split(), [f"-I{prefix}/include", f"-L{prefix}/lib", "-lrefdesk"])
    compiler = shutil.which(os.environ.get("CC", "cc"))
    if platform.machine() != "x86_64" or not compiler:
        return count
    subprocess.run([compiler, "-std=c11", "-o", f"{folder}/example", ROOT / "tests/c/example.c", *flags.split()], check=True)
    return count + same("the example", told(folder, f"{folder}/example"), (ROOT / "tests/c/example.out").read_text())


def main():
    wanted = sheet(WORKED)
    with tempfile.TemporaryDirectory() as folder:
        prefix = f"{folder}/prefix"
        subprocess.run(["make", "-s", "-C", ROOT, "install", f"PREFIX={prefix}"], stdout=subprocess.DEVNULL, check=True)
        count = same("files", [name for name in FILES if not Path(prefix, name).exists()], [])
        count += same("ref", told(folder, f"{prefix}/bin/ref", "sheet", f"{WORKED[0]}", WORKED[1:].hex()), wanted)
        program = os.path.realpath(f"{prefix}/bin/refdesk")
        count += same("the module", told(folder, sys.executable, "-c", MODULE, PYTHONPATH=f"{prefix}/lib/paltinoma/python"), f"{program} {wanted}")
        count += for_c(folder, prefix)
    print(f"installed: {count} passed, 0 failed")


if __name__ == "__main__":
    main()
