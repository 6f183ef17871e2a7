#!/usr/bin/env python3
"""Holds bin/run to what its head says: through a link, without `rt`, with a program that is not built yet, and with none; one figure."""
import os
import shutil
import subprocess
import sys
import tempfile
from pathlib import Path

from reference import sheet
from sheets import WORKED
from started import RUN

EXAMPLE = b"the crate's own example\n"  # the crate's stdin

# In the place of rt: it builds by taking the program that is there. It says what it was asked, where, and what it was given; also on standard output, where
# nothing of it may get to.
BUILDS = f"""#!/bin/sh
[ "$1" = run ] || exec {shutil.which("rt")} "$@"
echo "rt $* in $(basename "$PWD")" >&2
cat >&2
echo "what the program writes of the example"
mkdir -p out
cp {RUN.parent.parent}/target/bin/listing out/listing
"""


def ran(path, *words, **env):
    return subprocess.run([str(path), *words], input=WORKED, capture_output=True, env={**os.environ, **env}, timeout=600)


def check(what, ended, status, told=b"", said=b""):
    """Its status, all that it told, and a part of what it said on standard error."""
    right = (ended.returncode, ended.stdout) == (status, told) and said in ended.stderr and bool(said) == bool(ended.stderr)
    if not right:
        sys.exit(f"bin/run {what}: {ended}")
    return 1


def unbuilt(folder):
    """A copy of the repository's outside, with nothing built."""
    (folder / "bin").mkdir()
    (folder / "crates/listing/src").mkdir(parents=True)
    (folder / "crates/listing/src/main.rt").touch()
    (folder / "crates/listing/stdin").write_bytes(EXAMPLE)
    return shutil.copy(RUN, folder / "bin/run")


def paths(folder):
    """A folder with the tools that bin/run needs, but no rt, and one with an rt that builds."""
    tools, kit = folder / "tools", folder / "kit"
    tools.mkdir()
    kit.mkdir()
    for tool in ("bash", "dirname", "readlink", "uname"):
        (tools / tool).symlink_to(shutil.which(tool))
    (kit / "rt").write_text(BUILDS)
    (kit / "rt").chmod(0o755)
    return tools, kit


def main():
    wanted = sheet(WORKED).encode()
    with tempfile.TemporaryDirectory() as name:
        folder = Path(name)
        link, copy = folder / "link", unbuilt(folder)
        tools, kit = paths(folder)
        link.symlink_to(RUN)
        count = check("through a link", ran(link, "listing"), 0, wanted)
        count += check("without a name", ran(RUN), 2, said=b"usage")
        count += check("with no such program", ran(RUN, "nothing"), 2, said=b"no program nothing")
        count += check("with no such file", ran(RUN, f"{name}/nothing"), 2, said=b"no program")
        count += check("without rt", ran(copy, "listing", PATH=str(tools)), 127, said=b"no 'rt' on the PATH")
        built = ran(copy, "listing", PATH=f"{kit}:{os.environ['PATH']}")
        count += check("before it is built", built, 0, wanted, b"not built yet")
        count += check("when it is built", ran(copy, "listing"), 0, wanted)
        assert b"rt run in listing\n" + EXAMPLE in built.stderr and WORKED not in built.stderr, built
    print(f"bin/run: {count} passed, 0 failed")


if __name__ == "__main__":
    main()
