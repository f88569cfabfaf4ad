"""Links the proved program again with its functions in other orders: where they stand moves its time, and the order of a link is chance.

The object file is the proved one, and linker and words are the kit's; one word more orders the functions by a seed.
"""
import shutil
import subprocess
from pathlib import Path

from processes import ROOT, WORK

OBJECT = ROOT / "crates" / "capital" / "out" / "capital.o"


def linked(seeds):
    """The program in the order of each seed; none where there is no kit, or its linker does not know the word."""
    rt = shutil.which("rt")
    if not rt or not OBJECT.is_file():
        return []
    kit = Path(rt).resolve().parent.parent
    programs = []
    for seed in seeds:
        tools, program = WORK / "linker", WORK / f"capital.order{seed}"
        shutil.rmtree(tools, ignore_errors=True)
        (tools / "bin").mkdir(parents=True)
        for name in ("lib", "bin/clang", "bin/llvm-ar"):
            (tools / name).symlink_to(kit / "toolchain" / name)
        linker = tools / "bin" / "ld.lld"
        linker.write_text(f"#!/bin/sh\nexec {kit}/toolchain/bin/ld.lld \"$@\" --shuffle-sections='.text.*={seed}'\n")
        linker.chmod(0o755)
        words = [kit / "bin" / "rattle-link", "--target", "x86_64-unknown-linux-gnu", "--toolchain", tools, "-o", program, OBJECT, *(kit / "c" / f"lib{name}_c.a" for name in ("os", "libc"))]
        if subprocess.run([str(word) for word in words], stdout=subprocess.DEVNULL, stderr=subprocess.DEVNULL, check=False).returncode:
            return []
        programs.append(program)
    return programs
