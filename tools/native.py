#!/usr/bin/env python3
"""native.py [--module] PROGRAM..: builds proved programs for this machine into target/native, for comparisons over many files
(tools/compare target/native/dump ..); tools/bench and tools/long-files take the reader's library from here.

The kit compiles for x86-64. There its own program and archive are taken: `rt run` in crates/PROGRAM, `rt lib` in crates/export.
Elsewhere, and with --module, the module that the kit hands to its clang is taken and compiled for the machine at hand with the same
optimisations. The code is then not the one that the kit links, so the gate runs none of these.

With today's kit the second way was tried on x86-64 alone. It was last used elsewhere (Arm) with an older kit, whose programs
asked for nothing beyond the C library; today's also ask for functions of KIT/c and for a test of the processor, which are of x86-64:
on another machine link your own in their place. The library asks for neither."""

import os
import pathlib
import platform
import re
import shutil
import subprocess
import sys
import tempfile

ROOT = pathlib.Path(__file__).resolve().parent.parent
BUILT = ROOT / "target/native"
MACHINE = platform.machine()
KITS = "x86_64"  # the machine that the kit compiles for


def kit():
    """The kit's folder: rt finds it alike."""
    command = shutil.which("rt") or sys.exit("native.py: no command rt")
    return pathlib.Path(command).resolve().parent.parent


def rt(command, crate, *words):
    """A command of rt in a crate's folder; what it says goes to standard error."""
    given = ROOT / "crates" / crate / "stdin"
    with open(given if given.exists() else os.devnull, "rb") as stdin:
        done = subprocess.run([command, *words], cwd=ROOT / "crates" / crate, stdin=stdin, stdout=subprocess.DEVNULL)
    if done.returncode:
        sys.exit(f"native.py: rt {' '.join(words)} in crates/{crate} ended with {done.returncode}")


def overlay(folder):
    """A kit like the one at hand, but with a clang that leaves a copy of each module that it is given."""
    home, own = kit(), folder / "kit"
    for part in ("bin", "toolchain/bin"):
        (own / part).mkdir(parents=True)
    for path in home.iterdir():
        if path.name not in ("bin", "toolchain"):
            (own / path.name).symlink_to(path)
    for path in (home / "bin").iterdir():
        if path.name in ("rt", "rtlib.py"):  # these seek the kit from where they stand
            shutil.copy(path, own / "bin")
        else:
            (own / "bin" / path.name).symlink_to(path)
    (own / "toolchain/lib").symlink_to(home / "toolchain/lib")
    for path in (home / "toolchain/bin").iterdir():
        if path.name != "clang":
            (own / "toolchain/bin" / path.name).symlink_to(path)
    clang = own / "toolchain/bin/clang"
    clang.write_text(
        f'#!/bin/sh\nfor w in "$@"; do case $w in *.bc) cp "$w" {folder}/module.bc ;; esac; done\nexec {home}/toolchain/bin/clang "$@"\n'
    )
    clang.chmod(0o755)
    return own


def native_object(folder, crate, word):
    """What a command of rt compiles in a crate's folder, compiled for this machine."""
    out = ROOT / "crates" / crate / "out"
    for name in (crate, f"{crate}.o", f"lib{crate}.a"):
        (out / name).unlink(missing_ok=True)  # what is up to date is not compiled again
    rt(overlay(folder) / "bin/rt", crate, word)
    clang, text, made = kit() / "toolchain/bin/clang", folder / "module.ll", folder / "module.o"
    subprocess.run(
        [clang, "--target=x86_64-unknown-linux-gnu", "-O0", "-Xclang", "-disable-llvm-passes", "-S", "-emit-llvm"]
        + ["-x", "ir", folder / "module.bc", "-o", text],
        check=True,
    )
    module = re.sub(r"^target (triple|datalayout).*\n", "", text.read_text(), flags=re.M)
    text.write_text(re.sub(r'"(target-cpu|target-features|tune-cpu)"="[^"]*"', "", module))
    target = f"--target={MACHINE}-unknown-linux-gnu"
    subprocess.run([clang, target, "-O3", "-fPIE", "-Wno-override-module", "-x", "ir", "-c", text, "-o", made], check=True)
    return made


def library(folder, by_module=MACHINE != KITS):
    """The reader's library, to be linked into a program of this machine."""
    if by_module:
        return native_object(folder, "export", "lib")
    rt("rt", "export", "lib")
    return ROOT / "crates/export/out/libexport.a"


def program(name, by_module=MACHINE != KITS):
    BUILT.mkdir(parents=True, exist_ok=True)
    if not by_module:
        rt("rt", name, "run")
        shutil.copy(ROOT / "crates" / name / "out" / name, BUILT / name)
        return
    with tempfile.TemporaryDirectory() as folder:
        made = native_object(pathlib.Path(folder), name, "run")
        archives = sorted((kit() / "c").glob("lib*.a")) if MACHINE == KITS else []
        subprocess.run(["cc", made, *archives, "-o", BUILT / name], check=True)


if __name__ == "__main__":
    names = [word for word in sys.argv[1:] if word != "--module"]
    if not names or any(word.startswith("-") for word in names):
        sys.exit(__doc__)
    for word in names:
        program(word, MACHINE != KITS or "--module" in sys.argv)
