#!/usr/bin/env python3
"""Makes a static library from proved crates alone, and keeps the LLVM module that it was compiled from.

usage: python3 tools/staticlib.py CRATE ARCHIVE MODULE

CRATE is a static library of crates.txt. `rt lib` proves it and what it stands on, and makes its archive, but keeps no module; web/build compiles
that module once more, for WebAssembly. So after `rt lib` the kit's `rattle` builds the crate again, over what `rt lib` kept, with a toolchain
folder of links whose clang also keeps the module that it is given: archive and module come from one proof and one lowering. Where the crate
is not proved, `rattle` calls no clang, and nothing is made.

With LIBRARIES_PROVED=rt-ci in the environment the libraries in the crates' out/ are those that `rt ci` just made, in a checkout that had none
before: they are taken as they are, and only CRATE is proved again. (`rt lib` would prove them all, since it takes nothing from `rt ci`.)
"""

import importlib.machinery
import importlib.util
import os
import shlex
import shutil
import subprocess
import sys
import tempfile

ROOT = os.path.dirname(os.path.dirname(os.path.realpath(__file__)))


def fail(why):
    print(f"staticlib: {why}", file=sys.stderr)
    sys.exit(1)


def kit():
    """Returns the kit's folder, and its module that knows the words by which `rt` calls `rattle`."""
    rt = shutil.which("rt") or fail("the Rattle toolchain (rt) is not installed")
    folder = os.path.dirname(os.path.dirname(os.path.realpath(rt)))
    sys.dont_write_bytecode = True
    loader = importlib.machinery.SourceFileLoader("rtlib", f"{folder}/bin/rtlib.py")
    rtlib = importlib.util.module_from_spec(importlib.util.spec_from_loader("rtlib", loader))
    loader.exec_module(rtlib)
    return folder, rtlib


def keeping(toolchain, to, module):
    """Makes a folder of links that is this toolchain, but for a clang that keeps the module."""
    os.makedirs(f"{to}/bin")
    for name in os.listdir(toolchain):
        if name != "bin":
            os.symlink(f"{toolchain}/{name}", f"{to}/{name}")
    for name in os.listdir(f"{toolchain}/bin"):
        if name != "clang":
            os.symlink(f"{toolchain}/bin/{name}", f"{to}/bin/{name}")
    keep = f'[ ! -e module.bc ] || cp module.bc {shlex.quote(module)} || exit 1'
    with open(f"{to}/bin/clang", "w", encoding="utf-8") as clang:
        clang.write(f'#!/bin/sh\n{keep}\nexec {shlex.quote(f"{toolchain}/bin/clang")} "$@"\n')
    os.chmod(f"{to}/bin/clang", 0o755)


def main(name, archive, module):
    folder, rtlib = kit()
    here = f"{ROOT}/crates/{name}"
    is_proved = os.environ.get("LIBRARIES_PROVED") == "rt-ci"
    if not is_proved and subprocess.run(["rt", "lib"], cwd=here).returncode:
        fail(f"{name} is not proved, so nothing was made")
    crate = rtlib.Crate(here, ROOT, {})
    lacking = [it.name for it in crate.below() if not os.path.isdir(it.rlib)]
    if not crate.is_static or lacking:
        fail(f"{name} is no static library" if not crate.is_static else f"there is no library {lacking[0]} in its out/")
    os.chdir(here)
    with tempfile.TemporaryDirectory() as room:
        keeping(f"{folder}/toolchain", f"{room}/toolchain", f"{room}/kept.bc")
        words = crate.words(["--jobs", "2"])
        words += [] if is_proved else rtlib.KEPT
        words += ["--toolchain", f"{room}/toolchain", "--backend", "llvm", "-o", f"{room}/made.a"]
        if crate.call(rtlib.RATTLE, "build", *words) or not os.path.isfile(f"{room}/kept.bc"):
            fail(f"{name} was not built, or no module was kept")
        for one, other in ((f"{room}/kept.bc", module), (f"{room}/made.a", archive)):
            os.makedirs(os.path.dirname(other), exist_ok=True)
            shutil.copyfile(one, f"{other}.new")
            os.replace(f"{other}.new", other)


if __name__ == "__main__":
    if len(sys.argv) != 4:
        fail("usage: python3 tools/staticlib.py CRATE ARCHIVE MODULE")
    main(sys.argv[1], *map(os.path.abspath, sys.argv[2:]))
