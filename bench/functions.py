#!/usr/bin/env python3
"""Builds the static library of the register, with its main functions kept out of line if that is asked for.

The compiler puts nearly the whole register into one function. As code grows it may stop doing so, and large values that
were never copied then are. So bench/run --apart measures the same proved code with the functions of MAIN kept apart. They
are marked in the compiler's own intermediate code: `rt` runs from a copy of its kit, all links but for `rt` itself, which
goes by its own place, and the compiler, which is this file.
"""

import os
import pathlib
import re
import shutil
import subprocess
import sys
import tempfile

MAIN = """script::run_calls script::calls::called script::acts::next_act script::replies::put_reply script::listing::put_listing
 script::listing::put_rows admission::submit admission::tested admission::judged admission::join
 timetable::Timetable::withdraw timetable::Timetable::advance timetable::Timetable::take_out placement::place::place
 drcd::choice::choose drcd::Scene::attempt drcd::Scene::try_inputs placement::append::append drcd::order::next_ready
 timeline::line::Timeline::least_free timeline::line::Timeline::least_beside timeline::line::Timeline::insert
 screening::screened texts::forms::read_form""".split()

COMPILER = "REGISTER_BENCH_COMPILER"  # the variable that tells this file where the compiler is
HEAD = re.compile(r'(?m)^(define .*?@(?:"([^"\n]+)"|([\w.]+))\(.*\)) (.*\{)$')


def marked(code):
    """The intermediate code with the functions of MAIN marked."""
    found = set()

    def mark(head):
        name = (head[2] or head[3]).split("::<")[0]  # of a generic function each instance
        if name not in MAIN:
            return head[0]
        found.add(name)
        return f"{head[1]} noinline {head[4]}"

    code = HEAD.sub(mark, code)
    missing = [name for name in MAIN if name not in found]
    if missing:
        sys.exit(f"bench/functions.py: not in the archive: {' '.join(missing)}")
    return code


def compile(words):
    """Calls the compiler, on marked code where the code is the register's."""
    compiler = os.environ[COMPILER]
    if "module.bc" in words:
        code = pathlib.Path("module.ll")
        plain = ["-x", "ir", "module.bc", "-S", "-emit-llvm", "-Xclang", "-disable-llvm-passes", "--no-default-config"]
        subprocess.run([compiler, *plain, "--target=x86_64-unknown-linux-gnu", "-o", code], check=True)
        code.write_text(marked(code.read_text()))
        words = [str(code) if word == "module.bc" else word for word in words]
    os.execv(compiler, [compiler, *words])


def kit_apart(kit, folder):
    """A copy of the kit in the folder: links, but for rt and the compiler. Answers where its rt is."""
    tools, commands = pathlib.Path("toolchain/bin"), pathlib.Path("bin")
    own = [*reversed(tools.parents), tools, commands]  # the folders that are not links
    for inner in own:
        (folder / inner).mkdir(parents=True, exist_ok=True)
        for entry in (kit / inner).iterdir():
            if inner / entry.name not in own:
                (folder / inner / entry.name).symlink_to(entry)
    for name in ("rt", "rtlib.py"):
        (folder / commands / name).unlink()
        shutil.copy(kit / commands / name, folder / commands / name)
    compiler = folder / tools / "clang"
    compiler.unlink()
    real, own_file = (kit / tools / "clang").resolve(), pathlib.Path(__file__).resolve()
    compiler.write_text(f'#!/bin/sh\n{COMPILER}="{real}" exec "{sys.executable}" "{own_file}" "$@"\n')  # it is called with no environment
    compiler.chmod(0o755)
    return folder / commands / "rt"


def archive(root):
    return root / "crates" / "exports" / "out" / "libexports.a"


def build(root, apart):
    """Writes the archive anew, and says whether it could."""
    rt = pathlib.Path(shutil.which("rt")).resolve()
    archive(root).unlink(missing_ok=True)
    with tempfile.TemporaryDirectory(prefix="register-bench-kit-") as folder:
        command = kit_apart(rt.parent.parent, pathlib.Path(folder) / "kit") if apart else rt
        ran = subprocess.run([command, "lib"], cwd=root / "crates" / "exports", stdout=subprocess.DEVNULL)
    return ran.returncode == 0 and archive(root).is_file()


if __name__ == "__main__":
    compile(sys.argv[1:])
