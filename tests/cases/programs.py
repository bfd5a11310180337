"""The programs that tests/soak, bench/run and bench/slowest run: the register, and the same in plain Rust."""

import collections
import os
import pathlib
import re
import shutil
import subprocess
import sys

from scripts import ROOT

REGISTER = ROOT / "crates" / "register" / "out" / "register"
BASELINE = ROOT / "bench" / "baseline"
NUMBERS = re.compile(rb"^(answer|refused)=(\d+)$", re.MULTILINE)


def stop(text):
    """Ends the run with a message, after the name of the script that was called."""
    sys.exit(f"{os.path.relpath(sys.argv[0], ROOT)}: {text}")


def tool(name):
    """The path of a command that has to be there."""
    return shutil.which(name) or stop(f"{name} is not there")


def add_register(reading):
    """Lets the caller name another register than the one that is built here."""
    reading.add_argument("--register", type=pathlib.Path, default=REGISTER)


def built(register):
    """The whole path of the register, which has to be built."""
    if not register.is_file():
        stop(f"{register.name} is not built; 'rt run' in crates/register proves it and writes out/register there")
    return register.resolve()


def build_baseline():
    """Builds the register in plain Rust; its path."""
    command = [tool("cargo"), "build", "--release", "--offline", "--quiet"]
    if subprocess.run(command, cwd=BASELINE).returncode:
        stop("the baseline does not build")
    return BASELINE / "target" / "release" / "register"


def numbers(printed):
    """How often each answer and each reading refusal stands in an output."""
    return collections.Counter((key, int(number)) for key, number in NUMBERS.findall(printed))
