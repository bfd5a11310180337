"""The fenced blocks of a document that a machine can hold to something.

`console`: lines that start with `$ ` are commands, run by sh in the root of the tree, and the lines below each are what
it has to print. A line `...` stands for any lines. A command that ends in a backslash goes on in the next line, and one
has to end with status 0. `console slow`: the same, but run only if asked for.

`file=PATH`: the block is the whole of a file. `file=PATH lines=A-B`: the block is those lines of it.
"""

import difflib
import os
import re
import signal
import subprocess

from docs_check.lists import split_at

ANY = "..."
PATIENCE, SLOW_PATIENCE = 120, 7200  # seconds for a command
REGISTER = "crates/register/out/register"
BUILDING = "cd crates/register && rt run"  # it runs what it has built, here on no input


def commands(block):
    """The commands of a console block, each with its line and the lines that it has to print."""
    found = []
    for number, line in enumerate(block.lines, block.line + 1):
        if found and found[-1][1].endswith("\\") and not found[-1][2]:
            found[-1][1] = found[-1][1][:-1] + line
        elif line.startswith("$ "):
            found.append([number, line[2:], []])
        elif found:
            found[-1][2].append(line)
    return found


def matches(due, printed):
    """Whether printed lines are those that are due."""
    parts = split_at([ANY], due)
    if len(parts) == 1:
        return due == printed
    first, last = parts[0], parts[-1]
    end = len(printed) - len(last)
    if end < len(first) or printed[: len(first)] != first or printed[end:] != last:
        return False
    return all_found(parts[1:-1], printed[len(first) : end])


def all_found(parts, lines):
    """Whether runs of lines stand in the lines, one after the other."""
    place = 0
    for part in parts:
        starts = range(place, len(lines) - len(part) + 1)
        start = next((at for at in starts if lines[at : at + len(part)] == part), None)
        if start is None:
            return False
        place = start + len(part)
    return True


def run(command, root, patience):
    """What a command prints, and its exit status, which is nothing if it takes too long."""
    child = subprocess.Popen(
        ["sh", "-c", command],
        cwd=root,
        stdin=subprocess.DEVNULL,
        stdout=subprocess.PIPE,
        stderr=subprocess.STDOUT,
        start_new_session=True,
    )
    try:
        printed, _ = child.communicate(timeout=patience)
    except subprocess.TimeoutExpired:
        os.killpg(child.pid, signal.SIGKILL)
        printed, _ = child.communicate()
        return printed.decode(errors="backslashreplace"), None
    return printed.decode(errors="backslashreplace"), child.returncode


def difference(due, given, most=30):
    """Two runs of lines side by side, as lines to print below a finding."""
    lines = list(difflib.unified_diff(due, given, "due", "given", lineterm=""))
    return "".join(f"\n    {line}" for line in [*lines[:most], *(["..."] if len(lines) > most else [])])


def wrong_command(command, due, root, patience):
    """What is wrong with what a command does, or nothing."""
    printed, status = run(command, root, patience)
    if status is None:
        return f"has not ended after {patience} seconds: {command}"
    if not matches(due, printed.splitlines()):
        return f"prints something else: {command}{difference(due, printed.splitlines())}"
    return f"ends with status {status}: {command}" if status else ""


def wrong_build(command, root):
    """Builds the register if a command needs it and it is not there. What is wrong, or nothing."""
    if REGISTER not in command or (root / REGISTER).is_file():
        return ""
    printed, status = run(BUILDING, root, SLOW_PATIENCE)
    return "" if status == 0 else f"the register is not built: {printed[-300:]}"


def check_console(name, block, names, report, slow):
    """Runs a console block. Of one that is slow and not asked for, the commands have to name what there is."""
    root = names.tree.root
    asked = slow or "slow" not in block.info
    if not block.lines or not block.lines[0].startswith("$ "):
        report.note(f"{name}:{block.line}", "a console block has to begin with a command, after `$ `")
    for line, command, due in commands(block):
        if asked:
            patience = SLOW_PATIENCE if "slow" in block.info else PATIENCE
            wrong = wrong_build(command, root) or wrong_command(command, due, root, patience)
        else:
            wrong = "" if names.is_command(command) else f"no such command: {command}"
        report.note(f"{name}:{line}", wrong)


def wrong_file(block, root):
    """What is wrong with a block that shows a file, or nothing."""
    path = root / block.setting("file")
    if not path.is_file():
        return f"no such file: {block.setting('file')}"
    due = path.read_text(errors="backslashreplace").splitlines()
    if block.setting("lines"):
        part = re.fullmatch(r"(\d+)-(\d+)", block.setting("lines"))
        if not part or not 1 <= int(part[1]) <= int(part[2]) <= len(due):
            return f"no such lines: {block.setting('lines')} of {len(due)}"
        due = due[int(part[1]) - 1 : int(part[2])]
    return "" if block.lines == due else f"is not {block.setting('file')}{difference(due, block.lines)}"


def check_blocks(document, names, report, slow):
    """Checks every fenced block of a document that is a console or shows a file."""
    for block in document.blocks:
        if not block.closed:
            report.note(f"{document.name}:{block.line}", "this fence has no end")
        if block.info[:1] == ["console"]:
            check_console(document.name, block, names, report, slow)
        if block.setting("file"):
            report.note(f"{document.name}:{block.line}", wrong_file(block, names.tree.root))
