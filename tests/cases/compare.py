#!/usr/bin/env python3
"""Runs a program on every case and reports where its output differs.

    compare.py PROGRAM [CASES]

CASES is the container written by make.py; without it, the file `cases` beside
this script. The end is 0 if no case differs, else 1.
"""

import pathlib
import subprocess
import sys


def parts(data):
    """The cases of a container, each as script and output."""
    place = 0

    def part(key):
        nonlocal place
        end = data.index(b"\n", place)
        line = data[place:end]
        count = int(line[len(key) :])
        if line != key + b"%d" % count or end + 1 + count > len(data):
            raise ValueError(f"bad container at byte {place}")
        place = end + 1 + count
        return data[end + 1 : place]

    while place < len(data):
        yield part(b"script="), part(b"output=")


def short(data, most=300):
    text = data.decode("utf-8", "backslashreplace")
    return repr(text if len(text) <= most else "... " + text[-most:])


def main():
    if len(sys.argv) not in (2, 3):
        sys.exit(__doc__)
    program = sys.argv[1]
    source = pathlib.Path(sys.argv[2]) if len(sys.argv) == 3 else pathlib.Path(__file__).with_name("cases")
    count = different = 0
    for script, due in parts(source.read_bytes()):
        count += 1
        ran = subprocess.run([program], input=script, stdout=subprocess.PIPE, timeout=60)
        if ran.stdout != due:
            different += 1
            print(f"case {count} differs (ended with {ran.returncode})")
            print("  script", short(script))
            print("  due   ", short(due))
            print("  given ", short(ran.stdout))
    print(f"{count} cases, {different} differ")
    sys.exit(1 if different else 0)


if __name__ == "__main__":
    main()
