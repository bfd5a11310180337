"""Scripts of the program `register`, as bytes: the calls, and what everything that makes scripts has to know.

make.py and texts.py beside this file use it, and so do tests/soak, bench/inputs.py and bench/slowest.
"""

import pathlib

ROOT = pathlib.Path(__file__).resolve().parents[2]
SEED = 20050704  # of all that is drawn, unless another one is asked for

# The most bytes of a script, the most tasks and messages of a job, and the most digits of a figure.
LIMIT, TASKS, MESSAGES, DIGITS = 65536, 16, 32, 10

ACTS = (b"act=submit\n", b"act=withdraw\n", b"act=clock\n")


def lines(*fields):
    """Fields given with spaces, as one field a line."""
    return b"".join(f.encode() + b"\n" for part in fields for f in part.split())


def task(deadline, dispatch, *runs):
    """The fields of a task, with spaces: a run time for each machine."""
    return " ".join([f"deadline={deadline} dispatch={dispatch}", *(f"run={run}" for run in runs)])


def submit(job, tasks, messages=(), sched=0):
    fields = [f"act=submit job={job} sched={sched} tasks={len(tasks)}", *tasks, f"messages={len(messages)}"]
    fields += [f"from={a} to={b} volume={v}" for a, b, v in messages]
    return lines(*fields)


def withdraw(job):
    return lines(f"act=withdraw job={job}")


def clock(tick):
    return lines(f"act=clock tick={tick}")


def pairs(tasks):
    """The ends of every message that a job of so many tasks may have, in the order in which they have to stand."""
    return [(a, b) for b in range(2, tasks + 1) for a in range(1, b)]


def in_order(ends):
    """Ends of messages in the order in which they have to stand: by receiver, then by sender."""
    return sorted(ends, key=lambda both: both[::-1])


def examples():
    """The scripts of examples/, each of which has its output beside it."""
    return sorted((ROOT / "examples").glob("*.script"))
