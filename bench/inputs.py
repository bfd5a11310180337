#!/usr/bin/env python3
"""Writes the scripts that the benchmark runs on, from a fixed seed.

    inputs.py FOLDER [SEED]

Each goes to FOLDER/NAME.script; the same seed gives the same bytes.

    mixed       submissions of 1 to 6 tasks with messages, withdrawals, clock moves, and some of every refusal that a call
                gives (but 2, which the reader forestalls)
    dense       small jobs that compete for the same ticks of a register that is nearly full
    listing     256 rows from six jobs, on machines and links, and then the end
    worst       240 rows of one machine, each earlier than the last, and jobs of 16 tasks and 32 messages over them
    worst-link  120 rows of one link, each earlier than the last, and jobs of 16 tasks and 32 messages over them
    zigzag      241 rows of one tick on one machine, neighbours in time at opposite ends of the register, and jobs of 16
                tasks that pass them all and are refused 8
    ended       128 jobs of which one row has ended and one has not, and clock moves
    tiny        clock moves to the present tick
    refill      a full register, of which each call withdraws a job or submits one
    first       examples/first.script
"""

import pathlib
import sys

ROOT = pathlib.Path(__file__).resolve().parent.parent
sys.dont_write_bytecode = True
sys.path.insert(0, str(ROOT / "tests" / "cases"))

import scripts
from scripts import LIMIT, SEED, clock, submit, task, withdraw


class Dice:
    """Splitmix64, written out so that no release of Python changes a script."""

    def __init__(self, seed):
        self.state = seed

    def below(self, bound):
        self.state = (self.state + 0x9E3779B97F4A7C15) % 2**64
        z = self.state
        z = (z ^ (z >> 30)) * 0xBF58476D1CE4E5B9 % 2**64
        z = (z ^ (z >> 27)) * 0x94D049BB133111EB % 2**64
        return (z ^ (z >> 31)) % bound

    def between(self, least, most):
        return least + self.below(most - least + 1)

    def percent(self, share):
        return self.below(100) < share

    def pick(self, things):
        return things[self.below(len(things))]


def filled(script):
    """The script with refused calls at its end that bring it to the limit: withdrawals of job 0, and a submission of
    job 0 whose figures are as long as need be."""
    left = LIMIT - len(script)
    least = submit(0, [task(1, 0, 0, 0, 0, 0)])
    count, more = divmod(left - len(least), len(withdraw(0)))
    script += withdraw(0) * count
    script += submit(0, [task("1" * (1 + more - more // 2), 0, 0, 0, 0, 0)], sched="1" * (1 + more // 2))
    assert len(script) == LIMIT
    return script


# The inputs.


def runs_of(dice, most):
    """Run times, with at least one machine that is able."""
    runs = [dice.between(1, most) if dice.percent(70) else 0 for _ in range(4)]
    if not any(runs):
        runs[dice.below(4)] = dice.between(1, most)
    return runs


def pairs_of(dice, tasks, share, volume):
    return [(a, b, dice.between(0, volume)) for a, b in scripts.pairs(tasks) if dice.percent(share)]


def mixed(dice):
    script = b""
    now = 0
    number = 0

    def some_tasks(count):
        return [
            task(now + dice.between(300, 900) + 150 * index, dice.between(0, 4), *runs_of(dice, 25))
            for index in range(count)
        ]

    def some_job(most):
        nonlocal number
        number += 1
        count = dice.between(1, most)
        return submit(number, some_tasks(count), pairs_of(dice, count, 35, 6), sched=dice.between(0, 9))

    def refused(kind):
        fresh = number + 20000
        one = some_tasks(1)
        late = now + dice.between(3, 9)
        if kind == 1:
            return submit(dice.pick((0, 65536, 9999999999)), one)
        if kind == 3:
            return submit(fresh, [task(now + 500, 1000001, 4, 0, 0, 9)])
        if kind == 4:
            return submit(fresh, some_tasks(3), dice.pick(([(1, 3, 2), (1, 2, 2)], [(2, 2, 1)], [(1, 4, 1)])))
        if kind == 5:
            return submit(max(1, number - dice.below(6)), one)
        if kind == 6:
            return submit(fresh, one + [task(late, 0, 0, late - now + 1, 0, 0)])
        if kind == 7:
            return submit(fresh, one + [task(late, 20, 0, 2, 0, 1)])
        if kind == 9:
            return withdraw(fresh)
        if kind == 11:
            return clock(max(0, now - 1))
        return clock(1000000000 + dice.between(1, 999))

    while True:
        left = LIMIT - len(script)
        if left < 300:
            return filled(script)
        turn = dice.below(100)
        if turn < 66:
            call = some_job(6 if left > 1200 else 1)
        elif turn < 78:
            call = withdraw(max(1, number - dice.below(6)))
        elif turn < 86:
            now += dice.between(5, 70)
            call = clock(now)
        else:
            call = refused(dice.pick((1, 3, 4, 5, 6, 7, 9, 11, 12)))
        script += call


def dense(dice):
    script = b""
    held = []
    number = 0
    while LIMIT - len(script) >= 250:
        if len(held) > 165:
            script += withdraw(held.pop(dice.below(len(held))))
        number += 1
        window = dice.between(180, 420)
        count = dice.between(1, 2)
        tasks = [task(window, dice.between(1, 9), *runs_of(dice, 9)) for _ in range(count)]
        messages = [(1, 2, dice.between(0, 3))] if count == 2 and dice.percent(60) else []
        script += submit(number, tasks, messages, sched=dice.between(1, 9))
        held.append(number)
    return script


def listing(dice):
    script = b""
    for number in range(1, 7):
        tasks = []
        for index in range(16):
            runs = [0] * 4
            runs[index % 4] = dice.between(100, 999)
            tasks.append(task(999999999, dice.between(1, 999), *runs))
        # Three tasks in a row are on three machines, so each of these messages takes a row.
        ends = [(b - step, b) for b in range(2, 17) for step in (3, 2, 1) if b > step and (step < 3 or b > 13)]
        messages = [(a, b, dice.between(1, 300)) for a, b in ends] if number < 6 else []
        assert len(messages) in (0, 32)
        script += submit(60000 + number, tasks, messages, sched=900000 + dice.below(99999))
    return script


def worst(dice):
    script = b""
    # Rows of 3 ticks and 1 tick between them, from late to early: a pass over them moves a search by one row.
    for number in range(1, 241):
        script += submit(number, [task(9999, 1 + 4 * (240 - number), 3, 0, 0, 0)])
    ends = [(a, 14) for a in (1, 2, 3)] + [(a, 15) for a in range(1, 15)] + [(a, 16) for a in range(1, 16)]
    for number in range(241, 267):
        tasks = [task(9999, 0, 5, 90, 90, 90) for _ in range(16)]
        script += submit(number, tasks, [(a, b, dice.between(1, 9)) for a, b in ends], sched=1)
        script += withdraw(number)
    return script


def worst_link(dice):
    script = b""
    # Fifteen senders on machine 1, the last one first, and their messages to machine 2: rows of 2 ticks and 2 ticks
    # between them, from late to early within a job and from job to job.
    for number in range(1, 9):
        tasks = [task(9900 - index, 4, 1, 0, 0, 0) for index in range(15)] + [task(9999, 0, 0, 1, 0, 0)]
        script += submit(number, tasks, [(a, 16, 1) for a in range(1, 16)], sched=500 + 60 * (8 - number))
    # Senders that end just before the earliest of these rows, so that each message has to pass them all.
    ends = [(a, b) for b in range(9, 17) for a in (1, 3, 5, 7)]
    for number in range(9, 44):
        tasks = [task(9999, 0, 1, 0, 0, 0) for _ in range(8)] + [task(9999, 0, 0, 1, 0, 0) for _ in range(8)]
        script += submit(number, tasks, [(a, b, dice.between(5, 9)) for a, b in ends], sched=496)
    return script


def zigzag(dice):
    slots = list(range(0, 241, 2)) + list(range(239, 0, -2))
    script = b"".join(submit(number, [task(9999, slot, 1, 0, 0, 0)]) for number, slot in enumerate(slots, 1))
    number = len(slots)
    while True:
        number += 1
        more = submit(number, [task(9999, 0, 1, 0, 0, 0) for _ in range(16)])
        if len(script) + len(more) > LIMIT:
            return script
        script += more


def ended(dice):
    script = b""
    for number in range(1, 129):
        script += submit(number, [task(9999, 0, 1, 0, 0, 0), task(999999999, 0, 0, 900000, 0, 0)])
    tick = 200
    while len(script) + 20 <= LIMIT:
        script += clock(tick)
        tick += dice.below(2)
    return script


def tiny(_):
    return clock(0) * (LIMIT // len(clock(0)))


def refill(dice):
    def some_job(number):
        runs = [0] * 4
        runs[dice.below(4)] = dice.between(1, 9)
        return submit(number, [task(99999, dice.below(3000), *runs)])

    held = list(range(1, 257))
    script = b"".join(some_job(number) for number in held)
    number = len(held)
    while True:
        number += 1
        more = withdraw(held.pop(dice.below(len(held)))) + some_job(number)
        if len(script) + len(more) > LIMIT:
            return script
        script += more
        held.append(number)


def first(_):
    return (ROOT / "examples" / "first.script").read_bytes()


INPUTS = {
    "mixed": mixed,
    "dense": dense,
    "listing": listing,
    "worst": worst,
    "worst-link": worst_link,
    "zigzag": zigzag,
    "ended": ended,
    "tiny": tiny,
    "refill": refill,
    "first": first,
}


def write(folder, seed=SEED):
    """Writes every input to the folder; their names and paths."""
    paths = {}
    for place, (name, make) in enumerate(INPUTS.items()):
        paths[name] = pathlib.Path(folder) / f"{name}.script"
        paths[name].write_bytes(make(Dice(seed + place)))
    return paths


def main():
    if len(sys.argv) not in (2, 3):
        sys.exit(__doc__)
    for name, path in write(sys.argv[1], int(sys.argv[2]) if len(sys.argv) == 3 else SEED).items():
        print(name, path.stat().st_size)


if __name__ == "__main__":
    main()
