#!/usr/bin/env python3
"""Writes the job texts that the program `roundtrip` reads to standard output, one after the other.

    texts.py > ../../crates/roundtrip/stdin

The examples A, H and K; figures of one to ten digits, the least and the largest of each; the shortest and the longest
text; and, with figures drawn by a fixed seed, each count of tasks and each count of messages at least once.
tests/generated compares that file with what this writes.
"""

import random
import sys

from scripts import DIGITS, MESSAGES, SEED, TASKS, submit, task


def text(job, tasks, messages=(), sched=0):
    """A job text: what stands after the act line of its submission."""
    return submit(job, tasks, messages, sched).partition(b"\n")[2]


def alike(figure, tasks, messages):
    """A job whose every figure is the same."""
    return text(figure, [task(*[figure] * 6)] * tasks, [(figure,) * 3] * messages, figure)


def drawn(dice, tasks, messages):
    def figure():
        return dice.randrange(10 ** dice.randint(1, DIGITS))

    each = [task(*(figure() for _ in range(6))) for _ in range(tasks)]
    return text(figure(), each, [(figure(), figure(), figure()) for _ in range(messages)], figure())


def texts():
    yield text(7, [task(10, 1, 4, 5, 0, 2)])
    yield text(8, [task(20, 1, 4, 0, 0, 0), task(16, 1, 0, 5, 0, 0)], [(1, 2, 3)])
    three = [task(10, 0, 4, 0, 0, 0), task(20, 0, 2, 0, 0, 0), task(30, 0, 0, 5, 0, 0)]
    yield text(9, three, [(1, 3, 2), (2, 3, 2)])
    for digits in range(1, DIGITS + 1):
        yield alike(10 ** (digits - 1), 2, 2)
        yield alike(10**digits - 1, 2, 2)
    for figure in (0, 10**DIGITS - 1):
        for tasks in (1, TASKS):
            for messages in (0, MESSAGES):
                yield alike(figure, tasks, messages)
    dice = random.Random(SEED)
    for messages in range(MESSAGES + 1):
        yield drawn(dice, 1 + messages % TASKS, messages)


if __name__ == "__main__":
    sys.stdout.buffer.write(b"".join(texts()))
