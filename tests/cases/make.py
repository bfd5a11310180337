#!/usr/bin/env python3
"""Writes the cases of the program `register` to standard output.

    make.py > ../../crates/cases/stdin    the container, which the program `cases` reads
    make.py --names          the number and name of each case, one a line

The container holds, for each case in a row: `script=N`, a line feed, N bytes
of script, `output=M`, a line feed, M bytes of the output that is due. No
program is run to find an output: each is composed here, by hand or from the
kind of damage done to the script, and the scripts of examples/ have theirs
beside them. tests/generated compares the container with what this writes.
"""

import sys

import scripts
from scripts import ACTS, LIMIT, clock, lines, submit, task, withdraw

cases = []


def case(name, script, output):
    assert isinstance(script, bytes) and isinstance(output, bytes)
    cases.append((name, script, output))


# What is printed.


def admitted(cost, rows):
    return lines(f"answer=0 task=0 cost={cost} rows={rows}")


def turned_down(number, task=0):
    return lines(f"answer={number} task={task} cost=0 rows=0")


def answer(number):
    return lines(f"answer={number}")


def refused(number):
    return lines(f"refused={number}")


def machine(m, job, task, start, finish):
    return lines(f"machine={m} job={job} task={task} start={start} finish={finish}")


def link(a, b, job, sender, task, start, finish):
    return lines(f"link={a} to={b} job={job} from={sender} task={task} start={start} finish={finish}")


def listing(clock, total, *rows):
    return lines(f"clock={clock} total={total} held={len(rows)}") + b"".join(rows)


# What is read.


def one(job, deadline, dispatch, a, b, c, d, sched=0):
    return submit(job, [task(deadline, dispatch, a, b, c, d)], sched=sched)


# Two beginnings: none at all, and example A admitted.

FRESH = listing(0, 0)
A = one(7, 10, 1, 4, 5, 0, 2)
A_ANSWER = admitted(20, 1)
A_ROW = machine(2, 7, 1, 1, 6)
A_HELD = listing(0, 20, A_ROW)

turn = 0


def reading_refusal(name, number, damaged, tail=b"", both=False):
    """A damaged call. It stands alone or after example A, by turns; `tail`
    follows it and must not be read."""
    global turn
    turn += 1
    if both or turn % 2 == 0:
        case(name, damaged + tail, refused(number) + FRESH)
    if both or turn % 2 == 1:
        case(name + ", after A", A + damaged + tail, A_ANSWER + refused(number) + A_HELD)


def empty_and_single_calls():
    case("empty input", b"", FRESH)
    case("a submission", A, A_ANSWER + A_HELD)
    case("a withdrawal", withdraw(7), answer(9) + FRESH)
    case("a clock move to the present tick", clock(0), answer(0) + FRESH)
    case("a clock move", clock(5), answer(0) + listing(5, 0))


def ledger():
    case("B", one(7, 5, 1, 4, 5, 0, 2), admitted(40, 1) + listing(0, 40, machine(1, 7, 1, 1, 5)))
    case("C", one(7, 2, 1, 4, 5, 0, 2), turned_down(7, 1) + FRESH)
    case("D", one(7, 1, 1, 4, 5, 0, 2), turned_down(6, 1) + FRESH)
    case(
        "E",
        one(7, 5, 1, 4, 5, 0, 2) + one(8, 20, 1, 4, 10, 4, 0),
        admitted(40, 1) + admitted(40, 1) + listing(0, 80, machine(1, 7, 1, 1, 5), machine(2, 8, 1, 1, 11)),
    )
    two = one(1, 100, 1, 4, 0, 0, 0) + one(2, 100, 9, 3, 0, 0, 0)
    two_answers = admitted(40, 1) + admitted(30, 1)
    first, second = machine(1, 1, 1, 1, 5), machine(1, 2, 1, 9, 12)
    case(
        "F",
        two + one(3, 100, 0, 4, 0, 0, 0),
        two_answers + admitted(40, 1) + listing(0, 110, first, machine(1, 3, 1, 5, 9), second),
    )
    case(
        "G",
        two + one(3, 100, 0, 5, 0, 0, 0),
        two_answers + admitted(50, 1) + listing(0, 120, first, second, machine(1, 3, 1, 12, 17)),
    )

    def h(deadline, volume):
        return submit(1, [task(20, 1, 4, 0, 0, 0), task(deadline, 1, 0, 5, 0, 0)], [(1, 2, volume)])

    case(
        "H",
        h(16, 3),
        admitted(90, 3) + listing(0, 90, machine(1, 1, 1, 1, 5), machine(2, 1, 2, 11, 16), link(1, 2, 1, 1, 2, 5, 11)),
    )
    case("I", h(15, 3), turned_down(7, 2) + FRESH)
    case("J", h(16, 0), admitted(60, 2) + listing(0, 60, machine(1, 1, 1, 1, 5), machine(2, 1, 2, 5, 10)))
    case(
        "K",
        submit(1, [task(10, 0, 4, 0, 0, 0), task(20, 0, 2, 0, 0, 0), task(30, 0, 0, 5, 0, 0)], [(1, 3, 2), (2, 3, 2)]),
        admitted(120, 5)
        + listing(
            0,
            120,
            machine(1, 1, 1, 0, 4),
            machine(1, 1, 2, 4, 6),
            machine(2, 1, 3, 12, 17),
            link(1, 2, 1, 1, 3, 4, 8),
            link(1, 2, 1, 2, 3, 8, 12),
        ),
    )
    case("L at 0", A + withdraw(7), A_ANSWER + answer(0) + FRESH)
    case("L at 1", A + clock(1) + withdraw(7), A_ANSWER + answer(0) + answer(10) + listing(1, 20, A_ROW))
    case("L at 6", A + clock(6) + withdraw(7), A_ANSWER + answer(0) + answer(9) + listing(6, 0))


def placing():
    busy = one(1, 100, 0, 10, 0, 0, 0)  # machine 1, 0 to 10, cost 100
    busy_row = machine(1, 1, 1, 0, 10)
    case(
        "equal cost: the earlier start before the lower machine",
        busy + one(2, 100, 0, 4, 0, 4, 0),
        admitted(100, 1) + admitted(40, 1) + listing(0, 140, busy_row, machine(3, 2, 1, 0, 4)),
    )
    case(
        "equal cost and start: the lowest machine",
        one(2, 100, 0, 4, 10, 4, 0),
        admitted(40, 1) + listing(0, 40, machine(1, 2, 1, 0, 4)),
    )
    case(
        "lower cost before the earlier start",
        busy + one(2, 100, 0, 3, 0, 4, 0),
        admitted(100, 1) + admitted(30, 1) + listing(0, 130, busy_row, machine(1, 2, 1, 10, 13)),
    )
    case(
        "the machine of lower cost is late",
        busy + one(2, 12, 0, 3, 0, 4, 0),
        admitted(100, 1) + admitted(40, 1) + listing(0, 140, busy_row, machine(3, 2, 1, 0, 4)),
    )
    case(
        "a sender of later deadline is placed before its receiver",
        submit(1, [task(90, 3, 0, 5, 0, 0), task(50, 2, 0, 5, 0, 0)], [(1, 2, 9)]),
        admitted(40, 2) + listing(0, 40, machine(2, 1, 1, 3, 8), machine(2, 1, 2, 8, 13)),
    )
    case(
        "dispatch times add up in placing order, not by number",
        submit(1, [task(90, 3, 0, 5, 0, 0), task(50, 2, 5, 0, 0, 0)], sched=4),
        admitted(70, 2) + listing(0, 70, machine(1, 1, 2, 6, 11), machine(2, 1, 1, 9, 14)),
    )
    case(
        "the floor counts from the clock",
        clock(100) + one(1, 200, 3, 0, 5, 0, 0, sched=4),
        answer(0) + admitted(20, 1) + listing(100, 20, machine(2, 1, 1, 107, 112)),
    )
    # Messages of two jobs on one link. Job 1: link 1 to 2, 4 to 10. Job 2: task 1
    # runs 4 to 8 on machine 1, so its message of 4 ticks goes from 10 to 14.
    pair = [task(99, 0, 4, 0, 0, 0), task(99, 0, 0, 5, 0, 0)]
    case(
        "a message waits for that of another job",
        submit(1, pair, [(1, 2, 3)]) + submit(2, pair, [(1, 2, 2)]),
        admitted(90, 3)
        + admitted(80, 3)
        + listing(
            0,
            170,
            machine(1, 1, 1, 0, 4),
            machine(1, 2, 1, 4, 8),
            machine(2, 1, 2, 10, 15),
            machine(2, 2, 2, 15, 20),
            link(1, 2, 1, 1, 2, 4, 10),
            link(1, 2, 2, 1, 2, 10, 14),
        ),
    )
    case(
        "the two links between two machines are apart",
        submit(
            1,
            [task(99, 0, 4, 0, 0, 0), task(99, 0, 0, 4, 0, 0), task(99, 0, 0, 4, 0, 0), task(99, 0, 4, 0, 0, 0)],
            [(1, 3, 2), (2, 4, 2)],
        ),
        # 1 to 2 and 2 to 1, both 4 to 8.
        admitted(40 + 16 + 16 + 20 + 40 + 20, 6)
        + listing(
            0,
            152,
            machine(1, 1, 1, 0, 4),
            machine(1, 1, 4, 8, 12),
            machine(2, 1, 2, 0, 4),
            machine(2, 1, 3, 8, 12),
            link(1, 2, 1, 1, 3, 4, 8),
            link(2, 1, 1, 2, 4, 4, 8),
        ),
    )
    # Every link once: task 1 on one machine, task 2 on another, volume 10.
    times = {(1, 2): 2, (1, 3): 3, (1, 4): 1, (2, 3): 1, (2, 4): 4, (3, 4): 2}
    rates = {(1, 2): 5, (1, 3): 8, (1, 4): 6, (2, 3): 7, (2, 4): 9, (3, 4): 5}
    rate = {1: 10, 2: 4, 3: 10, 4: 25}
    for a in range(1, 5):
        for b in range(1, 5):
            if a == b:
                continue
            ends = (min(a, b), max(a, b))
            runs = lambda m: [1 if k == m else 0 for k in range(1, 5)]
            length = 10 * times[ends]
            cost = rate[a] + rate[b] + rates[ends] * length
            rows = sorted([(a, 1, 0, 1), (b, 2, 1 + length, 2 + length)])
            case(
                f"link {a} to {b}",
                submit(1, [task(99, 0, *runs(a)), task(99, 0, *runs(b))], [(1, 2, 10)]),
                admitted(cost, 3)
                + listing(
                    0, cost, *[machine(m, 1, t, s, f) for m, t, s, f in rows], link(a, b, 1, 1, 2, 1, 1 + length)
                ),
            )
    # Fifteen messages into one task. Sender i ends at i; the link is taken two
    # ticks at a time from 1 on.
    case(
        "fifteen messages on one link into one task",
        submit(1, [task(99, 0, 1, 0, 0, 0)] * 15 + [task(99, 0, 0, 0, 0, 1)], [(i, 16, 2) for i in range(1, 16)]),
        admitted(15 * 10 + 15 * 12 + 25, 31)
        + listing(
            0,
            355,
            *[machine(1, 1, i, i - 1, i) for i in range(1, 16)],
            machine(4, 1, 16, 31, 32),
            *[link(1, 4, 1, i, 16, 2 * i - 1, 2 * i + 1) for i in range(1, 16)],
        ),
    )


def submission_refusals():
    runs = (4, 5, 0, 2)
    # 1
    for number in ("0", "65536", "65543", "4294967303", "9999999999"):
        case(f"1: job={number}", A + one(number, 10, 1, *runs), A_ANSWER + turned_down(1) + A_HELD)
    for number in ("1", "65535"):
        case(
            f"job={number} is in range",
            one(number, 10, 1, *runs),
            admitted(20, 1) + listing(0, 20, machine(2, number, 1, 1, 6)),
        )
    # 3
    good = dict(sched=0, deadline=10, dispatch=1, a=4, b=5, c=0, d=2)
    over = {"sched": 1000001, "deadline": 1000000001, "dispatch": 1000001}
    for field in ("sched", "deadline", "dispatch", "a", "b", "c", "d"):
        for figure in (over.get(field, 1000001), 4294967297, 9999999999):
            figures = {**good, field: figure}
            sched = figures.pop("sched")
            case(f"3: {field}={figure}", one(8, *figures.values(), sched=sched), turned_down(3) + FRESH)
    case("3: deadline=0", A + one(8, 0, 1, *runs), A_ANSWER + turned_down(3) + A_HELD)
    for bad in (task(0, 1, *runs), task(9, 1000001, *runs), task(9, 1, 0, 0, 0, 9999999999)):
        case("3: " + bad + " as task 2", submit(8, [task(9, 1, *runs), bad]), turned_down(3) + FRESH)
    case(
        "the greatest figures in range",
        one(8, 1000000000, 1000000, 0, 1000000, 0, 0, sched=1000000),
        admitted(4000000, 1) + listing(0, 4000000, machine(2, 8, 1, 2000000, 3000000)),
    )
    # 4
    three = [task(90, 0, 0, 1, 0, 0)] * 3
    for messages in (
        [(0, 2, 1)],
        [(2, 2, 1)],
        [(3, 2, 1)],
        [(1, 4, 1)],
        [(4, 5, 1)],
        [(1, 0, 1)],
        [(0, 0, 0)],
        [(1, 2, 1001)],
        [(1, 2, 1), (1, 2, 1)],
        [(1, 2, 1), (1, 2, 2)],
        [(1, 3, 1), (1, 2, 1)],
        [(2, 3, 1), (1, 3, 1)],
        [(1, 2, 1), (1, 3, 1), (2, 3, 1001)],
        [(257, 2, 1)],
        [(1, 258, 1)],
        [(4294967297, 2, 1)],
        [(1, 4294967298, 1)],
        [(1, 2, 4294967296)],
        [(9999999999, 2, 1)],
        [(1, 9999999999, 1)],
        [(1, 2, 9999999999)],
    ):
        case(f"4: {messages}", submit(8, three, messages), turned_down(4) + FRESH)
    case(
        "messages in order, volumes 0 and 1000",
        submit(8, three, [(1, 2, 0), (1, 3, 1000), (2, 3, 1)]),
        admitted(12, 3) + listing(0, 12, *[machine(2, 8, i, i - 1, i) for i in (1, 2, 3)]),
    )
    # 5
    case("5: the number is held", A + A, A_ANSWER + turned_down(5) + A_HELD)
    case("the number is free after a withdrawal", A + withdraw(7) + A, A_ANSWER + answer(0) + A_ANSWER + A_HELD)
    case(
        "the number is free after the last finish",
        A + clock(5) + A + clock(6) + one(7, 16, 1, *runs),
        A_ANSWER + answer(0) + turned_down(5) + answer(0) + A_ANSWER + listing(6, 20, machine(2, 7, 1, 7, 12)),
    )
    # 6
    case("6: no machine", A + one(8, 10, 1, 0, 0, 0, 0), A_ANSWER + turned_down(6, 1) + A_HELD)
    case("6: no machine, task 2", submit(8, [task(9, 0, 1, 0, 0, 0), task(9, 0, 0, 0, 0, 0)]), turned_down(6, 2) + FRESH)
    case(
        "6: the lowest of two hopeless tasks, though the other has the earlier deadline",
        submit(8, [task(9, 0, 1, 0, 0, 0), task(9, 0, 0, 10, 11, 0), task(5, 0, 0, 0, 0, 6)]),
        turned_down(6, 2) + FRESH,
    )
    case("6: from the clock", clock(7) + one(8, 10, 0, 4, 0, 0, 0), answer(0) + turned_down(6, 1) + listing(7, 0))
    case(
        "clock and least run time equal to the deadline",
        clock(6) + one(8, 10, 0, 4, 0, 0, 0),
        answer(0) + admitted(40, 1) + listing(6, 40, machine(1, 8, 1, 6, 10)),
    )
    case("7 and not 6: the scheduling time", one(8, 10, 0, 4, 0, 0, 0, sched=1000000), turned_down(7, 1) + FRESH)
    # 7
    case(
        "7: the task at its turn, not the lowest",
        submit(8, [task(9, 9, 9, 0, 0, 0), task(5, 0, 5, 0, 0, 0), task(6, 0, 5, 0, 0, 0)]),
        turned_down(7, 3) + FRESH,
    )
    case(
        "7: the rows tried before are gone",
        A + submit(8, [task(50, 0, 0, 5, 0, 0), task(50, 0, 0, 45, 0, 0)]) + one(8, 50, 0, 0, 5, 0, 0),
        A_ANSWER + turned_down(7, 2) + admitted(20, 1) + listing(0, 40, A_ROW, machine(2, 8, 1, 6, 11)),
    )
    # The order of 1, 3, 4, 5, 6, 7; one fault less each time.
    faulty = lambda job, dispatch, volume, run, deadline: submit(
        job, [task(deadline, dispatch, run, 0, 0, 0), task(50, 0, 0, 3, 0, 0)], [(1, 2, volume)]
    )
    for number, place, figures in (
        (1, 0, (0, 1000001, 1001, 0, 10)),
        (3, 0, (7, 1000001, 1001, 0, 10)),
        (4, 0, (7, 9, 1001, 0, 10)),
        (5, 0, (7, 9, 1000, 0, 10)),
        (6, 1, (8, 9, 1000, 0, 10)),
        (7, 1, (8, 9, 1000, 2, 10)),
        (7, 2, (8, 9, 1000, 2, 11)),
    ):
        case(f"first of several faults: {number}", A + faulty(*figures), A_ANSWER + turned_down(number, place) + A_HELD)
    case(
        "no fault left",
        A + faulty(8, 9, 10, 2, 11),
        # Task 1 9 to 11, its message 11 to 31, task 2 31 to 34: 20 + 100 + 12.
        A_ANSWER
        + admitted(132, 3)
        + listing(0, 152, machine(1, 8, 1, 9, 11), A_ROW, machine(2, 8, 2, 31, 34), link(1, 2, 8, 1, 2, 11, 31)),
    )


def full_register():
    on_1 = task(999, 0, 1, 0, 0, 0)
    on_2 = task(999, 0, 0, 1, 0, 0)
    on_4 = task(999, 0, 0, 0, 0, 1)
    script, output = b"", b""
    for job in range(1, 16):  # machine 1, 0 to 240
        script += submit(job, [on_1] * 16)
        output += admitted(160, 16)
    script += submit(16, [on_2] * 15)  # machine 2, 0 to 15; 255 rows
    output += admitted(60, 15)
    script += submit(17, [on_4] * 2) + submit(17, [on_4])  # 256 rows
    output += turned_down(8) + admitted(25, 1)
    script += submit(18, [on_4]) + submit(18, [task(240, 0, 1, 0, 0, 0)]) + submit(17, [on_4])
    output += turned_down(8) + turned_down(7, 1) + turned_down(5)
    script += withdraw(15) + submit(18, [on_1] * 16) + submit(19, [on_4])  # 224 to 240 anew
    output += answer(0) + admitted(160, 16) + turned_down(8)
    script += clock(14) + submit(19, [on_4] * 2)  # job 17 leaves; one row is free
    output += answer(0) + turned_down(8)
    script += clock(15) + submit(19, [on_4] * 16)  # job 16 leaves; sixteen are free
    output += answer(0) + admitted(400, 16)
    script += submit(20, [on_4]) + clock(240) + submit(20, [on_4])
    output += turned_down(8) + answer(0) + admitted(25, 1)
    case("8: a full register", script, output + listing(240, 25, machine(4, 20, 1, 240, 241)))


def withdrawals_and_clock():
    case("9: nothing held", withdraw(0), answer(9) + FRESH)
    for number in (0, 8, 65543, 65536, 4294967303, 9999999999):
        case(f"9: job={number}", A + withdraw(number), A_ANSWER + answer(9) + A_HELD)
    case("9: withdrawn twice", A + withdraw(7) + withdraw(7), A_ANSWER + answer(0) + answer(9) + FRESH)
    case(
        "10: a row that starts at the clock",
        one(8, 9, 0, 0, 5, 0, 0) + withdraw(8),
        admitted(20, 1) + answer(10) + listing(0, 20, machine(2, 8, 1, 0, 5)),
    )
    begun = submit(8, [task(99, 0, 4, 0, 0, 0), task(99, 20, 4, 0, 0, 0)])
    rows = (machine(1, 8, 1, 0, 4), machine(1, 8, 2, 20, 24))
    case(
        "10: a row that has ended, the other not begun",
        begun + clock(10) + withdraw(8),
        admitted(80, 2) + answer(0) + answer(10) + listing(10, 80, *rows),
    )
    case("a job stays until its last finish", begun + clock(23), admitted(80, 2) + answer(0) + listing(23, 80, *rows))
    case("a job leaves at its last finish", begun + clock(24), admitted(80, 2) + answer(0) + listing(24, 0))
    case(
        "a withdrawal leaves the others, and its span serves again",
        A
        + one(8, 20, 1, 0, 5, 0, 0)
        + one(9, 20, 1, 0, 5, 0, 0)
        + withdraw(8)
        + one(10, 20, 1, 0, 4, 0, 0),
        A_ANSWER * 3
        + answer(0)
        + admitted(16, 1)
        + listing(0, 56, A_ROW, machine(2, 10, 1, 6, 10), machine(2, 9, 1, 11, 16)),
    )
    case("11: below the clock", A + clock(5) + clock(4), A_ANSWER + answer(0) + answer(11) + listing(5, 20, A_ROW))
    case("11: tick=0", clock(1) + clock(0) + clock(1), answer(0) + answer(11) + answer(0) + listing(1, 0))
    for tick in (1000000001, 4294967296, 4294967297, 9999999999):
        case(f"12: tick={tick}", A + clock(tick), A_ANSWER + answer(12) + A_HELD)
    case("the last tick", A + clock(1000000000), A_ANSWER + answer(0) + listing(1000000000, 0))
    case(
        "calls go on after refused ones",
        withdraw(1) + clock(1000000001) + one(0, 10, 1, 4, 5, 0, 2) + A + withdraw(8) + clock(1),
        answer(9) + answer(12) + turned_down(1) + A_ANSWER + answer(9) + answer(0) + listing(1, 20, A_ROW),
    )


def act_lines():
    rest = dict(zip(ACTS, (A[len(ACTS[0]) :], lines("job=7"), lines("tick=3"))))
    for act in ACTS:
        name = act.decode().strip()
        for cut in range(1, len(act)):
            reading_refusal(f"{name} cut after {cut} bytes", 17, act[:cut])
        for cut in range(0, len(act) - 1):
            reading_refusal(f"{name} cut after {cut} bytes, the line ended", 17, act[:cut] + b"\n", rest[act])
        for way, damaged in (
            ("with CR LF", act[:-1] + b"\r\n"),
            ("with CR alone", act[:-1] + b"\r"),
            ("after a blank", b" " + act),
            ("after a line feed", b"\n" + act),
            ("before a blank", act[:-1] + b" \n"),
            ("in upper case", act.upper()),
            ("with an upper key", act.replace(b"act", b"ACT")),
            ("with an upper word", act[:4] + act[4:].capitalize()),
            ("with a letter more", act[:-1] + b"s\n"),
            ("without equals sign", act.replace(b"=", b" ")),
            ("with a blank after the equals sign", act.replace(b"=", b"= ")),
            ("without line feed", act[:-1]),
            ("without key", act[4:]),
            ("with NUL for line feed", act[:-1] + b"\0"),
            ("after a byte order mark", b"\xef\xbb\xbf" + act),
        ):
            assert damaged != act
            reading_refusal(f"{name} {way}", 17, damaged, rest[act])
    for odd in (b"act=look\n", b"act=tally\n", b"act=\n", b"act=1\n", b"act=submit=\n", b"job=7\n", b"tick=3\n"):
        reading_refusal(f"act line {odd!r}", 17, odd, rest[ACTS[0]])
    for odd in (b"\n", b"\r\n", b"\n\n", b" ", b"x", b"\0", b"\xff", b"\x1a", b"0", b"a"):
        reading_refusal(f"bytes {odd!r} where a call is due", 17, odd, both=True)
    case("A, then a good call, then bytes", A + withdraw(7) + b"\n", A_ANSWER + answer(0) + refused(17) + FRESH)
    case("bytes after a withdrawal", withdraw(7) + b"job=7\n", answer(9) + refused(17) + FRESH)
    case("bytes after a clock move", clock(3) + b"tick=4\n", answer(0) + refused(17) + listing(3, 0))
    case("a message more than counted", A + lines("from=1 to=2 volume=3"), A_ANSWER + refused(17) + A_HELD)


# The lines of a job text of two tasks and a message, which would be admitted.

GOOD = [
    (b"job", b"8"),
    (b"sched", b"0"),
    (b"tasks", b"2"),
    (b"deadline", b"90"),
    (b"dispatch", b"1"),
    (b"run", b"4"),
    (b"run", b"5"),
    (b"run", b"0"),
    (b"run", b"2"),
    (b"deadline", b"90"),
    (b"dispatch", b"1"),
    (b"run", b"4"),
    (b"run", b"5"),
    (b"run", b"0"),
    (b"run", b"2"),
    (b"messages", b"1"),
    (b"from", b"1"),
    (b"to", b"2"),
    (b"volume", b"3"),
]
SECOND_TASK = range(9, 15)

END = object()  # the text ends after the damaged line


def ways(key, figure):
    """The damages done to every line: name, number, bytes, and END if nothing follows."""
    other = b"volume" if key != b"volume" else b"to"
    line = lambda text: key + b"=" + text + b"\n"
    yield "wrong key", 14, b"xyz=" + figure + b"\n", None
    yield "key of another line", 14, other + b"=" + figure + b"\n", None
    yield "key cut short", 14, key[:-1] + b"=" + figure + b"\n", None
    yield "key too long", 14, key + b"s=" + figure + b"\n", None
    yield "no equals sign", 14, key + figure + b"\n", None
    yield "blank for equals sign", 14, key + b" " + figure + b"\n", None
    yield "blank before key", 14, b" " + line(figure), None
    yield "key in upper case", 14, key.upper() + b"=" + figure + b"\n", None
    yield "empty line", 14, b"\n", None
    yield "wrong key and leading zero", 14, b"xyz=00\n", None
    yield "end before the line", 14, b"", END
    yield "end inside the key", 14, key[:-1], END
    yield "end after the key", 14, key, END
    yield "end after the equals sign", 15, key + b"=", END
    yield "no line feed, end", 15, key + b"=" + figure, END
    yield "no line feed, text goes on", 15, key + b"=" + figure, None
    yield "no digit", 15, line(b""), None
    yield "00", 15, line(b"00"), None
    yield "01", 15, line(b"01"), None
    yield "11 digits", 15, line(b"10000000000"), None
    yield "11 digits with leading zeros", 15, line(figure.rjust(11, b"0")), None
    yield "CR LF", 15, line(figure + b"\r"), None
    yield "plus sign", 15, line(b"+" + figure), None
    yield "minus sign", 15, line(b"-" + figure), None
    yield "blank before the digits", 15, line(b" " + figure), None
    yield "blank after the digits", 15, line(figure + b" "), None
    yield "_ between digits", 15, line(b"1_0"), None
    yield "letter after the digits", 15, line(figure + b"a"), None


def more_ways(key, figure):
    """Further damages, each done to some of the lines."""
    line = lambda text: key + b"=" + text + b"\n"
    yield "blank before the equals sign", 14, key + b" =" + figure + b"\n", None
    yield "line feed for equals sign", 14, key + b"\n" + figure + b"\n", None
    yield "colon for equals sign", 14, key + b":" + figure + b"\n", None
    yield "an act line", 14, b"act=submit\n", None
    yield "CR before key", 14, b"\r" + line(figure), None
    yield "two equals signs", 15, key + b"==" + figure + b"\n", None
    yield "the figure of 64 bits and one round more", 15, line(b"18446744073709551617"), None
    yield "40 digits", 15, line(b"1" * 40), None
    yield "ten zeros", 15, line(b"0" * 10), None
    yield "11 digits and no line feed", 15, key + b"=12345678901", END
    yield "0x", 15, line(b"0x1"), None
    yield "1e0", 15, line(b"1e0"), None
    yield "1.0", 15, line(b"1.0"), None
    yield "the byte below 0", 15, line(b"/"), None
    yield "the byte above 9", 15, line(b":"), None
    yield "NUL after the digits", 15, line(figure + b"\0"), None
    yield "tab after the digits", 15, line(figure + b"\t"), None
    yield "byte 0xb1", 15, line(b"\xb1"), None
    yield "a digit of another script", 15, line("١".encode()), None
    yield "CR for line feed", 15, key + b"=" + figure + b"\r", None
    yield "letter before the digits", 15, line(b"a" + figure), None


def damaged_lines():
    good = [key + b"=" + figure + b"\n" for key, figure in GOOD]
    kinds = [("submission", b"act=submit\n", GOOD, n) for n in range(len(GOOD)) if n not in SECOND_TASK]
    kinds += [("withdrawal", b"act=withdraw\n", [(b"job", b"7")], 0), ("clock move", b"act=clock\n", [(b"tick", b"3")], 0)]
    for n, (call, act, text, at) in enumerate(kinds):
        key, figure = text[at]
        before = act + b"".join(good[:at])
        after = b"".join(good[at + 1 :]) if call == "submission" else b""
        which = f" {at - 4}" if key == b"run" else ""
        some = list(more_ways(key, figure))
        some = [way for i, way in enumerate(some) if i % 5 == n % 5]
        for i, (way, number, damaged, end) in enumerate([*ways(key, figure), *some]):
            # What follows the line is the rest of the text and a call, or a call alone.
            tail = b"" if end is END else (after if (n + i) % 4 < 2 else b"") + clock(3)
            reading_refusal(f"{call}, {key.decode()}{which}: {way}", number, before + damaged, tail)
    # The second task: each line wrong in key, in figure, and not there.
    for at in SECOND_TASK:
        key, figure = GOOD[at]
        before = b"act=submit\n" + b"".join(good[:at])
        name = f"second task, {key.decode()}, line {at}: "
        reading_refusal(name + "wrong key", 14, before + b"x" + good[at], b"".join(good[at + 1 :]))
        reading_refusal(name + "01", 15, before + key + b"=01\n", b"".join(good[at + 1 :]))
        reading_refusal(name + "end before the line", 14, before)
    # The same text undamaged.
    whole = b"act=submit\n" + b"".join(good)
    case(
        "the text undamaged",
        whole,
        admitted(40, 2) + listing(0, 40, machine(2, 8, 1, 1, 6), machine(2, 8, 2, 6, 11)),
    )
    case(
        "the text undamaged, after A",
        A + whole,
        A_ANSWER + admitted(40, 2) + listing(0, 60, A_ROW, machine(2, 8, 1, 6, 11), machine(2, 8, 2, 11, 16)),
    )
    # Too many or too few lines for the counts.
    two = list(GOOD)
    text = lambda pairs: b"act=submit\n" + b"".join(k + b"=" + f + b"\n" for k, f in pairs)
    reading_refusal("a task more than counted", 14, text([(k, b"1" if k == b"tasks" else f) for k, f in two]))
    reading_refusal("a task less than counted", 14, text([(k, b"3" if k == b"tasks" else f) for k, f in two]))
    reading_refusal("a message less than counted", 14, text([(k, b"2" if k == b"messages" else f) for k, f in two]))
    reading_refusal(
        "a message less than counted, a call follows",
        14,
        text([(k, b"2" if k == b"messages" else f) for k, f in two]),
        withdraw(7),
    )
    case(
        "a message more than counted, in a text that is admitted",
        text([(k, b"0" if k == b"messages" else f) for k, f in two]),
        admitted(40, 2) + refused(17) + listing(0, 40, machine(2, 8, 1, 1, 6), machine(2, 8, 2, 6, 11)),
    )
    reading_refusal("a run less", 14, text(two[:8] + two[9:]))
    reading_refusal("a run more", 14, text(two[:9] + [(b"run", b"1")] + two[9:]))
    reading_refusal("sched and job changed about", 14, text([two[1], two[0], *two[2:]]))
    # A fault of submission does not keep the reader from a line further on.
    reading_refusal("job=0, then no digit", 15, text([(b"job", b"0"), (b"sched", b""), *two[2:]]))
    reading_refusal("job and sched out of range, then tasks=0", 16, text([(b"job", b"0"), (b"sched", b"9999999999"), (b"tasks", b"0")]))


def counts():
    head = lines("act=submit job=8 sched=0")
    rest = lines(task(9, 1, 4, 5, 0, 2), "messages=0")
    for figure in ("0", "17", "18", "99", "256", "257", "65537", "4294967297", "9999999999"):
        reading_refusal(f"16: tasks={figure}", 16, head + lines(f"tasks={figure}"), rest, both=True)
    one_task = head + lines("tasks=1", task(9, 1, 4, 5, 0, 2))
    for figure in ("33", "34", "256", "257", "65536", "4294967296", "9999999999"):
        reading_refusal(f"16: messages={figure}", 16, one_task + lines(f"messages={figure}"), both=True)
    # One line: 14 before 15 before 16.
    for line, number in (
        (b"task=17\n", 14),
        (b"task=017\n", 14),
        (b"task=1\n", 14),
        (b"tasks17\n", 14),
        (b"tasks=017\n", 15),
        (b"tasks=00\n", 15),
        (b"tasks=17\r\n", 15),
        (b"tasks=17 \n", 15),
        (b"tasks=-1\n", 15),
        (b"tasks=00000000017\n", 15),
        (b"tasks=10000000017\n", 15),
        (b"tasks=16a\n", 15),
    ):
        reading_refusal(f"order on one line: {line!r}", number, head + line, rest)
    for line, number in (
        (b"message=33\n", 14),
        (b"message=0\n", 14),
        (b"messages=033\n", 15),
        (b"messages=33\r\n", 15),
        (b"messages=33x\n", 15),
        (b"messages=00000000033\n", 15),
    ):
        reading_refusal(f"order on one line: {line!r}", number, one_task + line, withdraw(7))
    reading_refusal("tasks=17 and no line feed", 15, head + b"tasks=17")
    reading_refusal("messages=33 and no line feed", 15, one_task + b"messages=33")
    # The greatest counts: all on machine 1, so that no message takes a row.
    pairs = [(a, b, 1000) for a, b in scripts.pairs(16)][:32]
    case(
        "16 tasks and 32 messages",
        submit(8, [task(16, 0, 1, 0, 0, 0)] * 16, pairs),
        admitted(160, 16) + listing(0, 160, *[machine(1, 8, i, i - 1, i) for i in range(1, 17)]),
    )
    case(
        "16 tasks and 32 messages, the last of them out of order",
        submit(8, [task(16, 0, 1, 0, 0, 0)] * 16, pairs[:31] + [pairs[30]]),
        turned_down(4) + FRESH,
    )
    text = submit(8, [task(16, 0, 1, 0, 0, 0)] * 16, pairs)
    reading_refusal("16 tasks and 32 messages, the last line feed missing", 15, text[:-1])
    reading_refusal("16 tasks and 32 messages, the last line missing", 14, text[: text.rindex(b"volume")])


def nothing_after():
    good = withdraw(7) + clock(9) + one(8, 90, 1, 4, 5, 0, 2)
    for name, number, damaged in (
        ("14", 14, b"act=withdraw\ntick=7\n"),
        ("15", 15, b"act=clock\ntick=07\n"),
        ("16", 16, b"act=submit\njob=8\nsched=0\ntasks=17\n"),
        ("17", 17, b"act=look\n"),
    ):
        reading_refusal(f"good calls after {name}", number, damaged, good, both=True)
    reading_refusal("a second damage after the first, 15 then 14", 15, b"act=clock\ntick=\n", b"act=clock\ntack=1\n")
    reading_refusal("a second damage after the first, 14 then 17", 14, b"act=clock\ntack=1\n", b"act=look\n")
    reading_refusal("a second damage after the first, 17 then 16", 17, b"act=look\n", b"act=submit\njob=8\nsched=0\ntasks=0\n")
    reading_refusal("act=submit and a withdrawal's line alone", 14, b"act=submit\njob=7\n", both=True)
    reading_refusal("act=withdraw and a tick", 14, b"act=withdraw\ntick=7\n")
    reading_refusal("act=clock and a job", 14, b"act=clock\njob=7\n")


def length():
    calls = clock(0) * 3854
    exact = calls + clock(10)
    assert len(exact) == LIMIT
    case("65,536 bytes", exact, answer(0) * 3855 + listing(10, 0))
    over = A + clock(0) * 3847 + clock(10000) + clock(1000000000)
    assert len(over) == LIMIT + 1
    case("65,537 bytes", over, refused(19) + FRESH)


def examples():
    for script in scripts.examples():
        case(f"examples/{script.name}", script.read_bytes(), script.with_suffix(".out").read_bytes())


def main():
    for group in (
        empty_and_single_calls,
        ledger,
        placing,
        submission_refusals,
        full_register,
        withdrawals_and_clock,
        act_lines,
        damaged_lines,
        counts,
        nothing_after,
        length,
        examples,
    ):
        group()
    if sys.argv[1:] == ["--names"]:
        for number, (name, _, _) in enumerate(cases, 1):
            print(number, name)
        return
    out = sys.stdout.buffer
    for _, script, output in cases:
        out.write(b"script=%d\n%boutput=%d\n%b" % (len(script), script, len(output), output))


if __name__ == "__main__":
    main()
