//! The ledger of examples, through the whole program.

mod common;

use common::{answers, check, one};

const A_RUNS: [u64; 4] = [4, 5, 0, 2];
const FRESH: &str = "clock=0 total=0 held=0";

#[test]
fn a() {
    check(
        &[&one(7, 10, 1, A_RUNS)],
        &[
            "answer=0 task=0 cost=20 rows=1 clock=0 total=20 held=1",
            "machine=2 job=7 task=1 start=1 finish=6",
        ],
    );
}

#[test]
fn b() {
    check(
        &[&one(7, 5, 1, A_RUNS)],
        &[
            "answer=0 task=0 cost=40 rows=1 clock=0 total=40 held=1",
            "machine=1 job=7 task=1 start=1 finish=5",
        ],
    );
}

#[test]
fn c() {
    check(
        &[&one(7, 2, 1, A_RUNS)],
        &["answer=7 task=1 cost=0 rows=0", FRESH],
    );
}

#[test]
fn d() {
    check(
        &[&one(7, 1, 1, A_RUNS)],
        &["answer=6 task=1 cost=0 rows=0", FRESH],
    );
}

#[test]
fn e() {
    check(
        &[&one(7, 5, 1, A_RUNS), &one(8, 20, 1, [4, 10, 4, 0])],
        &[
            "answer=0 task=0 cost=40 rows=1 answer=0 task=0 cost=40 rows=1",
            "clock=0 total=80 held=2",
            "machine=1 job=7 task=1 start=1 finish=5",
            "machine=2 job=8 task=1 start=1 finish=11",
        ],
    );
}

/// Rows 1 to 5 and 9 to 12 on machine 1.
fn two_rows() -> String {
    one(1, 100, 1, [4, 0, 0, 0]) + &one(2, 100, 9, [3, 0, 0, 0])
}

#[test]
fn f() {
    check(
        &[&two_rows(), &one(3, 100, 0, [4, 0, 0, 0])],
        &[
            "answer=0 task=0 cost=40 rows=1 answer=0 task=0 cost=30 rows=1",
            "answer=0 task=0 cost=40 rows=1 clock=0 total=110 held=3",
            "machine=1 job=1 task=1 start=1 finish=5",
            "machine=1 job=3 task=1 start=5 finish=9",
            "machine=1 job=2 task=1 start=9 finish=12",
        ],
    );
}

#[test]
fn g() {
    check(
        &[&two_rows(), &one(3, 100, 0, [5, 0, 0, 0])],
        &[
            "answer=0 task=0 cost=40 rows=1 answer=0 task=0 cost=30 rows=1",
            "answer=0 task=0 cost=50 rows=1 clock=0 total=120 held=3",
            "machine=1 job=1 task=1 start=1 finish=5",
            "machine=1 job=2 task=1 start=9 finish=12",
            "machine=1 job=3 task=1 start=12 finish=17",
        ],
    );
}

fn h_job(deadline: u64, volume: u64) -> String {
    format!(
        "act=submit job=1 sched=0 tasks=2 deadline=20 dispatch=1 run=4 run=0 run=0 run=0 \
         deadline={deadline} dispatch=1 run=0 run=5 run=0 run=0 \
         messages=1 from=1 to=2 volume={volume} "
    )
}

#[test]
fn h() {
    check(
        &[&h_job(16, 3)],
        &[
            "answer=0 task=0 cost=90 rows=3 clock=0 total=90 held=3",
            "machine=1 job=1 task=1 start=1 finish=5",
            "machine=2 job=1 task=2 start=11 finish=16",
            "link=1 to=2 job=1 from=1 task=2 start=5 finish=11",
        ],
    );
}

#[test]
fn i() {
    check(&[&h_job(15, 3)], &["answer=7 task=2 cost=0 rows=0", FRESH]);
}

#[test]
fn j() {
    check(
        &[&h_job(16, 0)],
        &[
            "answer=0 task=0 cost=60 rows=2 clock=0 total=60 held=2",
            "machine=1 job=1 task=1 start=1 finish=5",
            "machine=2 job=1 task=2 start=5 finish=10",
        ],
    );
}

#[test]
fn k() {
    check(
        &[
            "act=submit job=1 sched=0 tasks=3",
            "deadline=10 dispatch=0 run=4 run=0 run=0 run=0",
            "deadline=20 dispatch=0 run=2 run=0 run=0 run=0",
            "deadline=30 dispatch=0 run=0 run=5 run=0 run=0",
            "messages=2 from=1 to=3 volume=2 from=2 to=3 volume=2",
        ],
        &[
            "answer=0 task=0 cost=120 rows=5 clock=0 total=120 held=5",
            "machine=1 job=1 task=1 start=0 finish=4",
            "machine=1 job=1 task=2 start=4 finish=6",
            "machine=2 job=1 task=3 start=12 finish=17",
            "link=1 to=2 job=1 from=1 task=3 start=4 finish=8",
            "link=1 to=2 job=1 from=2 task=3 start=8 finish=12",
        ],
    );
}

#[test]
fn l() {
    let a = one(7, 10, 1, A_RUNS);
    check(
        &[&a, "act=withdraw job=7"],
        &["answer=0 task=0 cost=20 rows=1 answer=0", FRESH],
    );
    check(
        &[&a, "act=clock tick=1 act=withdraw job=7"],
        &[
            "answer=0 task=0 cost=20 rows=1 answer=0 answer=10 clock=1 total=20 held=1",
            "machine=2 job=7 task=1 start=1 finish=6",
        ],
    );
    check(
        &[&a, "act=clock tick=6 act=withdraw job=7"],
        &["answer=0 task=0 cost=20 rows=1 answer=0 answer=9 clock=6 total=0 held=0"],
    );
}

#[test]
fn a_receiver_of_earlier_deadline_waits_for_its_sender() {
    check(
        &[
            "act=submit job=1 sched=0 tasks=2",
            "deadline=90 dispatch=3 run=0 run=5 run=0 run=0",
            "deadline=50 dispatch=2 run=0 run=5 run=0 run=0",
            "messages=1 from=1 to=2 volume=9",
        ],
        &[
            "answer=0 task=0 cost=40 rows=2 clock=0 total=40 held=2",
            "machine=2 job=1 task=1 start=3 finish=8",
            "machine=2 job=1 task=2 start=8 finish=13",
        ],
    );
}

#[test]
fn the_task_at_its_turn_and_not_the_lowest_is_late() {
    // Task 2 comes first and fits; task 3 comes next and is late, before task 1.
    assert_eq!(
        answers(&[
            "act=submit job=1 sched=0 tasks=3",
            "deadline=9 dispatch=9 run=9 run=0 run=0 run=0",
            "deadline=5 dispatch=0 run=5 run=0 run=0 run=0",
            "deadline=6 dispatch=0 run=5 run=0 run=0 run=0",
            "messages=0"
        ]),
        "answer=7 task=3 cost=0 rows=0"
    );
}
