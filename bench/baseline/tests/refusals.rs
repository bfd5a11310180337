//! The order of the refusals, and the limits.

mod common;

use baseline::job::Job;
use baseline::register::{Answer, Register};
use baseline::{run, INPUT_LIMIT};
use common::{answers, check, one};

/// A job of two tasks and a message, with one figure after another at fault.
/// The faults are mended from the first refusal on.
#[test]
fn a_submission_names_the_first_of_its_faults() {
    let job = |number: &str, dispatch: &str, volume: &str, run: &str, deadline: &str| {
        format!(
            "act=submit job={number} sched=0 tasks=2 deadline={deadline} dispatch={dispatch} \
             run={run} run=0 run=0 run=0 deadline=50 dispatch=0 run=0 run=3 run=0 run=0 \
             messages=1 from=1 to=2 volume={volume} "
        )
    };
    let first = one(7, 10, 1, [4, 5, 0, 2]);
    let second = |text: String| {
        answers(&[&first, &text])
            .strip_prefix("answer=0 task=0 cost=20 rows=1 ")
            .unwrap()
            .to_string()
    };
    assert_eq!(
        second(job("0", "1000001", "1001", "0", "10")),
        "answer=1 task=0 cost=0 rows=0"
    );
    assert_eq!(
        second(job("65536", "1000001", "1001", "0", "10")),
        "answer=1 task=0 cost=0 rows=0"
    );
    assert_eq!(
        second(job("7", "1000001", "1001", "0", "10")),
        "answer=3 task=0 cost=0 rows=0"
    );
    assert_eq!(
        second(job("7", "9", "1001", "0", "10")),
        "answer=4 task=0 cost=0 rows=0"
    );
    assert_eq!(
        second(job("7", "9", "1000", "0", "10")),
        "answer=5 task=0 cost=0 rows=0"
    );
    assert_eq!(
        second(job("8", "9", "1000", "0", "10")),
        "answer=6 task=1 cost=0 rows=0"
    );
    assert_eq!(
        second(job("8", "9", "1000", "2", "10")),
        "answer=7 task=1 cost=0 rows=0"
    );
    assert_eq!(
        second(job("8", "9", "1000", "2", "11")),
        "answer=7 task=2 cost=0 rows=0"
    );
    assert_eq!(
        second(job("8", "9", "10", "2", "11")),
        "answer=0 task=0 cost=132 rows=3"
    );
}

#[test]
fn counts_out_of_range_are_refused_2() {
    let refused = Answer {
        number: 2,
        ..Answer::default()
    };
    for (task_count, message_count) in [(0, 0), (17, 0), (1, 33), (usize::MAX, usize::MAX)] {
        let job = Job {
            number: 1,
            sched: u64::MAX,
            task_count,
            message_count,
            ..Job::default()
        };
        assert_eq!(Register::new().submit(&job), refused);
        assert_eq!(Register::new().submit(&Job { number: 0, ..job }).number, 1);
    }
}

#[test]
fn every_figure_of_a_task_has_its_range() {
    let submit = |sched: &str, deadline: &str, dispatch: &str, runs: &str| {
        answers(&[
            "act=submit job=65535",
            sched,
            "tasks=1",
            deadline,
            dispatch,
            runs,
            "messages=0",
        ])
    };
    let long = "deadline=1000000000";
    let runs = "run=1000000 run=0 run=0 run=0";
    assert_eq!(
        submit("sched=1000000", long, "dispatch=1000000", runs),
        "answer=0 task=0 cost=10000000 rows=1"
    );
    let bad = "answer=3 task=0 cost=0 rows=0";
    assert_eq!(submit("sched=1000001", long, "dispatch=0", runs), bad);
    assert_eq!(submit("sched=0", "deadline=0", "dispatch=0", runs), bad);
    assert_eq!(
        submit("sched=0", "deadline=1000000001", "dispatch=0", runs),
        bad
    );
    assert_eq!(submit("sched=0", long, "dispatch=1000001", runs), bad);
    for bad_run in [
        "run=1000001 run=0 run=0 run=0",
        "run=0 run=1000001 run=0 run=0",
        "run=0 run=0 run=1000001 run=0",
        "run=0 run=0 run=0 run=9999999999",
    ] {
        assert_eq!(submit("sched=0", long, "dispatch=0", bad_run), bad);
    }
}

#[test]
fn messages_have_their_ranges_and_order() {
    let submit = |messages: &[(u64, u64, u64)]| {
        let mut script = String::from("act=submit job=1 sched=0 tasks=3 ");
        for _ in 0..3 {
            script += "deadline=100 dispatch=0 run=1 run=0 run=0 run=0 ";
        }
        script += &format!("messages={} ", messages.len());
        for (from, to, volume) in messages {
            script += &format!("from={from} to={to} volume={volume} ");
        }
        answers(&[&script])
    };
    let good = "answer=0 task=0 cost=30 rows=3";
    let bad = "answer=4 task=0 cost=0 rows=0";
    assert_eq!(submit(&[(1, 2, 0), (1, 3, 1000), (2, 3, 7)]), good);
    assert_eq!(submit(&[(1, 2, 1001)]), bad);
    assert_eq!(submit(&[(0, 2, 1)]), bad);
    assert_eq!(submit(&[(2, 2, 1)]), bad);
    assert_eq!(submit(&[(2, 1, 1)]), bad);
    assert_eq!(submit(&[(1, 4, 1)]), bad);
    assert_eq!(submit(&[(4, 5, 1)]), bad);
    assert_eq!(submit(&[(1, 2, 1), (1, 2, 1)]), bad);
    assert_eq!(submit(&[(1, 3, 1), (1, 2, 1)]), bad);
    assert_eq!(submit(&[(2, 3, 1), (1, 3, 1)]), bad);
}

#[test]
fn the_clock() {
    check(
        &["act=clock tick=5 act=clock tick=5 act=clock tick=4 act=clock tick=1000000001",
          "act=clock tick=1000000000 act=clock tick=9999999999"],
        &["answer=0 answer=0 answer=11 answer=12 answer=0 answer=12 clock=1000000000 total=0 held=0"],
    );
}

/// A submission of so many tasks, each on machine 1 for one tick.
fn ticks(job: usize, tasks: usize) -> String {
    let mut script = format!("act=submit job={job} sched=0 tasks={tasks} ");
    for _ in 0..tasks {
        script += "deadline=1000 dispatch=0 run=1 run=0 run=0 run=0 ";
    }
    script + "messages=0 "
}

fn held_after(script: &[&str]) -> String {
    let printed = String::from_utf8(run(common::lines(script).as_bytes())).unwrap();
    printed
        .lines()
        .find(|line| line.starts_with("held="))
        .unwrap()
        .to_string()
}

#[test]
fn with_255_rows_a_row_fits_and_with_256_none() {
    let mut script: String = (1..=15).map(|job| ticks(job, 16)).collect();
    script += &ticks(16, 15);
    assert_eq!(held_after(&[&script]), "held=255");
    // Two rows do not fit, one does, and then none.
    assert!(answers(&[&script, &ticks(17, 2)]).ends_with("answer=8 task=0 cost=0 rows=0"));
    assert_eq!(held_after(&[&script, &ticks(17, 2)]), "held=255");
    script += &ticks(18, 1);
    assert!(answers(&[&script]).ends_with("answer=0 task=0 cost=10 rows=1"));
    assert_eq!(held_after(&[&script]), "held=256");
    script += &ticks(19, 1);
    assert!(answers(&[&script]).ends_with("answer=8 task=0 cost=0 rows=0"));
    assert_eq!(held_after(&[&script]), "held=256");
    // A late job is refused 7 in a full register too: 8 is judged last.
    let late = one(20, 256, 0, [1, 0, 0, 0]);
    assert!(answers(&[&script, &late]).ends_with("answer=7 task=1 cost=0 rows=0"));
}

#[test]
fn message_rows_count_towards_the_limit() {
    let mut script: String = (1..=15).map(|job| ticks(job, 16)).collect();
    script += &ticks(16, 14);
    let pair = |volume: u64| {
        format!(
            "act=submit job=17 sched=0 tasks=2 deadline=1000 dispatch=0 run=0 run=1 run=0 run=0 \
             deadline=1000 dispatch=0 run=0 run=0 run=1 run=0 messages=1 from=1 to=2 volume={volume} "
        )
    };
    assert!(answers(&[&script, &pair(1)]).ends_with("answer=8 task=0 cost=0 rows=0"));
    assert!(answers(&[&script, &pair(0)]).ends_with("answer=0 task=0 cost=14 rows=2"));
}

#[test]
fn a_refusal_changes_nothing() {
    let mut script: String = (1..=15).map(|job| ticks(job, 16)).collect();
    script += &ticks(16, 15);
    let listing = |script: &[&str]| {
        let printed = String::from_utf8(run(common::lines(script).as_bytes())).unwrap();
        let at = printed.find("clock=").unwrap();
        printed[at..].to_string()
    };
    let before = listing(&[&script]);
    // Late at its second task (7), and too many rows (8), after rows were tried.
    let late = "act=submit job=20 sched=0 tasks=2 deadline=900 dispatch=0 run=0 run=5 run=0 run=0 \
        deadline=904 dispatch=0 run=0 run=900 run=0 run=0 messages=0";
    for refused in [
        late,
        &ticks(20, 2),
        &ticks(16, 1),
        "act=withdraw job=99 act=withdraw job=1",
        "act=clock tick=1000000001",
    ] {
        assert_eq!(listing(&[&script, refused]), before);
    }
    assert!(answers(&[&script, late]).ends_with("answer=7 task=2 cost=0 rows=0"));
}

#[test]
fn reading_refusals_come_after_the_answers_and_before_the_listing() {
    let a = one(7, 10, 1, [4, 5, 0, 2]);
    let row = "clock=0 total=20 held=1 machine=2 job=7 task=1 start=1 finish=6";
    for (damaged, number) in [
        ("act=withdraw jab=7", 14),
        ("act=clock tick=07", 15),
        ("act=submit job=8 sched=0 tasks=17", 16),
        ("act=look", 17),
    ] {
        check(
            &[&a, damaged, "act=withdraw job=7"],
            &[
                "answer=0 task=0 cost=20 rows=1",
                &format!("refused={number}"),
                row,
            ],
        );
    }
    check(&[], &["clock=0 total=0 held=0"]);
}

#[test]
fn the_limit_of_the_input() {
    let fresh = "clock=0\ntotal=0\nheld=0\n";
    let mut input = "act=clock\ntick=0\n".repeat(INPUT_LIMIT / 17);
    assert_eq!(input.len(), 65_535);
    input.insert(input.len() - 2, '1');
    assert_eq!(input.len(), INPUT_LIMIT);
    let answers = "answer=0\n".repeat(3855);
    assert_eq!(
        run(input.as_bytes()),
        format!("{answers}clock=10\ntotal=0\nheld=0\n").as_bytes()
    );
    input.push('\n');
    assert_eq!(
        run(input.as_bytes()),
        format!("refused=19\n{fresh}").as_bytes()
    );
    let damaged = vec![b'x'; INPUT_LIMIT + 1];
    assert_eq!(run(&damaged), format!("refused=19\n{fresh}").as_bytes());
    assert_eq!(
        run(&damaged[1..]),
        format!("refused=17\n{fresh}").as_bytes()
    );
}
