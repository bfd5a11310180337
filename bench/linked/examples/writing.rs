//! How long the linked writer of job texts takes beside the baseline's, in one
//! process and on the same jobs: medians of many passes, taken by turns.

#[path = "../tests/common/mod.rs"]
mod common;

use std::time::Instant;

use baseline::job::{Job, Message, Task, MAX_MESSAGES, MAX_TASKS};
use baseline::text::write_job;
use common::{figures, Dice};
use register::write_job_into;

const JOBS: usize = 400;
const PASSES: usize = 301;
const ROOM: usize = 4_200;

fn figure(dice: &mut Dice, digits: u32) -> u64 {
    dice.roll() % 10u64.pow(digits)
}

/// A job of up to all tasks and messages, with figures as long as submissions have them.
fn job(dice: &mut Dice) -> Job {
    let mut job = Job {
        number: figure(dice, 4),
        sched: figure(dice, 3),
        task_count: 1 + dice.below(MAX_TASKS),
        message_count: dice.below(MAX_MESSAGES + 1),
        ..Job::default()
    };
    for task in &mut job.task {
        *task = Task {
            deadline: figure(dice, 9),
            dispatch: figure(dice, 3),
            run: [(); 4].map(|()| figure(dice, 5)),
        };
    }
    for message in &mut job.message {
        *message = Message {
            from: 1 + figure(dice, 1),
            to: 1 + figure(dice, 2),
            volume: figure(dice, 3),
        };
    }
    job
}

/// Nanoseconds of one pass, and the bytes that it writes.
fn timed(mut pass: impl FnMut(&mut [u8]) -> usize, buffer: &mut [u8]) -> (f64, usize) {
    let begun = Instant::now();
    let bytes = pass(buffer);
    (begun.elapsed().as_nanos() as f64, bytes)
}

fn median(mut times: Vec<f64>) -> f64 {
    times.sort_by(f64::total_cmp);
    times[times.len() / 2] / JOBS as f64
}

fn main() {
    let mut dice = Dice(1);
    let jobs: Vec<Job> = (0..JOBS).map(|_| job(&mut dice)).collect();
    let rows: Vec<Vec<u64>> = jobs.iter().map(figures).collect();
    let mut buffer = [0; ROOM];
    let (mut proved, mut plain) = (Vec::new(), Vec::new());
    let mut bytes = 0;
    for _ in 0..PASSES {
        let linked = |buffer: &mut [u8]| {
            let write = |row: &Vec<u64>| write_job_into(row, buffer).unwrap();
            rows.iter().map(write).sum()
        };
        let (time, written) = timed(linked, &mut buffer);
        proved.push(time);
        let baseline = |buffer: &mut [u8]| {
            let write = |job: &Job| write_job(job, buffer).unwrap();
            jobs.iter().map(write).sum()
        };
        let (time, same) = timed(baseline, &mut buffer);
        plain.push(time);
        assert_eq!(written, same);
        bytes = written;
    }
    let (proved, plain) = (median(proved), median(plain));
    println!("{JOBS} jobs, {} bytes each on average", bytes / JOBS);
    println!(
        "ns a job: {proved:.0}, plain Rust {plain:.0}, ratio {:.2}",
        proved / plain
    );
}
