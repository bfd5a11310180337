//! What the tests share; none uses all of it.
#![allow(dead_code)]

use baseline::job::{Job, MAX_MESSAGES, MAX_TASKS};
use register::{write_job_into, Refusal};

/// Splitmix64.
pub struct Dice(pub u64);

impl Dice {
    pub fn roll(&mut self) -> u64 {
        self.0 = self.0.wrapping_add(0x9e37_79b9_7f4a_7c15);
        let mut z = self.0;
        z = (z ^ (z >> 30)).wrapping_mul(0xbf58_476d_1ce4_e5b9);
        z = (z ^ (z >> 27)).wrapping_mul(0x94d0_49bb_1331_11eb);
        z ^ (z >> 31)
    }

    pub fn below(&mut self, bound: usize) -> usize {
        (self.roll() % bound as u64) as usize
    }
}

/// The figures of a job's lines, of as many entries as there are.
pub fn figures(job: &Job) -> Vec<u64> {
    let mut row = vec![job.number, job.sched, job.task_count as u64];
    for task in &job.task[..job.task_count.min(MAX_TASKS)] {
        row.extend([task.deadline, task.dispatch]);
        row.extend(task.run);
    }
    row.push(job.message_count as u64);
    for message in &job.message[..job.message_count.min(MAX_MESSAGES)] {
        row.extend([message.from, message.to, message.volume]);
    }
    row
}

/// What the linked writer answers: a length, or the number of a refusal.
pub fn written(row: &[u64], buffer: &mut [u8]) -> Result<usize, u64> {
    write_job_into(row, buffer).map_err(Refusal::number)
}

/// A figure of the environment, or what stands for it.
pub fn setting(name: &str, default: u64) -> u64 {
    std::env::var(name).map_or(default, |figure| figure.parse().unwrap())
}
