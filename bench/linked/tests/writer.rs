//! The linked writer of job texts beside the baseline's, over made-up jobs: the
//! same number, the same length, and the same bytes in the whole buffer.

mod common;

use std::collections::BTreeMap;

use baseline::job::{Job, Message, Task, MAX_MESSAGES, MAX_TASKS};
use baseline::text::{read_job, write_job};
use common::{figures, setting, written, Dice};

const JOBS: u64 = 50_000;
const SEED: u64 = 20_050_704;
/// Longer than every text.
const ROOM: usize = 4_200;

impl Dice {
    /// A figure of one to ten digits, and now and then a longer one.
    fn figure(&mut self, longer: bool) -> u64 {
        if longer && self.below(60) == 0 {
            return match self.below(3) {
                0 => 10_000_000_000,
                1 => u64::MAX,
                _ => 10_000_000_000 + self.roll() % 1_000_000_000_000,
            };
        }
        match self.below(12) {
            0 => 0,
            1 => 9_999_999_999,
            digits => self.roll() % 10u64.pow(digits as u32 - 1),
        }
    }

    /// A count up to the most, and now and then one that is out of range.
    fn count(&mut self, most: usize) -> usize {
        match self.below(40) {
            0 => 0,
            1 => most,
            2 => most + 1,
            3 => usize::MAX,
            _ => self.below(most + 1),
        }
    }

    fn job(&mut self) -> Job {
        let longer = self.below(4) == 0;
        let mut job = Job {
            number: self.figure(longer),
            sched: self.figure(longer),
            task_count: self.count(MAX_TASKS),
            message_count: self.count(MAX_MESSAGES),
            ..Job::default()
        };
        // Entries past the counts too: they are no part of the job.
        for task in &mut job.task {
            *task = Task {
                deadline: self.figure(longer),
                dispatch: self.figure(longer),
                run: [(); 4].map(|()| self.figure(longer)),
            };
        }
        for message in &mut job.message {
            *message = Message {
                from: self.figure(longer),
                to: self.figure(longer),
                volume: self.figure(longer),
            };
        }
        job
    }
}

/// What a writer answers on a buffer of so many bytes, and the buffer that it leaves.
fn left(room: usize, write: impl Fn(&mut [u8]) -> Result<usize, u64>) -> (Result<usize, u64>, Vec<u8>) {
    let mut buffer: Vec<u8> = (0..room).map(|place| 128 + (place % 127) as u8).collect();
    (write(&mut buffer), buffer)
}

#[test]
fn made_up_jobs() {
    let seed = setting("SEED", SEED);
    let mut dice = Dice(seed);
    let mut numbers: BTreeMap<u64, u64> = BTreeMap::new();
    let mut bytes = 0;
    for turn in 0..setting("JOBS", JOBS) {
        let job = dice.job();
        let row = figures(&job);
        let baseline = |buffer: &mut [u8]| write_job(&job, buffer).map_err(u64::from);
        let length = left(ROOM, baseline).0.unwrap_or(0);
        for room in [0, length.saturating_sub(1), length, length + 1, dice.below(ROOM)] {
            let due = left(room, baseline);
            let given = left(room, |buffer| written(&row, buffer));
            assert!(given == due, "job {turn} of seed {seed}, a buffer of {room}");
            *numbers.entry(given.0.err().unwrap_or(0)).or_default() += 1;
            if let Ok(length) = given.0 {
                bytes += length;
                let (again, next) = read_job(&given.1).unwrap();
                assert_eq!((next, figures(&again)), (length, row.clone()));
            }
        }
        // One figure too few, and one too many.
        let mut longer = row.clone();
        longer.push(dice.figure(false));
        for ill in [&row[..row.len() - 1], &longer, &row[..dice.below(row.len())]] {
            for room in [0, ROOM] {
                let given = left(room, |buffer| written(ill, buffer));
                assert_eq!(given, left(room, |_| Err(20)));
            }
        }
    }
    println!("writer: seed {seed}, answers {numbers:?}, {bytes} bytes written");
}
