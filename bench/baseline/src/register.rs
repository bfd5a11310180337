//! The register: held jobs, their rows, the clock and the total cost.

use crate::job::Job;
use crate::placing::{place, Lanes, Placed};

pub const MAX_ROWS: usize = 256;
const HORIZON: u64 = 1_000_000_000;

/// The answer to a submission; number 0 is acceptance.
#[derive(Clone, Copy, Debug, Default, PartialEq, Eq)]
pub struct Answer {
    pub number: u8,
    pub task: usize,
    pub cost: u64,
    pub rows: usize,
}

#[derive(Clone, Copy, Debug, PartialEq, Eq)]
struct Held {
    job: u16,
    placed: Placed,
}

#[derive(Clone, Debug, Default, PartialEq, Eq)]
pub struct Register {
    clock: u64,
    total: u64,
    rows: usize,
    lanes: Lanes,
    held: Vec<Held>,
}

impl Register {
    pub fn new() -> Self {
        Self::default()
    }

    pub fn clock(&self) -> u64 {
        self.clock
    }

    /// The summed cost of the held jobs.
    pub fn total(&self) -> u64 {
        self.total
    }

    /// The count of rows held.
    pub fn rows(&self) -> usize {
        self.rows
    }

    pub fn lanes(&self) -> &Lanes {
        &self.lanes
    }

    pub fn submit(&mut self, job: &Job) -> Answer {
        match self.admit(job) {
            Ok(placed) => Answer {
                number: 0,
                task: 0,
                cost: placed.cost,
                rows: placed.rows,
            },
            Err((number, task)) => Answer {
                number,
                task,
                cost: 0,
                rows: 0,
            },
        }
    }

    /// Admits a job; the error is the number of the refusal and its task.
    fn admit(&mut self, job: &Job) -> Result<Placed, (u8, usize)> {
        job.check().map_err(|number| (number, 0))?;
        let number = job.number as u16;
        if self.held.iter().any(|held| held.job == number) {
            return Err((5, 0));
        }
        if let Some(index) = job
            .tasks()
            .iter()
            .position(|task| task.is_hopeless(self.clock))
        {
            return Err((6, index + 1));
        }
        let placed = match place(&mut self.lanes, self.clock, job) {
            Ok(placed) if self.rows + placed.rows <= MAX_ROWS => placed,
            refused => {
                self.lanes.remove_job(number);
                return Err(refused.map_or_else(|task| (7, task), |_| (8, 0)));
            }
        };
        self.rows += placed.rows;
        self.total += placed.cost;
        self.held.push(Held {
            job: number,
            placed,
        });
        Ok(placed)
    }

    /// Withdraws a job that has not begun; answers 0, or the refusal.
    pub fn withdraw(&mut self, job: u64) -> u8 {
        let Some(index) = self.held.iter().position(|held| u64::from(held.job) == job) else {
            return 9;
        };
        if self.held[index].placed.first_start <= self.clock {
            return 10;
        }
        let held = self.held.remove(index);
        self.lanes.remove_job(held.job);
        self.rows -= held.placed.rows;
        self.total -= held.placed.cost;
        0
    }

    /// Sets the clock and lets finished jobs go; answers 0, or the refusal.
    pub fn move_clock(&mut self, tick: u64) -> u8 {
        if tick < self.clock {
            return 11;
        }
        if tick > HORIZON {
            return 12;
        }
        self.clock = tick;
        let Self {
            total,
            rows,
            lanes,
            held,
            ..
        } = self;
        held.retain(|held| {
            let stays = held.placed.last_finish > tick;
            if !stays {
                lanes.remove_job(held.job);
                *rows -= held.placed.rows;
                *total -= held.placed.cost;
            }
            stays
        });
        0
    }
}
