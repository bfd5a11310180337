//! The register: held jobs, their rows, the clock and the total cost.

use crate::job::{Job, MACHINES};
use crate::placing::{place, Lanes, Placed, Row};
use crate::printing::Printer;

const MAX_ROWS: usize = 256;
const HORIZON: u64 = 1_000_000_000;

#[derive(Default)]
pub struct Answer {
    pub number: u8,
    pub task: usize,
    pub cost: u64,
    pub rows: usize,
}

/// The numbers of the held jobs stand apart from what was placed: they are looked through.
pub struct Register {
    clock: u64,
    total: u64,
    rows: usize,
    /// The soonest tick at which a job leaves.
    soonest: u64,
    lanes: Lanes,
    numbers: Vec<u16>,
    placed: Vec<Placed>,
}

impl Register {
    pub fn new() -> Self {
        Self {
            clock: 0,
            total: 0,
            rows: 0,
            soonest: u64::MAX,
            lanes: Lanes::new(),
            numbers: Vec::with_capacity(MAX_ROWS),
            placed: Vec::with_capacity(MAX_ROWS),
        }
    }

    fn refusal(number: u8, task: usize) -> Answer {
        Answer {
            number,
            task,
            ..Answer::default()
        }
    }

    pub fn submit(&mut self, job: &Job) -> Answer {
        let number = job.check();
        if number != 0 {
            return Self::refusal(number, 0);
        }
        let number = job.number as u16;
        if self.numbers.contains(&number) {
            return Self::refusal(5, 0);
        }
        let hopeless = job.hopeless(self.clock);
        if hopeless != 0 {
            return Self::refusal(6, hopeless);
        }
        let (placed, ended) = place(&mut self.lanes, self.clock, job);
        let full = self.rows + placed.rows > MAX_ROWS;
        if ended.is_err() || full {
            self.lanes.remove(number, placed.lanes);
            return ended.map_or_else(|task| Self::refusal(7, task), |()| Self::refusal(8, 0));
        }
        self.rows += placed.rows;
        self.total += placed.cost;
        self.soonest = self.soonest.min(placed.last_finish);
        self.numbers.push(number);
        self.placed.push(placed);
        Answer {
            number: 0,
            task: 0,
            cost: placed.cost,
            rows: placed.rows,
        }
    }

    /// Takes out the job at an index of the held ones.
    fn remove(&mut self, index: usize) {
        let number = self.numbers.remove(index);
        let placed = self.placed.remove(index);
        self.lanes.remove(number, placed.lanes);
        self.rows -= placed.rows;
        self.total -= placed.cost;
    }

    pub fn withdraw(&mut self, job: u64) -> u8 {
        let found = self.numbers.iter().position(|&held| u64::from(held) == job);
        let Some(index) = found else {
            return 9;
        };
        if self.placed[index].first_start <= self.clock {
            return 10;
        }
        self.remove(index);
        0
    }

    pub fn advance(&mut self, tick: u64) -> u8 {
        if tick < self.clock {
            return 11;
        }
        if tick > HORIZON {
            return 12;
        }
        self.clock = tick;
        if tick < self.soonest {
            return 0;
        }
        let mut index = 0;
        while index < self.placed.len() {
            if self.placed[index].last_finish <= tick {
                self.remove(index);
            } else {
                index += 1;
            }
        }
        let lasts = self.placed.iter().map(|placed| placed.last_finish);
        self.soonest = lasts.min().unwrap_or(u64::MAX);
        0
    }

    /// Lists the register: the rows of the machines, then those of the links.
    pub fn list(&self, printer: &mut Printer) {
        printer.field(b"clock=", self.clock);
        printer.field(b"total=", self.total);
        printer.field(b"held=", self.rows as u64);
        let end = |printer: &mut Printer, row: &Row| {
            printer.field(b"task=", u64::from(row.task));
            printer.field(b"start=", u64::from(row.start));
            printer.field(b"finish=", u64::from(row.finish));
        };
        for machine in 0..MACHINES {
            for row in &self.lanes.0[machine * MACHINES + machine] {
                printer.field(b"machine=", machine as u64 + 1);
                printer.field(b"job=", u64::from(row.job));
                end(printer, row);
            }
        }
        for lane in (0..MACHINES * MACHINES).filter(|lane| lane / MACHINES != lane % MACHINES) {
            for row in &self.lanes.0[lane] {
                printer.field(b"link=", (lane / MACHINES) as u64 + 1);
                printer.field(b"to=", (lane % MACHINES) as u64 + 1);
                printer.field(b"job=", u64::from(row.job));
                printer.field(b"from=", u64::from(row.from));
                end(printer, row);
            }
        }
    }
}
