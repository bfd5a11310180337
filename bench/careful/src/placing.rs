//! Placing the tasks of a job, one after the other, beside the rows there are.

use crate::job::{Job, Message, Task, MACHINES, MAX_MESSAGES, MAX_TASKS};

const MACHINE_RATE: [u64; MACHINES] = [10, 4, 10, 25];
const LINK_RATE: [[u64; MACHINES]; MACHINES] =
    [[0, 5, 8, 6], [5, 0, 7, 9], [8, 7, 0, 5], [6, 9, 5, 0]];
const LINK_TIME: [[u64; MACHINES]; MACHINES] =
    [[0, 2, 3, 1], [2, 0, 1, 4], [3, 1, 0, 2], [1, 4, 2, 0]];

const LANES: usize = MACHINES * MACHINES;
const MAX_SENDERS: usize = MAX_TASKS - 1;
const MAX_OWN: usize = MAX_TASKS + MAX_MESSAGES;

/// One booking; its lane says on which machine or link.
#[derive(Clone, Copy, Default)]
pub struct Row {
    pub start: u32,
    pub finish: u32,
    pub job: u16,
    /// The sending task of a message; 0 in the row of a task.
    pub from: u8,
    pub task: u8,
}

/// The rows of each machine (at `m * 4 + m`) and link (at `a * 4 + b`), by start.
pub struct Lanes(pub [Vec<Row>; LANES]);

impl Lanes {
    pub fn new() -> Self {
        Self(std::array::from_fn(|_| Vec::with_capacity(MAX_OWN)))
    }

    /// Takes the rows of a job out of the lanes of a set.
    pub fn remove(&mut self, job: u16, lanes: u16) {
        let mut left = lanes;
        while left != 0 {
            let lane = left.trailing_zeros() as usize;
            left &= left - 1;
            self.0[lane].retain(|row| row.job != job);
        }
    }

    fn insert(&mut self, lane: usize, row: Row) {
        let rows = &mut self.0[lane];
        let at = rows.partition_point(|other| other.start < row.start);
        rows.insert(at, row);
    }

    /// The least tick, not before `ready`, from which `length` ticks meet no row of a lane.
    fn fit(&self, lane: usize, ready: u64, length: u64) -> u64 {
        let rows = &self.0[lane];
        let first = rows.partition_point(|row| u64::from(row.finish) <= ready);
        let mut start = ready;
        for row in &rows[first..] {
            if start + length <= u64::from(row.start) {
                break;
            }
            start = u64::from(row.finish);
        }
        start
    }
}

/// What placing a whole job came to, and the lanes that its rows are in.
#[derive(Clone, Copy)]
pub struct Placed {
    pub cost: u64,
    pub rows: usize,
    pub first_start: u64,
    pub last_finish: u64,
    pub lanes: u16,
}

#[derive(Clone, Copy, Default)]
struct Seat {
    machine: usize,
    finish: u64,
}

#[derive(Clone, Copy, Default)]
struct Sending {
    task: u8,
    from: usize,
    start: u64,
    finish: u64,
}

#[derive(Clone, Copy)]
struct Trial {
    machine: usize,
    start: u64,
    cost: u64,
    count: usize,
    link: [Sending; MAX_SENDERS],
}

/// Places a checked job. Its rows are left in the lanes of the answer; the
/// error is the task that found no good trial.
pub fn place(lanes: &mut Lanes, clock: u64, job: &Job) -> (Placed, Result<(), usize>) {
    let tasks = job.tasks();
    let mut senders = [0u32; MAX_TASKS];
    let mut inputs = [(0u8, 0u8); MAX_TASKS];
    for (at, message) in job.messages().iter().enumerate() {
        let to = message.to as usize - 1;
        if senders[to] == 0 {
            inputs[to].0 = at as u8;
        }
        inputs[to].1 = at as u8 + 1;
        senders[to] |= 1 << (message.from - 1);
    }
    let mut seats = [Seat::default(); MAX_TASKS];
    let mut waiting: u32 = (1 << tasks.len()) - 1;
    let mut floor = clock + job.sched;
    let mut placed = Placed {
        cost: 0,
        rows: 0,
        first_start: u64::MAX,
        last_finish: 0,
        lanes: 0,
    };
    while waiting != 0 {
        let index = next(tasks, waiting, &senders);
        let task = &tasks[index];
        floor += task.dispatch;
        let (first, past) = inputs[index];
        let messages = &job.messages()[usize::from(first)..usize::from(past)];
        let Some(trial) = best(lanes, task, floor, messages, &seats) else {
            return (placed, Err(index + 1));
        };
        let finish = trial.start + task.run[trial.machine];
        keep(lanes, &mut placed, job.number as u16, index, &trial, finish);
        seats[index] = Seat {
            machine: trial.machine,
            finish,
        };
        waiting &= !(1 << index);
    }
    (placed, Ok(()))
}

/// Of the tasks whose senders are all placed the earliest by deadline, then number.
fn next(tasks: &[Task], waiting: u32, senders: &[u32; MAX_TASKS]) -> usize {
    let mut best = MAX_TASKS;
    let mut deadline = u64::MAX;
    let mut left = waiting;
    while left != 0 {
        let index = left.trailing_zeros() as usize;
        left &= left - 1;
        if senders[index] & waiting == 0 && tasks[index].deadline < deadline {
            best = index;
            deadline = tasks[index].deadline;
        }
    }
    best
}

/// Books the rows of a trial that is kept.
fn keep(lanes: &mut Lanes, placed: &mut Placed, job: u16, index: usize, trial: &Trial, finish: u64) {
    let task = index as u8 + 1;
    for link in &trial.link[..trial.count] {
        let lane = link.from * MACHINES + trial.machine;
        placed.lanes |= 1 << lane;
        lanes.insert(
            lane,
            Row {
                start: link.start as u32,
                finish: link.finish as u32,
                job,
                from: link.task,
                task,
            },
        );
    }
    let lane = trial.machine * MACHINES + trial.machine;
    placed.lanes |= 1 << lane;
    lanes.insert(
        lane,
        Row {
            start: trial.start as u32,
            finish: finish as u32,
            job,
            from: 0,
            task,
        },
    );
    placed.cost += trial.cost;
    placed.rows += trial.count + 1;
    placed.first_start = placed.first_start.min(trial.start);
    placed.last_finish = placed.last_finish.max(finish);
}

/// The good trial of lowest cost, then of earliest start, then of lowest machine.
fn best(
    lanes: &Lanes,
    task: &Task,
    floor: u64,
    messages: &[Message],
    seats: &[Seat; MAX_TASKS],
) -> Option<Trial> {
    let mut kept: Option<Trial> = None;
    for machine in 0..MACHINES {
        let run = task.run[machine];
        if run == 0 {
            continue;
        }
        let trial = attempt(lanes, machine, run, floor, messages, seats);
        if trial.start + run > task.deadline {
            continue;
        }
        match &kept {
            Some(other) if (other.cost, other.start) <= (trial.cost, trial.start) => {}
            _ => kept = Some(trial),
        }
    }
    kept
}

fn attempt(
    lanes: &Lanes,
    machine: usize,
    run: u64,
    floor: u64,
    messages: &[Message],
    seats: &[Seat; MAX_TASKS],
) -> Trial {
    let mut trial = Trial {
        machine,
        start: 0,
        cost: MACHINE_RATE[machine] * run,
        count: 0,
        link: [Sending::default(); MAX_SENDERS],
    };
    let mut ready = floor;
    for message in messages {
        let sender = seats[message.from as usize - 1];
        if sender.machine == machine || message.volume == 0 {
            ready = ready.max(sender.finish);
            continue;
        }
        let length = LINK_TIME[sender.machine][machine] * message.volume;
        let start = beside(lanes, &trial, sender, length);
        let finish = start + length;
        trial.link[trial.count] = Sending {
            task: message.from as u8,
            from: sender.machine,
            start,
            finish,
        };
        trial.count += 1;
        trial.cost += LINK_RATE[sender.machine][machine] * length;
        ready = ready.max(finish);
    }
    trial.start = lanes.fit(machine * MACHINES + machine, ready, run);
    trial
}

/// As `fit` on the link from the sender's machine, and meeting no message of
/// the trial that is on it either.
fn beside(lanes: &Lanes, trial: &Trial, sender: Seat, length: u64) -> u64 {
    let lane = sender.machine * MACHINES + trial.machine;
    let mut start = lanes.fit(lane, sender.finish, length);
    let meets = |other: &&Sending, start: u64| {
        other.from == sender.machine && other.start < start + length && start < other.finish
    };
    while let Some(met) = trial.link[..trial.count].iter().find(|other| meets(other, start)) {
        start = lanes.fit(lane, met.finish, length);
    }
    start
}
