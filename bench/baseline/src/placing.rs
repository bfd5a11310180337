//! Placing the tasks of a job, one after the other, beside the rows there are.

use crate::job::{Job, Message, Task, MACHINES, MAX_TASKS};

/// Failure rates, in units of 10^-12 per tick.
const MACHINE_RATE: [u64; MACHINES] = [10, 4, 10, 25];
const LINK_RATE: [[u64; MACHINES]; MACHINES] =
    [[0, 5, 8, 6], [5, 0, 7, 9], [8, 7, 0, 5], [6, 9, 5, 0]];
/// Ticks per unit of volume.
const LINK_TIME: [[u64; MACHINES]; MACHINES] =
    [[0, 2, 3, 1], [2, 0, 1, 4], [3, 1, 0, 2], [1, 4, 2, 0]];

/// A task has at most this many senders.
const MAX_SENDERS: usize = MAX_TASKS - 1;

/// One booking. The lane that it stands in says on which machine or link.
#[derive(Clone, Copy, Debug, Default, PartialEq, Eq)]
pub struct Row {
    pub start: u64,
    pub finish: u64,
    pub job: u16,
    /// The sending task of a message; 0 in the row of a task.
    pub from: u8,
    /// The task, or the receiving task of a message.
    pub task: u8,
}

/// The rows of each machine and each link, by ascending start. Rows of one lane
/// never meet, so their finishes ascend too.
#[derive(Clone, Debug, Default, PartialEq, Eq)]
pub struct Lanes([[Vec<Row>; MACHINES]; MACHINES]);

impl Lanes {
    /// Rows of the machine, counted from 0.
    pub fn machine(&self, machine: usize) -> &[Row] {
        &self.0[machine][machine]
    }

    /// Rows of the link between two different machines, counted from 0.
    pub fn link(&self, from: usize, to: usize) -> &[Row] {
        &self.0[from][to]
    }

    pub fn remove_job(&mut self, job: u16) {
        for lane in self.0.iter_mut().flatten() {
            lane.retain(|row| row.job != job);
        }
    }

    fn insert(&mut self, from: usize, to: usize, row: Row) {
        let lane = &mut self.0[from][to];
        let at = lane.partition_point(|other| other.start < row.start);
        lane.insert(at, row);
    }
}

/// What placing a whole job came to.
#[derive(Clone, Copy, Debug, PartialEq, Eq)]
pub struct Placed {
    pub cost: u64,
    pub rows: usize,
    pub first_start: u64,
    pub last_finish: u64,
}

/// Places a job that has been checked, and leaves its rows in the lanes. The
/// error is the task that found no good trial; the rows of those before it are
/// then still in the lanes.
pub fn place(lanes: &mut Lanes, clock: u64, job: &Job) -> Result<Placed, usize> {
    let tasks = job.tasks();
    let mut senders = [0u32; MAX_TASKS];
    for message in job.messages() {
        senders[message.to as usize - 1] |= 1 << (message.from - 1);
    }

    let mut seats = [Seat::default(); MAX_TASKS];
    let mut waiting: u32 = (1 << tasks.len()) - 1;
    let mut floor = clock + job.sched;
    let mut placed = Placed {
        cost: 0,
        rows: 0,
        first_start: u64::MAX,
        last_finish: 0,
    };

    // A sender has the lower number, so the lowest waiting task is ready.
    while let Some(index) = (0..tasks.len())
        .filter(|&index| waiting >> index & 1 == 1 && senders[index] & waiting == 0)
        .min_by_key(|&index| tasks[index].deadline)
    {
        let task = &tasks[index];
        floor += task.dispatch;
        let inputs = inputs(job.messages(), index);
        let trial = best_trial(lanes, task, floor, inputs, &seats).ok_or(index + 1)?;

        let row = Row {
            job: job.number as u16,
            task: index as u8 + 1,
            ..Row::default()
        };
        for link in trial.links() {
            let row = Row {
                start: link.start,
                finish: link.finish,
                from: link.task,
                ..row
            };
            lanes.insert(link.from, trial.machine, row);
        }
        let finish = trial.start + task.run[trial.machine];
        lanes.insert(
            trial.machine,
            trial.machine,
            Row {
                start: trial.start,
                finish,
                ..row
            },
        );

        seats[index] = Seat {
            machine: trial.machine,
            finish,
        };
        waiting &= !(1 << index);
        placed.cost += trial.cost;
        placed.rows += trial.link_count + 1;
        // A message lies between two tasks, so the tasks bound the job.
        placed.first_start = placed.first_start.min(trial.start);
        placed.last_finish = placed.last_finish.max(finish);
    }
    Ok(placed)
}

/// The messages into one task; they stand by receiver, then sender.
fn inputs(messages: &[Message], index: usize) -> &[Message] {
    let receiver = index as u64 + 1;
    let first = messages.partition_point(|message| message.to < receiver);
    let past = messages.partition_point(|message| message.to <= receiver);
    &messages[first..past]
}

/// Where a task has been placed.
#[derive(Clone, Copy, Default)]
struct Seat {
    machine: usize,
    finish: u64,
}

/// A message tried on the link from a machine to that of the trial.
#[derive(Clone, Copy, Default)]
struct Sending {
    task: u8,
    from: usize,
    start: u64,
    finish: u64,
}

#[derive(Clone, Copy)]
struct Trial {
    machine: usize,
    start: u64,
    cost: u64,
    link_count: usize,
    link: [Sending; MAX_SENDERS],
}

impl Trial {
    fn links(&self) -> &[Sending] {
        &self.link[..self.link_count]
    }
}

/// The good trial of lowest cost, then of earliest start, then of lowest machine.
fn best_trial(
    lanes: &Lanes,
    task: &Task,
    floor: u64,
    inputs: &[Message],
    seats: &[Seat; MAX_TASKS],
) -> Option<Trial> {
    // Of equal trials the first is kept, which is that of the lowest machine.
    (0..MACHINES)
        .filter(|&machine| task.run[machine] > 0)
        .filter_map(|machine| try_machine(lanes, task, machine, floor, inputs, seats))
        .min_by_key(|trial| (trial.cost, trial.start))
}

/// The trial of a task on one machine, if it is good.
fn try_machine(
    lanes: &Lanes,
    task: &Task,
    machine: usize,
    floor: u64,
    inputs: &[Message],
    seats: &[Seat; MAX_TASKS],
) -> Option<Trial> {
    let run = task.run[machine];
    let mut trial = Trial {
        machine,
        start: 0,
        cost: MACHINE_RATE[machine] * run,
        link_count: 0,
        link: [Sending::default(); MAX_SENDERS],
    };
    let mut ready = floor;
    for message in inputs {
        let sender = seats[message.from as usize - 1];
        if sender.machine == machine || message.volume == 0 {
            ready = ready.max(sender.finish);
            continue;
        }
        let length = LINK_TIME[sender.machine][machine] * message.volume;
        let lane = lanes.link(sender.machine, machine);
        let start = fit_beside(lane, trial.links(), sender, length);
        let finish = start + length;
        trial.link[trial.link_count] = Sending {
            task: message.from as u8,
            from: sender.machine,
            start,
            finish,
        };
        trial.link_count += 1;
        trial.cost += LINK_RATE[sender.machine][machine] * length;
        ready = ready.max(finish);
    }
    trial.start = fit(lanes.machine(machine), ready, run);
    (trial.start + run <= task.deadline).then_some(trial)
}

/// The least tick, not before `ready`, from which `length` ticks meet no row.
fn fit(lane: &[Row], ready: u64, length: u64) -> u64 {
    let first = lane.partition_point(|row| row.finish <= ready);
    let mut start = ready;
    for row in &lane[first..] {
        if start + length <= row.start {
            break;
        }
        start = row.finish;
    }
    start
}

/// As [`fit`] from the sender's finish, and meeting no message of this trial
/// already on the link either.
fn fit_beside(lane: &[Row], tried: &[Sending], sender: Seat, length: u64) -> u64 {
    let mut start = fit(lane, sender.finish, length);
    while let Some(met) = tried.iter().find(|other| {
        other.from == sender.machine && other.start < start + length && start < other.finish
    }) {
        start = fit(lane, met.finish, length);
    }
    start
}

#[cfg(test)]
mod tests {
    use super::*;

    fn lane(spans: &[(u64, u64)]) -> Vec<Row> {
        spans
            .iter()
            .map(|&(start, finish)| Row {
                start,
                finish,
                ..Row::default()
            })
            .collect()
    }

    #[test]
    fn examples_f_and_g() {
        let lane = lane(&[(1, 5), (9, 12)]);
        assert_eq!(fit(&lane, 0, 4), 5);
        assert_eq!(fit(&lane, 0, 5), 12);
    }

    #[test]
    fn the_edges_of_a_gap() {
        let lane = lane(&[(1, 5), (9, 12)]);
        assert_eq!(fit(&lane, 0, 1), 0);
        assert_eq!(fit(&lane, 1, 1), 5);
        assert_eq!(fit(&lane, 4, 1), 5);
        assert_eq!(fit(&lane, 5, 4), 5);
        assert_eq!(fit(&lane, 6, 4), 12);
        assert_eq!(fit(&lane, 8, 1), 8);
        assert_eq!(fit(&lane, 12, 9), 12);
        assert_eq!(fit(&[], 3, 9), 3);
    }

    #[test]
    fn siblings_of_a_message_on_the_same_link_count() {
        let tried = |from, start, finish| Sending {
            task: 1,
            from,
            start,
            finish,
        };
        let sender = Seat {
            machine: 0,
            finish: 6,
        };
        assert_eq!(fit_beside(&[], &[tried(0, 4, 8)], sender, 4), 8);
        assert_eq!(fit_beside(&[], &[tried(2, 4, 8)], sender, 4), 6);
        assert_eq!(
            fit_beside(&lane(&[(10, 11)]), &[tried(0, 4, 8)], sender, 4),
            11
        );
        assert_eq!(
            fit_beside(
                &lane(&[(8, 9)]),
                &[tried(0, 12, 14), tried(0, 6, 8)],
                sender,
                4
            ),
            14
        );
    }
}
