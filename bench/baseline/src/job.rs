//! A job as submitted, and the ranges that its figures must keep.

pub const MACHINES: usize = 4;
pub const MAX_TASKS: usize = 16;
pub const MAX_MESSAGES: usize = 32;

const MAX_JOB: u64 = 65_535;
const MAX_SPAN: u64 = 1_000_000;
const MAX_DEADLINE: u64 = 1_000_000_000;
const MAX_VOLUME: u64 = 1_000;

#[derive(Clone, Copy, Debug, Default)]
pub struct Task {
    pub deadline: u64,
    pub dispatch: u64,
    /// Run time on each machine; 0 where the machine cannot run the task.
    pub run: [u64; MACHINES],
}

/// A message; its tasks are numbered from 1.
#[derive(Clone, Copy, Debug, Default)]
pub struct Message {
    pub from: u64,
    pub to: u64,
    pub volume: u64,
}

/// A job whose figures may still be out of range; see [`Job::check`].
#[derive(Clone, Debug, Default)]
pub struct Job {
    pub number: u64,
    pub sched: u64,
    pub task_count: usize,
    pub task: [Task; MAX_TASKS],
    pub message_count: usize,
    pub message: [Message; MAX_MESSAGES],
}

impl Job {
    pub fn tasks(&self) -> &[Task] {
        &self.task[..self.task_count]
    }

    pub fn messages(&self) -> &[Message] {
        &self.message[..self.message_count]
    }

    /// Judges the job on its own, without a register: refusals 1 to 4.
    pub fn check(&self) -> Result<(), u8> {
        if !(1..=MAX_JOB).contains(&self.number) {
            return Err(1);
        }
        if !(1..=MAX_TASKS).contains(&self.task_count) || self.message_count > MAX_MESSAGES {
            return Err(2);
        }
        if self.sched > MAX_SPAN || !self.tasks().iter().all(Task::in_range) {
            return Err(3);
        }
        if !self.messages_in_order() {
            return Err(4);
        }
        Ok(())
    }

    /// Each message runs from a lower to a higher task of the job, and they
    /// stand strictly ascending by receiver, then sender.
    fn messages_in_order(&self) -> bool {
        let tasks = self.task_count as u64;
        self.messages().iter().all(|message| {
            1 <= message.from
                && message.from < message.to
                && message.to <= tasks
                && message.volume <= MAX_VOLUME
        }) && self
            .messages()
            .windows(2)
            .all(|pair| (pair[0].to, pair[0].from) < (pair[1].to, pair[1].from))
    }
}

impl Task {
    fn in_range(&self) -> bool {
        (1..=MAX_DEADLINE).contains(&self.deadline)
            && self.dispatch <= MAX_SPAN
            && self.run.iter().all(|&run| run <= MAX_SPAN)
    }

    /// Whether no machine can end the task in time even if started at once.
    pub fn is_hopeless(&self, clock: u64) -> bool {
        match self.run.iter().filter(|&&run| run > 0).min() {
            Some(least) => clock + least > self.deadline,
            None => true,
        }
    }
}
