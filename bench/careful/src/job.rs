//! A job as submitted, and the ranges that its figures must keep.

pub const MACHINES: usize = 4;
pub const MAX_TASKS: usize = 16;
pub const MAX_MESSAGES: usize = 32;

#[derive(Clone, Copy, Default)]
pub struct Task {
    pub deadline: u64,
    pub dispatch: u64,
    pub run: [u64; MACHINES],
}

#[derive(Clone, Copy, Default)]
pub struct Message {
    pub from: u64,
    pub to: u64,
    pub volume: u64,
}

/// Entries past the counts are left over from jobs read before.
#[derive(Default)]
pub struct Job {
    pub number: u64,
    pub sched: u64,
    pub task_count: usize,
    pub task: [Task; MAX_TASKS],
    pub message_count: usize,
    pub message: [Message; MAX_MESSAGES],
}

impl Job {
    pub fn tasks(&self) -> &[Task] {
        &self.task[..self.task_count]
    }

    pub fn messages(&self) -> &[Message] {
        &self.message[..self.message_count]
    }

    /// Refusals 1, 3 and 4; the reader forestalls 2. 0 if none applies.
    pub fn check(&self) -> u8 {
        if self.number.wrapping_sub(1) >= 65_535 {
            return 1;
        }
        if self.sched > 1_000_000 || !self.tasks().iter().all(Task::in_range) {
            return 3;
        }
        let tasks = self.task_count as u64;
        let mut last = 0;
        for message in self.messages() {
            // Receiver, then sender, as one number.
            let place = message.to << 8 | message.from;
            if message.from == 0
                || message.from >= message.to
                || message.to > tasks
                || message.volume > 1_000
                || place <= last
            {
                return 4;
            }
            last = place;
        }
        0
    }

    /// The lowest task that no machine can end in time even if started at once, or 0.
    pub fn hopeless(&self, clock: u64) -> usize {
        let hopeless = |task: &Task| {
            !task
                .run
                .iter()
                .any(|&run| run > 0 && clock + run <= task.deadline)
        };
        self.tasks().iter().position(hopeless).map_or(0, |at| at + 1)
    }
}

impl Task {
    fn in_range(&self) -> bool {
        self.deadline.wrapping_sub(1) < 1_000_000_000
            && self.dispatch <= 1_000_000
            && self.run.iter().all(|&run| run <= 1_000_000)
    }
}
