//! The reader of scripts: lines of a key, `=`, a number and a line feed.

use crate::job::{Job, MAX_MESSAGES, MAX_TASKS};

const BAD_KEY: u8 = 14;
const BAD_FIGURE: u8 = 15;
const BAD_COUNT: u8 = 16;

pub struct Reader<'a> {
    rest: &'a [u8],
}

impl<'a> Reader<'a> {
    pub fn new(rest: &'a [u8]) -> Self {
        Self { rest }
    }

    pub fn ended(&self) -> bool {
        self.rest.is_empty()
    }

    /// Passes over these bytes if they stand here.
    pub fn skip(&mut self, bytes: &[u8]) -> bool {
        match self.rest.strip_prefix(bytes) {
            Some(rest) => {
                self.rest = rest;
                true
            }
            None => false,
        }
    }

    /// The figure of a line with this key.
    pub fn figure(&mut self, key: &[u8]) -> Result<u64, u8> {
        let Some(digits) = self.rest.strip_prefix(key) else {
            return Err(BAD_KEY);
        };
        let mut value = 0;
        let mut count = 0;
        loop {
            let Some(&byte) = digits.get(count) else {
                return Err(BAD_FIGURE);
            };
            let digit = byte.wrapping_sub(b'0');
            if digit > 9 {
                let sound = byte == b'\n' && (count == 1 || count > 1 && digits[0] != b'0');
                if !sound {
                    return Err(BAD_FIGURE);
                }
                self.rest = &digits[count + 1..];
                return Ok(value);
            }
            if count == 10 {
                return Err(BAD_FIGURE);
            }
            value = value * 10 + u64::from(digit);
            count += 1;
        }
    }

    fn count(&mut self, key: &[u8], least: u64, most: usize) -> Result<usize, u8> {
        let figure = self.figure(key)?;
        if figure < least || figure > most as u64 {
            return Err(BAD_COUNT);
        }
        Ok(figure as usize)
    }

    /// Reads a job over the one before it.
    pub fn job(&mut self, job: &mut Job) -> Result<(), u8> {
        job.number = self.figure(b"job=")?;
        job.sched = self.figure(b"sched=")?;
        job.task_count = self.count(b"tasks=", 1, MAX_TASKS)?;
        for task in &mut job.task[..job.task_count] {
            task.deadline = self.figure(b"deadline=")?;
            task.dispatch = self.figure(b"dispatch=")?;
            for run in &mut task.run {
                *run = self.figure(b"run=")?;
            }
        }
        job.message_count = self.count(b"messages=", 0, MAX_MESSAGES)?;
        for message in &mut job.message[..job.message_count] {
            message.from = self.figure(b"from=")?;
            message.to = self.figure(b"to=")?;
            message.volume = self.figure(b"volume=")?;
        }
        Ok(())
    }
}
