//! The reader and the writer of a job text: lines of a key, `=`, a number and a
//! line feed.

use crate::job::{Job, Message, Task, MAX_MESSAGES, MAX_TASKS};
use crate::listing::field;

const MAX_DIGITS: usize = 10;
const MAX_FIGURE: u64 = 9_999_999_999;

const BAD_KEY: u8 = 14;
const BAD_FIGURE: u8 = 15;
const BAD_COUNT: u8 = 16;
const UNWRITABLE: u8 = 20;
const NO_ROOM: u8 = 21;

/// Why a text could not be read, and the place of the refused line's first
/// byte in the text handed over.
#[derive(Clone, Copy, Debug, PartialEq, Eq)]
pub struct Refusal {
    pub number: u8,
    pub place: usize,
}

/// Reads one line with the given key, equals sign included; answers its figure
/// and the place after the line.
pub fn read_line(text: &[u8], key: &[u8]) -> Result<(u64, usize), Refusal> {
    let mut lines = Lines { text, place: 0 };
    let figure = lines.figure(key)?;
    Ok((figure, lines.place))
}

/// Reads a job; answers it and the place after its last line.
pub fn read_job(text: &[u8]) -> Result<(Job, usize), Refusal> {
    let mut lines = Lines { text, place: 0 };
    let mut job = Job {
        number: lines.figure(b"job=")?,
        sched: lines.figure(b"sched=")?,
        task_count: lines.count(b"tasks=", 1, MAX_TASKS)?,
        ..Job::default()
    };
    for task in &mut job.task[..job.task_count] {
        *task = Task {
            deadline: lines.figure(b"deadline=")?,
            dispatch: lines.figure(b"dispatch=")?,
            run: [
                lines.figure(b"run=")?,
                lines.figure(b"run=")?,
                lines.figure(b"run=")?,
                lines.figure(b"run=")?,
            ],
        };
    }
    job.message_count = lines.count(b"messages=", 0, MAX_MESSAGES)?;
    for message in &mut job.message[..job.message_count] {
        *message = Message {
            from: lines.figure(b"from=")?,
            to: lines.figure(b"to=")?,
            volume: lines.figure(b"volume=")?,
        };
    }
    Ok((job, lines.place))
}

/// Writes a job's text from the buffer's start on and answers its length; later
/// bytes stay. A refusal, its number the error, writes nothing.
pub fn write_job(job: &Job, buffer: &mut [u8]) -> Result<usize, u8> {
    if !(1..=MAX_TASKS).contains(&job.task_count) || job.message_count > MAX_MESSAGES {
        return Err(UNWRITABLE);
    }
    let mut text = Vec::new();
    let mut fits = true;
    let mut line = |key, figure| {
        fits &= figure <= MAX_FIGURE;
        field(&mut text, key, figure);
    };
    line("job", job.number);
    line("sched", job.sched);
    line("tasks", job.task_count as u64);
    for task in job.tasks() {
        line("deadline", task.deadline);
        line("dispatch", task.dispatch);
        task.run.iter().for_each(|&run| line("run", run));
    }
    line("messages", job.message_count as u64);
    for message in job.messages() {
        line("from", message.from);
        line("to", message.to);
        line("volume", message.volume);
    }
    if !fits {
        return Err(UNWRITABLE);
    }
    let room = buffer.get_mut(..text.len()).ok_or(NO_ROOM)?;
    room.copy_from_slice(&text);
    Ok(text.len())
}

struct Lines<'a> {
    text: &'a [u8],
    /// The first byte of the next line.
    place: usize,
}

impl Lines<'_> {
    fn refusal<T>(&self, number: u8) -> Result<T, Refusal> {
        Err(Refusal {
            number,
            place: self.place,
        })
    }

    /// The figure of the line that begins here, and the place after it.
    fn peek(&self, key: &[u8]) -> Result<(u64, usize), Refusal> {
        let Some(rest) = self.text[self.place..].strip_prefix(key) else {
            return self.refusal(BAD_KEY);
        };
        // One digit too many is enough to refuse the line.
        let digits = rest
            .iter()
            .take(MAX_DIGITS + 1)
            .take_while(|byte| byte.is_ascii_digit())
            .count();
        let sound = match digits {
            0 => false,
            1 => true,
            _ => digits <= MAX_DIGITS && rest[0] != b'0',
        };
        if !sound || rest.get(digits) != Some(&b'\n') {
            return self.refusal(BAD_FIGURE);
        }
        let figure = rest[..digits]
            .iter()
            .fold(0, |sum, byte| sum * 10 + u64::from(byte - b'0'));
        Ok((figure, self.place + key.len() + digits + 1))
    }

    fn figure(&mut self, key: &[u8]) -> Result<u64, Refusal> {
        let (figure, next) = self.peek(key)?;
        self.place = next;
        Ok(figure)
    }

    fn count(&mut self, key: &[u8], least: usize, most: usize) -> Result<usize, Refusal> {
        let (figure, next) = self.peek(key)?;
        if figure < least as u64 || figure > most as u64 {
            return self.refusal(BAD_COUNT);
        }
        self.place = next;
        Ok(figure as usize)
    }
}

#[cfg(test)]
mod tests {
    use super::*;

    const TEXT: &[u8] = b"job=7\nsched=0\ntasks=1\ndeadline=10\ndispatch=1\n\
        run=4\nrun=5\nrun=0\nrun=2\nmessages=0\n";

    fn refusal(text: &[u8]) -> (u8, usize) {
        let refusal = read_job(text).unwrap_err();
        (refusal.number, refusal.place)
    }

    #[test]
    fn a_job_and_the_place_after_it() {
        let (job, place) = read_job(&[TEXT, b"act=clock\n"].concat()).unwrap();
        assert_eq!(place, TEXT.len());
        assert_eq!(
            (job.number, job.sched, job.task_count, job.message_count),
            (7, 0, 1, 0)
        );
        assert_eq!(
            (job.task[0].deadline, job.task[0].dispatch, job.task[0].run),
            (10, 1, [4, 5, 0, 2])
        );
    }

    #[test]
    fn a_text_written() {
        let (mut job, _) = read_job(TEXT).unwrap();
        for room in [0, TEXT.len() - 1, TEXT.len(), TEXT.len() + 1] {
            let mut buffer = vec![255; room];
            let due = if room < TEXT.len() {
                Err(21)
            } else {
                Ok(TEXT.len())
            };
            assert_eq!(write_job(&job, &mut buffer), due);
            let (text, rest) = buffer.split_at(due.unwrap_or(0));
            assert!(text.is_empty() || text == TEXT);
            assert!(rest.iter().all(|&byte| byte == 255));
        }
        job.sched = MAX_FIGURE + 1;
        assert_eq!(write_job(&job, &mut []), Err(20));
        job.sched = MAX_FIGURE;
        assert_eq!(write_job(&job, &mut []), Err(21));
        for count in [0, MAX_TASKS + 1, usize::MAX] {
            job.task_count = count;
            assert_eq!(write_job(&job, &mut []), Err(20));
        }
    }

    #[test]
    fn a_text_cut_anywhere() {
        // Ended between lines or inside a key: 14; after the equals sign: 15.
        let mut start = 0;
        for line in TEXT.split_inclusive(|&byte| byte == b'\n') {
            let key = line.iter().position(|&byte| byte == b'=').unwrap() + 1;
            for cut in 0..line.len() {
                let number = if cut < key { 14 } else { 15 };
                assert_eq!(refusal(&TEXT[..start + cut]), (number, start));
            }
            start += line.len();
        }
    }

    #[test]
    fn key_before_figure_before_count() {
        assert_eq!(refusal(b"job=7\nsched=0\ntask=017\n"), (14, 14));
        assert_eq!(refusal(b"job=7\nsched=0\ntasks=017\n"), (15, 14));
        assert_eq!(refusal(b"job=7\nsched=0\ntasks=17\n"), (16, 14));
        assert_eq!(refusal(b"job=7\nsched=0\ntasks=0\n"), (16, 14));
        assert_eq!(refusal(b"job=7\nsched=0\ntasks=9999999999\n"), (16, 14));
        assert_eq!(refusal(b"job=7\nsched=0\ntasks=17"), (15, 14));
    }

    #[test]
    fn figures() {
        let read = |text: &[u8]| read_line(text, b"tick=").map_err(|refusal| refusal.number);
        assert_eq!(read(b"tick=0\n"), Ok((0, 7)));
        assert_eq!(read(b"tick=9999999999\nmore"), Ok((9_999_999_999, 16)));
        for bad in [
            "",
            "\n",
            "00\n",
            "01\n",
            "10000000000\n",
            "00000000000\n",
            "1\r\n",
            "1",
            "+1\n",
            "-1\n",
            " 1\n",
            "1 \n",
            "1_0\n",
            "1a\n",
            "a\n",
            "1.0\n",
            "\0\n",
            "/\n",
            ":\n",
        ] {
            assert_eq!(read(format!("tick={bad}").as_bytes()), Err(15), "{bad:?}");
        }
        for bad in [
            "",
            "\n",
            "t",
            "tick",
            "tick1\n",
            "tick =1\n",
            "Tick=1\n",
            " tick=1\n",
            "tack=1\n",
        ] {
            assert_eq!(read(bad.as_bytes()), Err(14), "{bad:?}");
        }
    }
}
