//! The cluster register for programs in Rust: a script to its output, and a job
//! to its text.
//!
//! Both are proved functions of the static library that `rt lib` writes in
//! `crates/exports`. `include/register.h` says what they ask of a caller. The functions
//! here ask nothing: slices keep those duties. A call of [`run`] or
//! [`run_into`] takes up to 32 KB of stack; every thread of the standard
//! library has more, unless it was asked for less.
//!
//! ```
//! let output = register::run(b"act=clock\ntick=5\n");
//! assert_eq!(output, b"answer=0\nclock=5\ntotal=0\nheld=0\n");
//!
//! let text = register::write_job(&[7, 0, 1, 10, 1, 4, 5, 0, 2, 0])?;
//! assert!(text.starts_with(b"job=7\nsched=0\ntasks=1\ndeadline=10\n"));
//! # Ok::<(), register::Refusal>(())
//! ```

#![deny(unsafe_code)]
#![warn(missing_docs)]

mod exported;

use std::error::Error;
use std::fmt;

/// The longest input that is acted on, in bytes.
pub const INPUT: usize = 65_536;

/// The bytes of the array that [`run_into`] fills. No input has a longer output.
pub const OUTPUT: usize = 184_320;

/// The most figures that a job has.
pub const FIGURES: usize = 196;

/// The bytes of the longest job text.
pub const TEXT: usize = 3_189;

/// Runs a script on a fresh register, and gives what the program `register`
/// prints for it.
///
/// Any bytes may be passed. What is wrong with a script stands in its output,
/// as a line `refused=` with a number. An input longer than [`INPUT`] is refused
/// so, by number 19, and nothing of it is acted on.
///
/// ```
/// let script = b"act=submit\njob=7\nsched=0\ntasks=1\ndeadline=10\ndispatch=1\n\
///     run=4\nrun=5\nrun=0\nrun=2\nmessages=0\n";
/// let output = register::run(script);
/// assert!(output.starts_with(b"answer=0\ntask=0\ncost=20\nrows=1\n"));
///
/// assert_eq!(register::run(b""), b"clock=0\ntotal=0\nheld=0\n");
/// assert_eq!(register::run(b"?"), b"refused=17\nclock=0\ntotal=0\nheld=0\n");
/// ```
pub fn run(input: &[u8]) -> Vec<u8> {
    let mut output = new_output();
    let count = run_into(input, &mut output);
    let mut output = Vec::from(output as Box<[u8]>);
    output.truncate(count);
    output.shrink_to_fit();
    output
}

/// Writes what [`run`] gives into an array, from its start on, and answers how
/// many bytes that is. The bytes after them stay as they are.
///
/// ```
/// let mut output = register::new_output();
/// let count = register::run_into(b"act=withdraw\njob=7\n", &mut output);
/// assert_eq!(&output[..count], b"answer=9\nclock=0\ntotal=0\nheld=0\n");
/// assert!(output[count..].iter().all(|&byte| byte == 0));
/// ```
pub fn run_into(input: &[u8], output: &mut [u8; OUTPUT]) -> usize {
    exported::run(input, output)
}

/// An array for [`run_into`], all bytes 0, that was never on the stack.
///
/// ```
/// let mut output = register::new_output();
/// for tick in ["3", "4"] {
///     let script = format!("act=clock\ntick={tick}\n");
///     let count = register::run_into(script.as_bytes(), &mut output);
///     assert!(output[..count].starts_with(b"answer=0\n"));
/// }
/// ```
pub fn new_output() -> Box<[u8; OUTPUT]> {
    let bytes = vec![0; OUTPUT].into_boxed_slice();
    bytes.try_into().expect("a slice of OUTPUT bytes")
}

/// Gives the text of a job, which is given as the figures of its lines.
///
/// The lines in order: `job`, `sched`, `tasks`; for each task `deadline`,
/// `dispatch` and four `run`; `messages`; for each message `from`, `to`,
/// `volume`. Any figures may be passed.
///
/// # Errors
///
/// [`Refusal::NotAJob`] if the figures are not those of a job.
///
/// ```
/// use register::{write_job, Refusal};
///
/// let figures = [7, 0, 1, 10, 1, 4, 5, 0, 2, 0];
/// let text = write_job(&figures)?;
/// assert_eq!(text.len(), 80);
/// assert!(text.ends_with(b"run=2\nmessages=0\n"));
///
/// // The last line is missing.
/// assert_eq!(write_job(&figures[..9]), Err(Refusal::NotAJob));
/// # Ok::<(), Refusal>(())
/// ```
pub fn write_job(figures: &[u64]) -> Result<Vec<u8>, Refusal> {
    let mut text = vec![0; TEXT];
    let length = write_job_into(figures, &mut text)?;
    text.truncate(length);
    text.shrink_to_fit();
    Ok(text)
}

/// Writes what [`write_job`] gives into a buffer, from its start on, and answers
/// how many bytes that is. The bytes after them stay as they are, and a refusal
/// writes nothing.
///
/// # Errors
///
/// [`Refusal::NotAJob`] if the figures are not those of a job, whatever the
/// buffer is; [`Refusal::TooShort`] if the text is longer than the buffer. One of
/// [`TEXT`] bytes is long enough for every job.
///
/// ```
/// use register::{write_job_into, Refusal};
///
/// let figures = [7, 0, 1, 10, 1, 4, 5, 0, 2, 0];
/// let mut buffer = [b'.'; 82];
/// assert_eq!(write_job_into(&figures, &mut buffer), Ok(80));
/// assert!(buffer.ends_with(b"messages=0\n.."));
///
/// assert_eq!(write_job_into(&figures, &mut buffer[..79]), Err(Refusal::TooShort));
/// assert_eq!(write_job_into(&[], &mut []), Err(Refusal::NotAJob));
/// ```
pub fn write_job_into(figures: &[u64], output: &mut [u8]) -> Result<usize, Refusal> {
    // The library answers 0, 20 or 21.
    match exported::write_job(figures, output) {
        (0, length) => Ok(length),
        (21, _) => Err(Refusal::TooShort),
        _ => Err(Refusal::NotAJob),
    }
}

/// Why a job text was not written.
///
/// ```
/// use register::Refusal;
///
/// assert_eq!(Refusal::NotAJob.number(), 20);
/// assert_eq!(
///     Refusal::TooShort.to_string(),
///     "refused 21: the buffer is too short for the text"
/// );
/// ```
#[derive(Clone, Copy, Debug, PartialEq, Eq, Hash)]
pub enum Refusal {
    /// 20: too few or too many figures, a count out of range, or a figure of
    /// more than ten digits. It is judged first.
    NotAJob,
    /// 21: the buffer is too short for the text.
    TooShort,
}

impl Refusal {
    /// Its number in the documents of the register.
    pub const fn number(self) -> u64 {
        match self {
            Self::NotAJob => 20,
            Self::TooShort => 21,
        }
    }
}

impl fmt::Display for Refusal {
    fn fmt(&self, formatter: &mut fmt::Formatter<'_>) -> fmt::Result {
        let reason = match self {
            Self::NotAJob => "the figures are not those of a job",
            Self::TooShort => "the buffer is too short for the text",
        };
        write!(formatter, "refused {}: {reason}", self.number())
    }
}

impl Error for Refusal {}

#[cfg(test)]
mod tests {
    use super::*;

    const EXAMPLE: [u64; 10] = [7, 0, 1, 10, 1, 4, 5, 0, 2, 0];

    #[test]
    fn an_output_has_no_spare_room() {
        let output = run(b"");
        assert_eq!(output.len(), 23);
        assert!(output.capacity() < OUTPUT);
    }

    #[test]
    fn a_refusal_answers_length_0() {
        assert_eq!(exported::write_job(&[], &mut []), (20, 0));
        assert_eq!(exported::write_job(&EXAMPLE, &mut []), (21, 0));
        assert_eq!(exported::write_job(&EXAMPLE, &mut [0; 79]), (21, 0));
        assert_eq!(exported::write_job(&EXAMPLE, &mut [0; 80]), (0, 80));
    }

    #[test]
    fn the_longest_text_fits() {
        let mut figures = [9_999_999_999; FIGURES];
        figures[2] = 16;
        figures[3 + 6 * 16] = 32;
        assert_eq!(write_job(&figures).map(|text| text.len()), Ok(TEXT));
    }

    #[test]
    fn refusals_are_errors() {
        let refusal: Box<dyn Error + Send + Sync> = Refusal::NotAJob.into();
        assert_eq!(
            refusal.to_string(),
            "refused 20: the figures are not those of a job"
        );
        assert!(refusal.source().is_none());
        assert_eq!(
            [Refusal::NotAJob, Refusal::TooShort].map(Refusal::number),
            [20, 21]
        );
    }
}
