//! The cluster register in ordinary Rust, as a measure for other versions.
//!
//! [`run`] is the whole program but for reading standard input and writing
//! standard output.

pub mod job;
pub mod listing;
pub mod placing;
pub mod register;
pub mod text;

use register::Register;

/// The longest input that is acted on, in bytes.
pub const INPUT_LIMIT: usize = 65_536;

const BAD_ACT: u8 = 17;
const INPUT_TOO_LONG: u8 = 19;

/// Acts on a script and answers everything that the program prints.
pub fn run(input: &[u8]) -> Vec<u8> {
    let mut out = Vec::with_capacity(4096);
    let mut register = Register::new();

    let ended = if input.len() > INPUT_LIMIT {
        Err(INPUT_TOO_LONG)
    } else {
        act(input, &mut register, &mut out)
    };
    if let Err(number) = ended {
        listing::field(&mut out, "refused", u64::from(number));
    }
    listing::register(&mut out, &register);
    out
}

/// Makes the calls of a script in turn, up to its end or to the first line
/// that cannot be read; the error is the number of the reading refusal.
fn act(mut script: &[u8], register: &mut Register, out: &mut Vec<u8>) -> Result<(), u8> {
    while !script.is_empty() {
        if let Some(rest) = script.strip_prefix(b"act=submit\n") {
            let (job, used) = text::read_job(rest).map_err(|refusal| refusal.number)?;
            listing::answer(out, &register.submit(&job));
            script = &rest[used..];
        } else if let Some(rest) = script.strip_prefix(b"act=withdraw\n") {
            let (job, used) = text::read_line(rest, b"job=").map_err(|refusal| refusal.number)?;
            listing::field(out, "answer", u64::from(register.withdraw(job)));
            script = &rest[used..];
        } else if let Some(rest) = script.strip_prefix(b"act=clock\n") {
            let (tick, used) = text::read_line(rest, b"tick=").map_err(|refusal| refusal.number)?;
            listing::field(out, "answer", u64::from(register.move_clock(tick)));
            script = &rest[used..];
        } else {
            return Err(BAD_ACT);
        }
    }
    Ok(())
}
