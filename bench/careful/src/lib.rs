//! The cluster register in careful Rust, as the limit to go for: one job at a
//! time is read in place, rows are twelve bytes, a removal looks at the lanes
//! that the job has rows in, and nothing is allocated while calls are made.

mod job;
mod placing;
mod printing;
mod register;
mod text;

use job::Job;
use printing::Printer;
use register::Register;
use text::Reader;

/// The longest input that is acted on, in bytes.
pub const INPUT_LIMIT: usize = 65_536;

const BAD_ACT: u8 = 17;
const INPUT_TOO_LONG: u8 = 19;

/// Acts on a script and answers everything that the program prints.
pub fn run(input: &[u8]) -> Vec<u8> {
    let mut printer = Printer::new();
    let mut register = Register::new();
    let ended = if input.len() > INPUT_LIMIT {
        Err(INPUT_TOO_LONG)
    } else {
        act(&mut Reader::new(input), &mut register, &mut printer)
    };
    if let Err(number) = ended {
        printer.field(b"refused=", u64::from(number));
    }
    register.list(&mut printer);
    printer.bytes()
}

/// Makes the calls of a script in turn; the error is the number of a reading refusal.
fn act(reader: &mut Reader, register: &mut Register, printer: &mut Printer) -> Result<(), u8> {
    let mut job = Job::default();
    while !reader.ended() {
        if reader.skip(b"act=submit\n") {
            reader.job(&mut job)?;
            let answer = register.submit(&job);
            printer.field(b"answer=", u64::from(answer.number));
            printer.field(b"task=", answer.task as u64);
            printer.field(b"cost=", answer.cost);
            printer.field(b"rows=", answer.rows as u64);
        } else if reader.skip(b"act=withdraw\n") {
            let number = reader.figure(b"job=")?;
            printer.field(b"answer=", u64::from(register.withdraw(number)));
        } else if reader.skip(b"act=clock\n") {
            let tick = reader.figure(b"tick=")?;
            printer.field(b"answer=", u64::from(register.advance(tick)));
        } else {
            return Err(BAD_ACT);
        }
    }
    Ok(())
}
