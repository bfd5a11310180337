//! Everything that is printed: one field a line.

use crate::job::MACHINES;
use crate::placing::Row;
use crate::register::{Answer, Register};

/// Prints a key, `=`, a figure in decimal and a line feed.
pub fn field(out: &mut Vec<u8>, key: &str, mut figure: u64) {
    // The longest figure of 64 bits has 20 digits.
    let mut digits = [0; 20];
    let mut first = digits.len();
    loop {
        first -= 1;
        digits[first] = b'0' + (figure % 10) as u8;
        figure /= 10;
        if figure == 0 {
            break;
        }
    }
    out.extend_from_slice(key.as_bytes());
    out.push(b'=');
    out.extend_from_slice(&digits[first..]);
    out.push(b'\n');
}

pub fn answer(out: &mut Vec<u8>, answer: &Answer) {
    field(out, "answer", u64::from(answer.number));
    field(out, "task", answer.task as u64);
    field(out, "cost", answer.cost);
    field(out, "rows", answer.rows as u64);
}

/// Lists the register: the rows of the machines, then those of the links.
pub fn register(out: &mut Vec<u8>, register: &Register) {
    field(out, "clock", register.clock());
    field(out, "total", register.total());
    field(out, "held", register.rows() as u64);
    for machine in 0..MACHINES {
        for row in register.lanes().machine(machine) {
            field(out, "machine", machine as u64 + 1);
            field(out, "job", u64::from(row.job));
            end_of_row(out, row);
        }
    }
    for from in 0..MACHINES {
        for to in (0..MACHINES).filter(|&to| to != from) {
            for row in register.lanes().link(from, to) {
                field(out, "link", from as u64 + 1);
                field(out, "to", to as u64 + 1);
                field(out, "job", u64::from(row.job));
                field(out, "from", u64::from(row.from));
                end_of_row(out, row);
            }
        }
    }
}

fn end_of_row(out: &mut Vec<u8>, row: &Row) {
    field(out, "task", u64::from(row.task));
    field(out, "start", row.start);
    field(out, "finish", row.finish);
}
