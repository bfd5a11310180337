//! Scripts and their outputs: the examples, damaged scripts, the ends of the
//! range of lengths, and calls from several threads.

mod common;

use common::{examples, pattern, read};
use register::{new_output, run, run_into, INPUT, OUTPUT};

const FRESH: &[u8] = b"clock=0\ntotal=0\nheld=0\n";
const TOO_LONG: &[u8] = b"refused=19\nclock=0\ntotal=0\nheld=0\n";

/// The output of a script, by both functions. Nothing past it is touched.
fn output(script: &[u8]) -> Vec<u8> {
    // An allocation of its own length: a tool for memory faults sees more.
    let script: Box<[u8]> = script.into();
    let given = run(&script);
    for seed in [0, 1] {
        let before = pattern(OUTPUT, seed);
        let mut buffer = new_output();
        buffer.copy_from_slice(&before);
        let count = run_into(&script, &mut buffer);
        assert_eq!(&buffer[..count], &given[..]);
        assert!(buffer[count..] == before[count..], "bytes past {count}");
    }
    given
}

#[test]
fn examples_give_their_outputs() {
    for (script, due) in examples() {
        assert_eq!(output(&script), due);
    }
}

#[test]
fn what_is_wrong_is_in_the_output() {
    let refused = |script: &[u8], number: u64| {
        let due = [format!("refused={number}\n").as_bytes(), FRESH].concat();
        assert_eq!(output(script), due, "{script:?}");
    };
    refused(b"act=submit\n", 14);
    refused(b"act=submit\njob=07\n", 15);
    refused(b"act=clock\ntick=99999999999\n", 15);
    refused(b"act=submit\njob=7\nsched=0\ntasks=17\n", 16);
    refused(b"\0", 17);
    refused(&[255; 300], 17);
    refused(b"act=clock\r\ntick=1\r\n", 17);
}

#[test]
fn every_cut_of_an_example_is_refused() {
    let script = read("examples/first.script");
    for length in 1..script.len() {
        let given = output(&script[..length]);
        let due: &[&[u8]] = match length {
            0..=10 => &[b"refused=17\n"],
            _ => &[b"refused=14\n", b"refused=15\n"],
        };
        assert!(due.contains(&&given[..11]), "cut after {length}");
        assert_eq!(&given[11..], FRESH, "cut after {length}");
    }
}

#[test]
fn lengths() {
    assert_eq!(output(b""), FRESH);
    assert_eq!(output(&[]), FRESH);

    let mut calls = b"act=clock\ntick=0\n".repeat(3854);
    calls.extend(b"act=clock\ntick=10\n");
    assert_eq!(calls.len(), INPUT);
    let given = output(&calls);
    assert_eq!(given.len(), 3855 * 9 + 24);
    assert!(given.ends_with(b"answer=0\nclock=10\ntotal=0\nheld=0\n"));
    calls.push(b'\n');
    assert_eq!(output(&calls), TOO_LONG);
    calls.resize(4 * INPUT, b'\n');
    assert_eq!(output(&calls), TOO_LONG);
}

#[test]
fn any_alignment() {
    let (script, due) = examples().swap_remove(0);
    for offset in 0..16 {
        let mut shifted = vec![0; offset];
        shifted.extend(&script);
        let mut area = vec![0; offset + OUTPUT];
        let buffer = area[offset..].first_chunk_mut().unwrap();
        let count = run_into(&shifted[offset..], buffer);
        assert_eq!(buffer[..count], due);
    }
}

#[test]
fn calls_at_the_same_time() {
    let all = examples();
    std::thread::scope(|scope| {
        for first in 0..4 {
            let all = &all;
            scope.spawn(move || {
                for turn in 0..20 {
                    let (script, due) = &all[(first + turn) % all.len()];
                    assert_eq!(&run(script), due);
                }
            });
        }
    });
}

#[test]
fn a_small_stack_is_enough() {
    let small = std::thread::Builder::new().stack_size(64 * 1024);
    let script = b"act=clock\ntick=0\n".repeat(3855);
    let thread = small.spawn(move || run(&script).len()).unwrap();
    assert_eq!(thread.join().unwrap(), 3855 * 9 + 23);
}
