//! Job texts: those that the program `roundtrip` reads, written again into
//! buffers of every length near their own, and what is refused.

mod common;

use common::{pattern, read};
use register::{run, write_job, write_job_into, Refusal, FIGURES, TEXT};

const EXAMPLE: [u64; 10] = [7, 0, 1, 10, 1, 4, 5, 0, 2, 0];
const EXAMPLE_TEXT: &[u8] = b"job=7\nsched=0\ntasks=1\ndeadline=10\ndispatch=1\n\
    run=4\nrun=5\nrun=0\nrun=2\nmessages=0\n";
const MOST: u64 = 9_999_999_999;

/// The texts, each with the figures of its lines.
fn texts() -> Vec<(String, Vec<u64>)> {
    let all = String::from_utf8(read("crates/roundtrip/stdin")).unwrap();
    let mut texts: Vec<(String, Vec<u64>)> = Vec::new();
    for line in all.split_inclusive('\n') {
        let (key, figure) = line.trim_end().split_once('=').unwrap();
        if key == "job" {
            texts.push(Default::default());
        }
        let (text, figures) = texts.last_mut().unwrap();
        text.push_str(line);
        figures.push(figure.parse().unwrap());
    }
    texts
}

/// What is answered on a buffer of so many bytes. Of these, only the text's are
/// written, and a refusal writes none.
fn answer(figures: &[u64], room: usize, text: &[u8]) -> Result<usize, Refusal> {
    // An allocation of its own length: a tool for memory faults sees more.
    let figures: Box<[u64]> = figures.into();
    let mut answers = Vec::new();
    for seed in [0, 1] {
        let before = pattern(room, seed);
        let mut buffer = before.clone();
        let given = write_job_into(&figures, &mut buffer);
        let length = given.unwrap_or(0);
        assert_eq!(&buffer[..length], &text[..length]);
        assert!(buffer[length..] == before[length..], "bytes past {length}");
        answers.push(given);
    }
    assert_eq!(answers[0], answers[1]);
    answers[0]
}

/// The answers on buffers of these lengths, for a job that has a text.
fn answers_are_due(figures: &[u64], text: &[u8], rooms: impl IntoIterator<Item = usize>) {
    for room in rooms {
        let fits = text.len() <= room;
        let due = fits.then_some(text.len()).ok_or(Refusal::TooShort);
        assert_eq!(answer(figures, room, text), due, "a buffer of {room}");
    }
}

fn is_no_job(figures: &[u64]) {
    assert_eq!(write_job(figures), Err(Refusal::NotAJob), "{figures:?}");
    for room in [0, 1, 79, 80, TEXT, 2 * TEXT] {
        assert_eq!(answer(figures, room, b""), Err(Refusal::NotAJob));
    }
}

#[test]
fn texts_are_written_again() {
    let texts = texts();
    assert_eq!(texts.len(), 64);
    let longest = texts.iter().map(|(text, _)| text.len()).max();
    assert_eq!(longest, Some(TEXT));
    for (text, figures) in &texts {
        let length = text.len();
        assert_eq!(write_job(figures).as_deref(), Ok(text.as_bytes()));
        answers_are_due(figures, text.as_bytes(), [0, 1, length / 2, TEXT]);
        answers_are_due(figures, text.as_bytes(), length - 9..length + 9);
    }
}

#[test]
fn example_a_in_every_buffer() {
    assert_eq!(EXAMPLE_TEXT.len(), 80);
    answers_are_due(&EXAMPLE, EXAMPLE_TEXT, 0..=82);
}

#[test]
fn example_a_is_admitted_as_written() {
    let text = write_job(&EXAMPLE).unwrap();
    let output = run(&[b"act=submit\n", &text[..]].concat());
    assert_eq!(output, read("examples/first.out"));
}

#[test]
fn too_few_and_too_many_figures() {
    for (_, figures) in texts() {
        is_no_job(&figures[..figures.len() - 1]);
        is_no_job(&[&figures[..], &[0]].concat());
    }
    for count in 0..EXAMPLE.len() {
        is_no_job(&EXAMPLE[..count]);
    }
    is_no_job(&[0; FIGURES]);
    is_no_job(&[1; 10 * FIGURES]);
}

#[test]
fn counts_and_figures_out_of_range() {
    let changed = |place: usize, figure: u64| {
        let mut figures = EXAMPLE;
        figures[place] = figure;
        figures
    };
    for (place, figure) in [(2, 0), (2, 2), (2, 17), (9, 1), (9, 33)] {
        is_no_job(&changed(place, figure));
    }
    for (place, figure) in EXAMPLE.iter().enumerate() {
        is_no_job(&changed(place, MOST + 1));
        is_no_job(&changed(place, u64::MAX));
        if ![2, 9].contains(&place) {
            let length = 80 + 10 - figure.to_string().len();
            let text = write_job(&changed(place, MOST)).unwrap();
            assert_eq!(text.len(), length);
        }
    }
}
