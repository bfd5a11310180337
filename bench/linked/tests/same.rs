//! The linked register beside the baseline, in one process: the same bytes for
//! the cases, the examples, damaged versions of both and the ends of the range
//! of lengths.

mod common;

use std::collections::BTreeMap;
use std::fs;
use std::path::{Path, PathBuf};

use common::{setting, Dice};
use register::{run_into, OUTPUT};

/// How many damaged scripts are tried; the environment may say another count.
const MUTATIONS: u64 = 20_000;
const SEED: u64 = 20_050_704;

fn root() -> PathBuf {
    Path::new(env!("CARGO_MANIFEST_DIR")).join("../..")
}

/// Two buffers that start out different in every byte.
struct Buffers(Vec<(u8, Box<[u8; OUTPUT]>)>);

impl Buffers {
    fn new() -> Self {
        Self(
            [0x5a, 0xa5]
                .map(|fill| (fill, vec![fill; OUTPUT].try_into().unwrap()))
                .into(),
        )
    }

    /// The output for a script, or what is wrong with it.
    fn output(&mut self, script: &[u8]) -> Result<Vec<u8>, String> {
        // Copied to an allocation of its own length, so that a tool for memory
        // faults sees a read past the end.
        let script: Box<[u8]> = script.into();
        let mut outputs = Vec::new();
        for (fill, buffer) in &mut self.0 {
            buffer.fill(*fill);
            let count = run_into(&script, buffer);
            if count > OUTPUT {
                return Err(format!("answers {count} bytes"));
            }
            if let Some(place) = buffer[count..].iter().position(|byte| byte != fill) {
                return Err(format!(
                    "writes at {}, past its {count} bytes",
                    count + place
                ));
            }
            outputs.push(buffer[..count].to_vec());
        }
        let second = outputs.pop().unwrap();
        let first = outputs.pop().unwrap();
        if first != second {
            return Err("two calls differ".into());
        }
        Ok(first)
    }

    fn check(&mut self, name: &str, script: &[u8]) -> Vec<u8> {
        let wrong = match self.output(script) {
            Ok(given) if given == baseline::run(script) => return given,
            Ok(_) => "differs from the baseline".into(),
            Err(wrong) => wrong,
        };
        let kept = format!("{}.script", name.replace([' ', ','], "-"));
        let kept = Path::new(env!("CARGO_TARGET_TMPDIR")).join(kept);
        fs::write(&kept, script).unwrap();
        panic!("{name}: {wrong}; the script is in {}", kept.display());
    }
}

/// A part of the container of cases: a key, a count, a line feed and so many bytes.
fn part<'a>(rest: &mut &'a [u8], key: &str) -> &'a [u8] {
    let end = rest.iter().position(|&byte| byte == b'\n').unwrap();
    let line = std::str::from_utf8(&rest[..end]).unwrap();
    let count: usize = line.strip_prefix(key).unwrap().parse().unwrap();
    let (part, left) = rest[end + 1..].split_at(count);
    *rest = left;
    part
}

/// The scripts of all cases, each with the output that is due.
fn cases() -> Vec<(Vec<u8>, Vec<u8>)> {
    let container = fs::read(root().join("tests/cases/cases")).unwrap();
    let mut rest = &container[..];
    let mut cases = Vec::new();
    while !rest.is_empty() {
        let script = part(&mut rest, "script=").to_vec();
        cases.push((script, part(&mut rest, "output=").to_vec()));
    }
    cases
}

/// The same of the examples.
fn examples() -> Vec<(Vec<u8>, Vec<u8>)> {
    let mut paths: Vec<_> = fs::read_dir(root().join("examples"))
        .unwrap()
        .map(|entry| entry.unwrap().path())
        .filter(|path| path.extension().is_some_and(|end| end == "script"))
        .collect();
    paths.sort();
    paths
        .iter()
        .map(|path| {
            let due = fs::read(path.with_extension("out")).unwrap();
            (fs::read(path).unwrap(), due)
        })
        .collect()
}

#[test]
fn cases_and_examples() {
    let mut buffers = Buffers::new();
    for (kind, all) in [("case", cases()), ("example", examples())] {
        assert!(!all.is_empty());
        for (index, (script, due)) in all.iter().enumerate() {
            let name = format!("{kind} {}", index + 1);
            assert_eq!(&buffers.check(&name, script), due, "{name}");
        }
        println!("{} {kind}s", all.len());
    }
}

#[test]
fn lengths() {
    const FRESH: &[u8] = b"clock=0\ntotal=0\nheld=0\n";
    const TOO_LONG: &[u8] = b"refused=19\nclock=0\ntotal=0\nheld=0\n";
    let mut buffers = Buffers::new();
    assert_eq!(buffers.check("no bytes", b""), FRESH);

    // Calls up to the limit, and one byte more.
    let mut calls = b"act=clock\ntick=0\n".repeat(3854);
    calls.extend(b"act=clock\ntick=10\n");
    assert_eq!(calls.len(), 65_536);
    let output = buffers.check("65,536 bytes of calls", &calls);
    assert!(output.ends_with(b"answer=0\nclock=10\ntotal=0\nheld=0\n"));
    calls.push(b'\n');
    assert_eq!(buffers.check("65,537 bytes of calls", &calls), TOO_LONG);

    // One byte all along, and digits to the end after a key or after whole calls.
    let full = fs::read(root().join("examples/full.script")).unwrap();
    for length in [65_535, 65_536, 65_537, 131_072] {
        for byte in [0, b'\n', b'0', b'a', 255] {
            let output = buffers.check("one byte repeated", &vec![byte; length]);
            assert_eq!(output == TOO_LONG, length > 65_536);
        }
        for start in [&b"act=clock\ntick="[..], &full] {
            let mut script = start.to_vec();
            script.resize(length, b'1');
            let output = buffers.check("digits to the end", &script);
            assert_eq!(output == TOO_LONG, length > 65_536);
        }
    }
}

impl Dice {
    /// A stretch of whole lines, from a place on and up to another.
    fn stretch(&mut self, script: &[u8]) -> (usize, usize) {
        let mut starts = vec![0];
        starts.extend(
            (1..=script.len()).filter(|&place| script[place - 1] == b'\n' || place == script.len()),
        );
        starts.dedup();
        let first = self.below(starts.len());
        let past = (first + 1 + self.below(12)).min(starts.len() - 1);
        (starts[first.min(past)], starts[past])
    }

    /// Does one damage to a script.
    fn damage(&mut self, script: &mut Vec<u8>, all: &[Vec<u8>]) {
        let place = self.below(script.len() + 1);
        match self.below(10) {
            0 => script.truncate(place),
            1 => script.insert(place, self.below(256) as u8),
            2 => {
                let byte = b"0123456789=\n\r atjsdrmfv"[self.below(23)];
                script.insert(place, byte);
            }
            3 if place < script.len() => script[place] ^= 1 << self.below(8),
            4 if place < script.len() => {
                script.remove(place);
            }
            5 => {
                // Lines doubled.
                let (first, past) = self.stretch(script);
                let lines = script[first..past].to_vec();
                script.splice(past..past, lines);
            }
            6 => {
                // Lines moved.
                let (first, past) = self.stretch(script);
                let lines: Vec<u8> = script.drain(first..past).collect();
                let (place, _) = self.stretch(script);
                script.splice(place..place, lines);
            }
            7 => {
                // One script after another.
                script.extend(&all[self.below(all.len())]);
            }
            _ => {
                // A digit changed, which leaves most scripts readable.
                let digits: Vec<usize> = (0..script.len())
                    .filter(|&place| script[place].is_ascii_digit())
                    .collect();
                if !digits.is_empty() {
                    script[digits[self.below(digits.len())]] = b'0' + self.below(10) as u8;
                }
            }
        }
    }
}

#[test]
fn damaged_scripts() {
    let count = setting("MUTATIONS", MUTATIONS);
    let seed = setting("SEED", SEED);
    let all: Vec<Vec<u8>> = cases()
        .into_iter()
        .chain(examples())
        .map(|(script, _)| script)
        .collect();
    let mut dice = Dice(seed);
    let mut buffers = Buffers::new();
    let mut ends: BTreeMap<String, u64> = BTreeMap::new();
    for number in 0..count {
        let mut script = all[dice.below(all.len())].clone();
        for _ in 0..1 + dice.below(4) {
            dice.damage(&mut script, &all);
        }
        let output = buffers.check(&format!("mutation {number} of seed {seed}"), &script);
        for line in output.split(|&byte| byte == b'\n') {
            if line.starts_with(b"answer=") || line.starts_with(b"refused=") {
                let line = String::from_utf8(line.to_vec()).unwrap();
                *ends.entry(line).or_default() += 1;
            }
        }
    }
    println!("{count} damaged scripts, seed {seed}: {ends:?}");
}
