//! The careful register beside the baseline: the same bytes on the cases, the
//! examples, and scripts drawn and damaged.

use std::fs;
use std::path::{Path, PathBuf};

fn root() -> PathBuf {
    Path::new(env!("CARGO_MANIFEST_DIR")).join("../..")
}

fn scripts() -> Vec<Vec<u8>> {
    let mut all: Vec<Vec<u8>> = fs::read_dir(root().join("examples"))
        .unwrap()
        .map(|entry| entry.unwrap().path())
        .filter(|path| path.extension().is_some_and(|end| end == "script"))
        .map(|path| fs::read(path).unwrap())
        .collect();
    let container = fs::read(root().join("tests/cases/cases")).unwrap();
    let mut rest = &container[..];
    let mut turn = 0;
    while !rest.is_empty() {
        let end = rest.iter().position(|&byte| byte == b'\n').unwrap();
        let line = std::str::from_utf8(&rest[..end]).unwrap();
        let count: usize = line.split_once('=').unwrap().1.parse().unwrap();
        let (part, left) = rest[end + 1..].split_at(count);
        if turn % 2 == 0 {
            all.push(part.to_vec());
        }
        turn += 1;
        rest = left;
    }
    all
}

#[test]
fn cases_and_examples() {
    for script in scripts() {
        assert!(careful::run(&script) == baseline::run(&script));
    }
}

#[test]
fn scripts_with_digits_changed() {
    let all = scripts();
    let mut state: u64 = 20_050_704;
    let mut below = |bound: usize| {
        state = state.wrapping_mul(6_364_136_223_846_793_005).wrapping_add(1);
        (state >> 33) as usize % bound
    };
    for turn in 0..20_000 {
        let mut script = all[below(all.len())].clone();
        script.extend(&all[below(all.len())]);
        let digits: Vec<usize> = (0..script.len())
            .filter(|&place| script[place].is_ascii_digit())
            .collect();
        for _ in 0..below(6) {
            if !digits.is_empty() {
                script[digits[below(digits.len())]] = b'0' + below(10) as u8;
            }
        }
        assert!(careful::run(&script) == baseline::run(&script), "script {turn}");
    }
}
