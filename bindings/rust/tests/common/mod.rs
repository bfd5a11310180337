//! What the tests share; none uses all of it.
#![allow(dead_code)]

use std::fs;
use std::path::{Path, PathBuf};

/// The top of the repository.
pub fn root() -> PathBuf {
    Path::new(env!("CARGO_MANIFEST_DIR")).join("../..")
}

pub fn read(name: &str) -> Vec<u8> {
    fs::read(root().join(name)).unwrap()
}

/// The scripts of the examples, each with the output that is due.
pub fn examples() -> Vec<(Vec<u8>, Vec<u8>)> {
    let mut paths: Vec<_> = fs::read_dir(root().join("examples"))
        .unwrap()
        .map(|entry| entry.unwrap().path())
        .filter(|path| path.extension().is_some_and(|end| end == "script"))
        .collect();
    paths.sort();
    assert!(!paths.is_empty());
    let both = |path: &PathBuf| {
        let due = fs::read(path.with_extension("out")).unwrap();
        (fs::read(path).unwrap(), due)
    };
    paths.iter().map(both).collect()
}

/// Bytes that no text has, other ones for each seed.
pub fn pattern(length: usize, seed: usize) -> Vec<u8> {
    let byte = |place: usize| 128 + ((place + seed) % 127) as u8;
    (0..length).map(byte).collect()
}
