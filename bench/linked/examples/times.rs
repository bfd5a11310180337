//! How long the proved register takes on scripts beside the two Rust ones, all
//! in this process: a line for each file given, `NAME PROVED PLAIN CAREFUL`, in
//! microseconds. Medians of many passes, taken by turns.

use std::path::Path;
use std::time::Instant;
use std::{env, fs};

use register::{new_output, run_into};

/// Seconds that one script is run for, at the least.
const SECONDS: f64 = 0.6;
const PASSES: usize = 25;

fn timed(pass: &mut dyn FnMut() -> usize) -> f64 {
    let begun = Instant::now();
    std::hint::black_box(pass());
    begun.elapsed().as_secs_f64() * 1e6
}

fn median(times: &mut [f64]) -> f64 {
    times.sort_by(f64::total_cmp);
    times[times.len() / 2]
}

fn main() {
    let mut output = new_output();
    for path in env::args().skip(1) {
        let script = fs::read(&path).unwrap();
        let count = run_into(&script, &mut output);
        assert!(output[..count] == baseline::run(&script)[..], "{path}");
        assert!(output[..count] == careful::run(&script)[..], "{path}");
        let mut times = [const { Vec::new() }; 3];
        let begun = Instant::now();
        while times[0].len() < PASSES || begun.elapsed().as_secs_f64() < SECONDS {
            times[0].push(timed(&mut || run_into(&script, &mut output)));
            times[1].push(timed(&mut || baseline::run(&script).len()));
            times[2].push(timed(&mut || careful::run(&script).len()));
        }
        let name = Path::new(&path).file_stem().unwrap().to_string_lossy();
        let [a, b, c] = times.each_mut().map(|spent| median(spent));
        println!("{name} {a:.1} {b:.1} {c:.1}");
    }
}
