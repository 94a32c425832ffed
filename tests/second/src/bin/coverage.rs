//! `coverage SEED COUNT` runs the box over the same lines as `events` and
//! prints how often each situation was reached; 1 if one never was.

use second::coverage::Coverage;
use second::gen::Gen;
use std::process::exit;

fn main() {
    let numbers: Vec<u64> = std::env::args().skip(1).filter_map(|text| text.parse().ok()).collect();
    let [seed, count] = numbers[..] else {
        eprintln!("coverage SEED COUNT");
        exit(2);
    };
    let mut gen = Gen::new(seed);
    let mut coverage = Coverage::new();
    for _ in 0..count {
        coverage.line(&gen.next_line());
    }
    exit(i32::from(!coverage.tally().print()));
}
