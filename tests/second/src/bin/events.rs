//! `events SEED COUNT` prints COUNT random lines.

use second::gen::Gen;
use std::io::{self, Write};

fn main() -> io::Result<()> {
    let numbers: Vec<u64> = std::env::args().skip(1).filter_map(|text| text.parse().ok()).collect();
    let [seed, count] = numbers[..] else {
        eprintln!("events SEED COUNT");
        std::process::exit(2);
    };
    let mut output = io::BufWriter::new(io::stdout().lock());
    let mut gen = Gen::new(seed);
    for _ in 0..count {
        let mut line = gen.next_line();
        line.push(b'\n');
        output.write_all(&line)?;
    }
    output.flush()
}
