//! `sides SEED COUNT` prints COUNT random calls of store, host, what data
//! say, and line writer.

use second::sides::Sides;
use std::io::{self, Write};

fn main() -> io::Result<()> {
    let numbers: Vec<u64> = std::env::args().skip(1).filter_map(|text| text.parse().ok()).collect();
    let [seed, count] = numbers[..] else {
        eprintln!("sides SEED COUNT");
        std::process::exit(2);
    };
    let mut output = io::BufWriter::new(io::stdout().lock());
    let mut sides = Sides::new(seed);
    for _ in 0..count {
        writeln!(output, "{}", sides.next_line())?;
    }
    output.flush()
}
