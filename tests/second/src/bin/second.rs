//! Reads lines on standard input and prints the listing of a fresh box.

use second::listing::{serve, text, Line};
use second::model::Depot;
use std::io::{self, Read, Write};

const CHUNK: usize = 65536;

fn main() -> io::Result<()> {
    let mut input = io::stdin().lock();
    let mut output = io::BufWriter::new(io::stdout().lock());
    let mut depot = Depot::fresh();
    let mut line = Line::default();
    let mut chunk = vec![0; CHUNK];
    loop {
        let count = input.read(&mut chunk)?;
        if count == 0 {
            break;
        }
        let mut parts = chunk[..count].split(|&octet| octet == b'\n');
        line.push(parts.next().unwrap_or(&[]));
        for part in parts {
            finish(&mut depot, &mut line, &mut output)?;
            line.push(part);
        }
        output.flush()?;
    }
    if !line.is_empty() {
        finish(&mut depot, &mut line, &mut output)?;
    }
    output.flush()
}

fn finish(depot: &mut Depot, line: &mut Line, output: &mut impl Write) -> io::Result<()> {
    let answer = serve(depot, &line.event());
    line.clear();
    writeln!(output, "{}", text(&answer))
}
