//! Two records as a spreadsheet opens them: first a row for each, with TAB between UID and timer; then a column for each, with TAB
//! as end: `cargo run --example columns > sheet.tsv`.
use depot::{line, Block, Record, Refusal, Timer};

/// Block 7 shapes a line. Hex digits; TAB between UID and timer, and LF.
const ROWS: Block = [2, 0x08, 0, 0x02, 0, 0, 0, 0, 0, 0, 0, 0, 0, 0];
/// Hex digits; a comma between UID and timer, and TAB.
const COLUMNS: Block = [2, 0x20, 0, 0x08, 0, 0, 0, 0, 0, 0, 0, 0, 0, 0];

fn main() -> Result<(), Refusal> {
    let at = |milliseconds| Timer { hour: 1, minute: 2, milliseconds };
    let records = [
        Record { uid: 0xE007_0000_0164_5E37, timer: at(1000), mask: 1 },
        Record { uid: 0xFEDC_BA98_7654_3210, timer: at(1100), mask: 2 },
    ];
    let mut out = [0; 64];
    for block in [ROWS, COLUMNS] {
        for record in &records {
            print!("{}", String::from_utf8_lossy(line(&block, record, &mut out)?));
        }
    }
    println!();
    Ok(())
}
