//! Scan lines.
use crate::answer::{written, Refusal};
use crate::raw;
use crate::{Block, Record};

/// The default block 7: capital hex, a comma, CR and LF.
pub const DEFAULT_BLOCK_7: Block = [0x02, 0x20, 0x2C, 0x01, 0, 0, 0, 0, 0, 0, 0, 0, 0, 0];

/// Writes the line of a record at the start of the output, as block 7 shapes it; the octets behind it stay.
///
/// Refused: `OutOfRange` where the block breaks the rules of block 7; `NoRoom`. The output is then as before.
///
/// ```
/// let timer = depot::Timer { hour: 1, minute: 2, milliseconds: 1000 };
/// let record = depot::Record { uid: 0xE007_0000_0164_5E37, timer, mask: 1 };
/// let mut out = [0; 40];
/// let line = depot::line(&depot::DEFAULT_BLOCK_7, &record, &mut out).unwrap();
/// assert_eq!(line, b"E007000001645E37,010203E8\r\n");
///
/// // SEP-CHAR 0x08 is TAB, 0x09 as in ASCII: a spreadsheet opens UID and timer as two columns.
/// let block = [0x02, 0x08, 0, 0x02, 0, 0, 0, 0, 0, 0, 0, 0, 0, 0];
/// let line = depot::line(&block, &record, &mut out).unwrap();
/// assert_eq!(line, b"E007000001645E37\t010203E8\n");
/// ```
pub fn line<'a>(block: &Block, record: &Record, out: &'a mut [u8]) -> Result<&'a [u8], Refusal> {
    let code = raw::line(block, &record.octets(), out);
    written(code, out)
}

/// Writes a line for each record in the data of a reply to `ReadRecords`, one behind the other, all or none.
///
/// Refused: `OutOfRange` where the block breaks the rules of block 7, or no such reply carries these data; `NoRoom`. The output is
/// then as before. No data give no line.
pub fn lines<'a>(block: &Block, data: &[u8], out: &'a mut [u8]) -> Result<&'a [u8], Refusal> {
    let code = raw::lines(block, data, out);
    written(code, out)
}
