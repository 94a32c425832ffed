//! Configuration blocks: their defaults, the rules of block 7, and CFG-ADR.

pub const BLOCKS: usize = 16;
pub const BLOCK_BYTES: usize = 14;

pub type Block = [u8; BLOCK_BYTES];
pub type Memory = [Block; BLOCKS];

/// All zero except block 7 and block 12.
pub const DEFAULTS: Memory = {
    let mut memory = [[0; BLOCK_BYTES]; BLOCKS];
    memory[7] = [0x02, 0x20, 0x2C, 0x01, 0, 0, 0, 0, 0, 0, 0, 0, 0, 0];
    memory[12] = [0x00, 0x37, 0, 0, 0, 0, 0, 0, 0, 0, 0, 0, 0, 0];
    memory
};

/// VALID-TIME is bytes 0 and 1 of block 12.
pub fn valid_time(block12: &Block) -> u16 {
    u16::from_be_bytes([block12[0], block12[1]])
}

pub fn block7_legal(block: &Block) -> bool {
    let db_use = block[0] == 0 || block[0] == 2;
    let sep_char = block[1].count_ones() <= 1;
    let end_char = block[3].count_ones() <= 1;
    let len_usr = block[13] >> 4 <= 4 && block[13] & 0x0F <= 3;
    db_use && sep_char && end_char && len_usr
}

/// Whether a write of these bytes to this block is legal.
pub fn write_legal(block: usize, bytes: &Block) -> bool {
    block != 7 || block7_legal(bytes)
}

/// LOC.
#[derive(Clone, Copy, PartialEq, Eq, Debug)]
pub enum Loc {
    Ram,
    Eeprom,
}

#[derive(Clone, Copy, PartialEq, Eq, Debug)]
pub enum Named {
    One(usize),
    All,
}

impl Named {
    pub fn range(self) -> std::ops::Range<usize> {
        match self {
            Named::One(block) => block..block + 1,
            Named::All => 0..BLOCKS,
        }
    }
}

/// CFG-ADR taken apart; nothing when a bit says what no command allows.
pub fn cfg_adr(octet: u8) -> Option<(Loc, Named)> {
    let loc = if octet & 0x80 == 0 { Loc::Ram } else { Loc::Eeprom };
    let all = octet & 0x40 != 0;
    let block = usize::from(octet & 0x3F);
    match all {
        true if block == 0 => Some((loc, Named::All)),
        false if block < BLOCKS => Some((loc, Named::One(block))),
        _ => None,
    }
}

/// CFG-ADR of 0x80 and 0x81: bit 6 is not legal there.
pub fn one_block(octet: u8) -> Option<(Loc, usize)> {
    match cfg_adr(octet)? {
        (loc, Named::One(block)) => Some((loc, block)),
        (_, Named::All) => None,
    }
}

/// CFG-ADR of 0x82: bit 7 must be 0.
pub fn saved_blocks(octet: u8) -> Option<Named> {
    match cfg_adr(octet)? {
        (Loc::Ram, named) => Some(named),
        (Loc::Eeprom, _) => None,
    }
}
