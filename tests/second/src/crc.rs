//! The CRC of a frame: CRC-16/MCRF4XX.

const START: u16 = 0xFFFF;
const REFLECTED_POLYNOMIAL: u16 = 0x8408;

/// No final inversion: that is what ISO 15693 does on the air, not here.
pub fn of(octets: &[u8]) -> u16 {
    octets.iter().fold(START, |crc, &octet| after(crc, octet))
}

fn after(crc: u16, octet: u8) -> u16 {
    let mut crc = crc ^ u16::from(octet);
    for _ in 0..8 {
        let low = crc & 1;
        crc >>= 1;
        if low == 1 {
            crc ^= REFLECTED_POLYNOMIAL;
        }
    }
    crc
}
