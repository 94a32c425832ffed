//! The system timer of a desk.

#[derive(Clone, Copy, PartialEq, Eq, Debug, Default)]
pub struct Timer {
    pub hour: u8,
    pub minute: u8,
    pub ms: u16,
}

impl Timer {
    pub fn from_octets(octets: [u8; 4]) -> Timer {
        Timer { hour: octets[0], minute: octets[1], ms: u16::from_be_bytes([octets[2], octets[3]]) }
    }

    pub fn octets(self) -> [u8; 4] {
        let ms = self.ms.to_be_bytes();
        [self.hour, self.minute, ms[0], ms[1]]
    }

    pub fn legal(self) -> bool {
        self.hour <= 23 && self.minute <= 59 && self.ms <= 59999
    }

    /// A tick of 100 ms. Rolling over keeps the rest: 59999 ms becomes 99 ms.
    pub fn tick(&mut self) {
        self.ms += 100;
        if self.ms >= 60000 {
            self.ms -= 60000;
            self.minute += 1;
        }
        if self.minute >= 60 {
            self.minute = 0;
            self.hour += 1;
        }
        if self.hour >= 24 {
            self.hour = 0;
        }
    }
}
