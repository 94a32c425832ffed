//! The box: its whole state is a store of [`STORE_SIZE`] octets.
use std::fmt;
use std::num::NonZeroU8;
use std::ops::DerefMut;

use crate::answer::{done, seen, unnamed, written, Refusal, Seen};
use crate::numbers::{DESKS, REPLY_SIZE, STORE_SIZE};
use crate::raw;

/// A desk, from 0 to 7.
///
/// ```
/// use depot::Desk;
/// assert_eq!(Desk::new(7).unwrap().number(), 7);
/// assert_eq!(Desk::new(8), None);
/// ```
#[derive(Clone, Copy, Debug, PartialEq, Eq, PartialOrd, Ord, Hash)]
pub struct Desk(u8);

impl Desk {
    pub const ALL: [Desk; DESKS as usize] = [Desk(0), Desk(1), Desk(2), Desk(3), Desk(4), Desk(5), Desk(6), Desk(7)];

    pub fn new(number: u8) -> Option<Desk> {
        Desk::ALL.get(number as usize).copied()
    }

    pub fn number(self) -> u8 {
        self.0
    }
}

/// Whether octets are a sound store: those of a file, say. Only reads. Refused: `Unsound`.
///
/// ```
/// use depot::{sound, Refusal, Store};
/// let kept = Store::fresh().octets().to_vec();
/// assert_eq!(sound(&kept), Ok(()));
/// assert_eq!(sound(&kept[1..]), Err(Refusal::Unsound));
/// ```
pub fn sound(octets: &[u8]) -> Result<(), Refusal> {
    done(raw::test(octets))
}

/// A sound store, that owns its octets (`Store<Box<[u8]>>`, `Store<Vec<u8>>`) or borrows them (`Store<&mut [u8]>`).
///
/// Every call leaves it sound, so none of them is refused for the store.
///
/// ```
/// use depot::{Desk, Seen, Store};
/// use std::num::NonZeroU8;
/// let mut store = Store::fresh();
/// let mask = NonZeroU8::new(1).unwrap();
/// assert_eq!(store.sighting(Desk::ALL[3], 0xE007_0000_0164_5E37, mask), Seen::Recorded);
/// assert_eq!(store.sighting(Desk::ALL[3], 0xE007_0000_0164_5E37, mask), Seen::Ignored(55));
/// store.tick();
/// assert_eq!(store.sighting(Desk::ALL[3], 0xE007_0000_0164_5E37, mask), Seen::Ignored(54));
/// ```
#[derive(Clone, PartialEq, Eq)]
pub struct Store<B: DerefMut<Target = [u8]>> {
    octets: B,
}

impl<B: DerefMut<Target = [u8]>> fmt::Debug for Store<B> {
    fn fmt(&self, f: &mut fmt::Formatter) -> fmt::Result {
        write!(f, "Store of {} octets", self.octets.len())
    }
}

impl Store<Box<[u8]>> {
    /// A fresh box, with octets of its own.
    pub fn fresh() -> Self {
        match Store::fresh_in(vec![0; STORE_SIZE].into_boxed_slice()) {
            Ok(store) => store,
            Err(r) => unnamed(r.number().into()),
        }
    }
}

impl<B: DerefMut<Target = [u8]>> Store<B> {
    /// Makes a fresh box of any octets. Refused: `Unsound` where they are not [`STORE_SIZE`], and they are then as before.
    ///
    /// ```
    /// let mut octets = [7; depot::STORE_SIZE];
    /// let store = depot::Store::fresh_in(&mut octets[..]).unwrap();
    /// assert_eq!(store.octets(), depot::Store::fresh().octets());
    /// assert!(depot::Store::fresh_in(vec![7; 100]).is_err());
    /// ```
    pub fn fresh_in(mut octets: B) -> Result<Self, Refusal> {
        done(raw::fresh(&mut octets))?;
        Ok(Store { octets })
    }

    /// Takes up a store that was kept. Refused: `Unsound` where it is not sound; nothing is written.
    ///
    /// ```
    /// let kept = depot::Store::fresh().octets().to_vec();
    /// assert!(depot::Store::over(kept).is_ok());
    /// assert!(depot::Store::over(vec![7; depot::STORE_SIZE]).is_err());
    /// ```
    pub fn over(octets: B) -> Result<Self, Refusal> {
        sound(&octets)?;
        Ok(Store { octets })
    }

    /// The octets, to be kept.
    pub fn octets(&self) -> &[u8] {
        &self.octets
    }

    /// A frame arrives, and the desk that it names answers: the reply, at the start of the output; the octets behind it stay.
    ///
    /// Refused, the first that fits: `NoOctets`, `TooShort`, `TooLong`, `LengthDiffers`, `WrongCheck`, `NoDesk`. Store and output are
    /// then as before.
    ///
    /// ```
    /// let mut store = depot::Store::fresh();
    /// let mut out = [0; depot::REPLY_SIZE];
    /// let reply = store.frame(&[0x05, 0x00, 0x64, 0xAC, 0x25], &mut out);
    /// assert_eq!(reply, Ok(&[0x06, 0x00, 0x64, 0x00, 0x8E, 0x4A][..]));
    /// assert_eq!(store.frame(&[], &mut out), Err(depot::Refusal::NoOctets));
    /// ```
    pub fn frame<'a>(&mut self, frame: &[u8], out: &'a mut [u8; REPLY_SIZE]) -> Result<&'a [u8], Refusal> {
        let code = raw::frame(&mut self.octets, frame, out);
        written(code, out)
    }

    /// A tag is sighted at a desk, by the antennas of a mask.
    pub fn sighting(&mut self, desk: Desk, uid: u64, mask: NonZeroU8) -> Seen {
        let code = raw::sighting(&mut self.octets, desk.number().into(), uid, mask.get().into());
        seen(code).unwrap_or_else(|_| unnamed(code))
    }

    /// 100 ms pass for all desks.
    pub fn tick(&mut self) {
        let code = raw::tick(&mut self.octets);
        done(code).unwrap_or_else(|_| unnamed(code))
    }
}
