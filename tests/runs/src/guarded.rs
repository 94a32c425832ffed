//! A buffer, of octets or of numbers, between two guards that nothing may touch.

const GUARD: usize = 64;

/// What guards are made of.
pub trait Mark: Copy + PartialEq {
    const MARK: Self;
}

impl Mark for u8 {
    const MARK: u8 = 0xA5;
}

impl Mark for u64 {
    const MARK: u64 = 0xA5A5_A5A5_A5A5_A5A5;
}

pub struct Guarded<T> {
    whole: Vec<T>,
}

impl<T: Mark> Guarded<T> {
    pub fn new(inner: &[T]) -> Guarded<T> {
        let guard = [T::MARK; GUARD];
        Guarded { whole: [&guard[..], inner, &guard[..]].concat() }
    }

    pub fn inner(&mut self) -> &mut [T] {
        let end = self.whole.len() - GUARD;
        &mut self.whole[GUARD..end]
    }

    /// What the buffer holds now. Ends the run where a guard was touched.
    pub fn taken(self, what: &str) -> Vec<T> {
        let end = self.whole.len() - GUARD;
        let whole = |part: &[T]| part.iter().all(|&mark| mark == T::MARK);
        assert!(whole(&self.whole[..GUARD]) && whole(&self.whole[end..]), "{what}: a guard was touched");
        self.whole[GUARD..end].to_vec()
    }
}
