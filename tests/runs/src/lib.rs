//! What the runs share: buffers that are guarded on both sides, the calls at both boxes, what C can ask, and what must be met.

pub mod asked;
pub mod calls;
pub mod floors;
pub mod guarded;

/// The numbers that follow a program's name.
pub fn numbers<const N: usize>(usage: &str) -> [u64; N] {
    let given: Vec<u64> = std::env::args().skip(1).filter_map(|text| text.parse().ok()).collect();
    given.try_into().unwrap_or_else(|_| {
        eprintln!("{usage}");
        std::process::exit(2)
    })
}
