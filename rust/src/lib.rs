//! The shared depot box, its host side and its scan lines: a safe wrapper over `libdepot_c.a` and `libhost_c.a`, which are proved.
//!
//! A login and a write, and the block read back:
//!
//! ```
//! use depot::{Ask, Desk, Kind, Request, Store, REPLY_SIZE};
//! let mut store = Store::fresh();
//! let (mut frame, mut reply) = ([0; REPLY_SIZE], [0; REPLY_SIZE]);
//! for ask in [Ask::Login(0), Ask::WriteBlock(3, *b"fourteen bytes"), Ask::ReadBlock(3)] {
//!     let request = Request { kind: Kind::Standard, desk: Desk::ALL[2], ask };
//!     let sent = request.make(&mut frame)?;
//!     let answer = store.frame(sent, &mut reply)?;
//!     let told = request.read(answer)?;
//!     assert_eq!(told.status, 0x00);
//!     if let Ask::ReadBlock(_) = ask {
//!         assert_eq!(&depot::block(told.data)?, b"fourteen bytes");
//!     }
//! }
//! # Ok::<(), depot::Refusal>(())
//! ```
//!
//! What the library promises is proved (`crates/depot_c`, `crates/host_c`); what stands here is the way to it, and is tested. A call
//! that is refused leaves store and output octet for octet. Of the calls here [`sound`], [`Request::read`] and what reads the data of
//! a reply ([`block`], [`timer`], [`sizes`], [`record`], [`records`]) only read.
mod answer;
mod data;
mod host;
mod lines;
pub mod numbers;
pub mod raw;
mod store;
mod sys;

pub use answer::{Refusal, Seen, Told};
pub use data::{block, record, records, sizes, timer, Block, Record, Sizes, Timer};
pub use host::{Ask, Kind, Request, ALL_BLOCKS, EEPROM};
pub use lines::{line, lines, DEFAULT_BLOCK_7};
pub use numbers::{REPLY_SIZE, STORE_SIZE};
pub use store::{sound, Desk, Store};
