//! The shared depot box, written a second time from the paper, to be read
//! beside it and to be run against the proved program (tests/README.md).

pub mod blocks;
pub mod command;
pub mod config_stories;
pub mod coverage;
pub mod crc;
pub mod data;
pub mod frame;
pub mod gen;
pub mod host;
pub mod lengths;
pub mod lines;
pub mod listing;
pub mod model;
pub mod place;
pub mod place_commands;
pub mod random;
pub mod record_stories;
pub mod shapes;
pub mod sides;
pub mod situations;
pub mod store;
pub mod stories;
pub mod tally;
pub mod timer;
