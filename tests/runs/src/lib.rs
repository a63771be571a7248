//! The runs: the proved engine held against an independent one. `engine` shares no code with the proved engine; `desk` reaches
//! the proved one through its C interface; `generate` makes the events for both.

pub mod arguments;
pub mod cases;
pub mod chains;
pub mod desk;
#[rustfmt::skip] // adopted as it came
pub mod engine;
pub mod generate;
pub mod host;
pub mod images;
pub mod keys;
pub mod layout;
pub mod near;
pub mod program;
pub mod random;
pub mod table;
pub mod tally;
pub mod zones;
