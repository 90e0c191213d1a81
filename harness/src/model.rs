//! The model: what every call of documents 01 and 02 hands back and writes, worked out from their text.
//!
//! All numbers are of 64 bits or more, so that nothing here can overflow and no type hides a rule: where a result
//! has to fit 16 or 32 bits, that is for a test to find.

pub mod block;
pub mod call;
pub mod file;
pub mod line;
pub mod long;
pub mod picture;
pub mod report;
pub mod row;
pub mod salvage;
pub mod small;
pub mod steps;
pub mod thin;
pub mod transform;
pub mod weights;
pub mod why;
pub mod wrapped;

pub use block::{fair_ends, forward, inverse};
pub use call::{Answer, Shape};
pub use file::{run_file, Cursor};
pub use line::{forward_line, inverse_line};
pub use long::inverse_long;
pub use picture::{read_picture, write_picture};
pub use row::block_row;
pub use small::{forward_4x4, inverse_4x4};
pub use thin::inverse_thin;
pub use transform::{inverse_transform, Lfnst};
pub use why::{why, why_long};
pub use wrapped::{forward_wrapped, inverse_wrapped};

#[cfg(test)]
mod numbers;
#[cfg(test)]
mod samples;
