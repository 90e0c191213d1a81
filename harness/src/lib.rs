//! An independent model of document 01 and document 02, and what compares other things with it.
//!
//! `model` is written from the text of the two documents, and from a decoder where they leave a rule to H.266 (`docs/DECISIONS.md`), with
//! no eye to the code and none to speed.
//! `random` makes the cases, the same ones for the same seed; `patterns`, `direction`, `folding` and `wrong` know which are hard, `files`
//! has block files, and `steps` makes the lists of steps that the crates store; `program` runs a program on a file.
//! `header` has what the C header says of refusals; `lfnst` is the model of the low-frequency stage.
//! `library` is the crate for Rust callers (`rust`), `peer` the library behind a pipe; `call`, `row_call`, `step_call`, `long_call`, `thin_call`,
//! `transform_call` and `why_call` have calls as values, which `subject` runs on either, and `compare` holds what comes back to the model.
//! `widths` goes between the library's numbers and the model's.

pub mod call;
pub mod compare;
pub mod direction;
pub mod files;
pub mod folding;
pub mod header;
pub mod lfnst;
pub mod long_call;
pub mod model;
pub mod patterns;
pub mod peer;
pub mod program;
pub mod random;
pub mod room;
pub mod row_call;
pub mod step_call;
pub mod steps;
pub mod subject;
pub mod thin_call;
pub mod transform_call;
pub mod why_call;
pub mod widths;
pub mod wrong;

pub use hoengtila as library;
