//! The library against the model: every call, on numbers that are hard for it, and every refusal. Those of pictures, broken files
//! and the report have tests of their own.
//!
//! The library is linked (`HOENGTILA_ARCHIVE` at the build) or answers through a peer (`HOENGTILA_PEER`); where it is
//! neither, each test fails. `tests/library` at the root of the repository gives them one.
//! `HOENGTILA_SEED` gives other random cases, and `-- --nocapture` shows how much was compared.

mod blocks;
mod calls;
mod lines;
mod long;
mod numbers;
mod orders;
mod refusals;
mod rows;
mod shapes;
mod steps;
mod strays;
mod thin;
mod transform;
mod weights;
mod why;
mod wrapped;
