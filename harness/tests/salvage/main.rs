//! What can be saved of broken block files: the library and the program behind `blocks salvage`, held to the model.
//!
//! The library answers through `peer/salvage.c` (`HOENGTILA_SALVAGE` gives its command line) and, where the build links it,
//! directly. `tests/salvage` at the root of the repository gives both.

mod calls;
mod cases;
mod files;
mod program;
