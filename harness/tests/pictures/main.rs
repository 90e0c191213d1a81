//! Pictures: the library against the model, and both against the Netpbm tools and ImageMagick.
//!
//! The library answers through `peer/picture.c` (`HOENGTILA_PICTURES` gives its command line) and, where the build links it,
//! directly. `tests/pictures` at the root of the repository gives both.

mod calls;
mod cases;
mod program;
mod tools;
