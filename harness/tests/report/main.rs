//! The report: the library and the program against the model.
//!
//! The library answers through `peer/report.c` (`HOENGTILA_REPORT` gives its command line) and, where the build links it,
//! directly. `HOENGTILA_REPORT_PROGRAM` gives the command line of the program behind `blocks report`. `tests/report` at the root
//! of the repository gives both.

mod calls;
mod cases;
mod program;
