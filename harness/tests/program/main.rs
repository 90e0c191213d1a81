//! The program as a person meets it, through the command in front of it: what it prints, what it says on standard error and
//! its status are to be what the model and the command's own words say.
//!
//! HOENGTILA_PROGRAM names the command. `tests/program` at the root of the repository gives it one.

mod command;
mod files;
mod input;
mod output;
mod words;
