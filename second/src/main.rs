//! A second program for the rules of document 01: it answers uploads, batches
//! and single calls, and it writes files of cases for two engines to answer.
//!
//! The rules are in `answer`, `upload`, `state`, `step`, `call` and `batch`.
//! The cases are made by `random`, `draft`, `shape`, `log`, `fault`, `image`,
//! `paper` and the `make_` modules; `record` is their form in files.

#![forbid(unsafe_code)]

mod answer;
mod batch;
mod call;
mod command;
mod draft;
mod fault;
mod image;
mod log;
mod make_batches;
mod make_calls;
mod make_damage;
mod make_parts;
mod paper;
mod random;
mod record;
mod shape;
mod state;
mod step;
mod upload;

#[cfg(test)]
mod tests;
#[cfg(test)]
mod tests_runs;

use std::ffi::OsString;
use std::io::Write;
use std::process::ExitCode;

fn main() -> ExitCode {
    let words: Vec<OsString> = std::env::args_os().skip(1).collect();
    match command::run(&words) {
        Ok(()) => ExitCode::SUCCESS,
        Err(message) => {
            // Nothing is left to do where standard error cannot be written.
            let _ = writeln!(std::io::stderr(), "second: {message}");
            ExitCode::from(1)
        }
    }
}
