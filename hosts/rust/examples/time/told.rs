//! A line that must be written: what could not be written was not told, and is no success.

#[path = "../../shared/standard_output.rs"]
mod standard_output;

use std::process::ExitCode;

/// Prints a line, and ends with this status; or says why it could not be printed, and fails.
pub fn told(line: &str, status: ExitCode) -> ExitCode {
    match standard_output::print(format!("{line}\n").as_bytes()) {
        Ok(()) => status,
        Err(error) => {
            eprintln!("standard output: {error}");
            ExitCode::FAILURE
        }
    }
}
