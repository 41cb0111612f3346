//! The examples `time` and `server`, and the first program that is installed, where standard output
//! is closed or full. The one that needs OpenSSL is held to the same in `signatures.rs`, the command
//! `trawl` in `program_files.rs`, and the story in `tools/try-scripts`.

#[path = "support/written.rs"]
mod written;

const REPORT: &str = concat!(env!("CARGO_MANIFEST_DIR"), "/../../vectors/malfeasance-report.json");

#[test]
fn the_time_is_written_or_no_success() {
    written::or_no_success("time", &[]);
}

#[test]
fn the_server_says_what_its_clients_learnt_or_is_no_success() {
    written::or_no_success("server", &["1773685571"]);
}

#[test]
fn the_first_program_writes_or_is_no_success() {
    written::or_no_success("first", &[REPORT]);
}
