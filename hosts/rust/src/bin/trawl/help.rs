//! What `--help` says. It stands in a file of its own, which the script `trawl` of a clone shows
//! where nothing is built yet; that script reads the lines of usage as `actions` does.

pub const HELP: &str = include_str!("help.txt");

/// How it is called: the lines up to the first that is empty.
pub fn usage() -> &'static str {
    HELP.split("\n\n").next().unwrap_or(HELP)
}
