//! `verdict PILE ANSWERS ...` prints what is to be said of the pile in each pair of files, one
//! after the other, and `verdict PILE` what is to be said of a pile by its own signatures. Proved
//! programs print the same lines, and the outputs are compared.

use independent::verdict;
use std::{env, fs, process};

/// A file that is missing counts as empty.
fn read(path: &str) -> Vec<u8> {
    fs::read(path).unwrap_or_default()
}

fn main() {
    let paths: Vec<String> = env::args().skip(1).collect();
    if let [pile] = &paths[..] {
        print!("{}", verdict::signed_lines(&read(pile)));
        return;
    }
    if paths.is_empty() || paths.len() % 2 != 0 {
        eprintln!("usage: verdict PILE, or verdict PILE ANSWERS ...");
        process::exit(2);
    }
    for pair in paths.chunks(2) {
        print!("{}", verdict::lines(&read(&pair[0]), &read(&pair[1])));
    }
}
