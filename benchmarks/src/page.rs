//! The page and the picture in docs/, written anew from one run.
//!
//! On the page a line `<!-- bench: NAME -->` has the piece of that name below it, up to the next
//! empty line. What is around these pieces stays.

use crate::picture;
use crate::run::{Piece, Run};
use crate::whole::{self, Existing};
use std::fs;
use std::path::Path;

const PAGE: &str = "docs/PERFORMANCE.md";
const PICTURE: &str = "docs/performance.svg";

/// What a piece's line begins with.
const MARK: &str = "<!-- bench: ";

/// The page with its places filled. Each must have its piece; what has no place is only printed.
fn filled(page: &str, pieces: &[Piece]) -> Result<String, String> {
    let (mut filled, mut old) = (String::new(), false);
    for line in page.lines() {
        old &= !line.is_empty();
        if !old {
            filled += line;
            filled += "\n";
        }
        if let Some(name) = line.strip_prefix(MARK).and_then(|rest| rest.strip_suffix(" -->")) {
            let piece = pieces.iter().find(|piece| piece.name == name);
            filled += &piece.ok_or(format!("there is no {name} for the page"))?.markdown;
            old = true;
        }
    }
    Ok(filled)
}

/// Writes both.
pub fn write(run: &Run) -> Result<(), String> {
    let told = |error: std::io::Error| error.to_string();
    let page = filled(&fs::read_to_string(PAGE).map_err(told)?, &run.pieces)?;
    let picture = picture::svg(&run.lines);
    for (file, text) in [(PAGE, page), (PICTURE, picture)] {
        whole::write(Path::new(file), text.as_bytes(), Existing::Replaced).map_err(told)?;
    }
    println!("{PAGE} and {PICTURE} are written");
    Ok(())
}
