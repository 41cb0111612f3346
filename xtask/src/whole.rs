//! Files that are written whole or not at all.

use crate::report::{Checked, Wrong};
use std::fs::{self, File};
use std::io::{self, Write};
use std::path::{Path, PathBuf};

/// Puts a text in the place of a file in one step, once it is on the disk, so that there is the old
/// one or the new one.
pub fn put(path: &Path, text: &[u8]) -> Checked<()> {
    let mut name = path.as_os_str().to_owned();
    name.push(".new");
    let new = PathBuf::from(name);
    written(&new, path, text).and_then(|()| fs::rename(&new, path)).map_err(|error| {
        let _ = fs::remove_file(&new);
        Wrong::one(format!("{} cannot be written: {error}", path.display()))
    })
}

/// Who may read and write the old file may do so with the new one.
fn written(new: &Path, old: &Path, text: &[u8]) -> io::Result<()> {
    let mut file = File::create(new)?;
    file.write_all(text)?;
    if let Ok(about) = fs::metadata(old) {
        file.set_permissions(about.permissions())?;
    }
    file.sync_all()
}

#[cfg(test)]
mod tests {
    use crate::testing::{found, Scratch};

    #[test]
    fn the_new_text_is_there_and_nothing_beside_it() {
        let scratch = Scratch::new(&[("a", "old")]);
        super::put(&scratch.tree().path("a"), b"new").unwrap();
        assert_eq!(scratch.tree().read("a").unwrap(), "new");
        assert_eq!(scratch.tree().files(), ["a", "crates.txt"]);
    }

    #[test]
    fn what_cannot_be_written_is_said() {
        let scratch = Scratch::new(&[]);
        let problem = found(super::put(&scratch.tree().path("none/a"), b"new"));
        assert!(problem[0].contains("cannot be written"), "{problem:?}");
    }
}
