//! What the tests share: a small tree of their own, and what a check found in it.

use crate::report::{Checked, Wrong};
use crate::tree::Tree;
use std::fs;
use std::path::PathBuf;
use std::sync::atomic::{AtomicUsize, Ordering};

/// A folder that goes away with it.
pub struct Scratch {
    root: PathBuf,
}

static MADE: AtomicUsize = AtomicUsize::new(0);

impl Scratch {
    /// A tree of these files, and of an empty list of crates where they have none.
    pub fn new(files: &[(&str, &str)]) -> Scratch {
        let name = format!("xtask-{}-{}", std::process::id(), MADE.fetch_add(1, Ordering::SeqCst));
        let scratch = Scratch { root: std::env::temp_dir().join(name) };
        scratch.put("crates.txt", "");
        for (file, text) in files {
            scratch.put(file, text);
        }
        scratch
    }

    pub fn put(&self, file: &str, text: &str) {
        let path = self.root.join(file);
        fs::create_dir_all(path.parent().unwrap()).unwrap();
        fs::write(path, text).unwrap();
    }

    /// Puts `new` into a file in the place of `old`, which must be there.
    pub fn alter(&self, file: &str, old: &str, new: &str) {
        let text = self.tree().read(file).unwrap();
        assert!(text.contains(old), "{file} has no {old:?}");
        self.put(file, &text.replacen(old, new, 1));
    }

    pub fn remove(&self, file: &str) {
        fs::remove_file(self.root.join(file)).unwrap();
    }

    pub fn tree(&self) -> Tree {
        Tree::at(&self.root)
    }
}

impl Drop for Scratch {
    fn drop(&mut self) {
        let _ = fs::remove_dir_all(&self.root);
    }
}

/// The problems that a check must have found.
pub fn found<T>(verdict: Checked<T>) -> Vec<String> {
    match verdict {
        Err(Wrong::Found(problems)) => problems,
        Err(Wrong::Usage) => panic!("the words are taken for wrong"),
        Ok(_) => panic!("nothing is found"),
    }
}
