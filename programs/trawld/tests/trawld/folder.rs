//! A folder of a test's own, which goes with it.

use std::fs;
use std::path::{Path, PathBuf};
use std::process::{Command, Output};
use std::sync::atomic::{AtomicU64, Ordering};

pub const PROGRAM: &str = env!("CARGO_BIN_EXE_trawld");

pub struct Folder(PathBuf);

impl Folder {
    pub fn new() -> Folder {
        static COUNT: AtomicU64 = AtomicU64::new(0);
        let name =
            format!("trawld-{}-{}", std::process::id(), COUNT.fetch_add(1, Ordering::SeqCst));
        let path = Path::new(env!("CARGO_TARGET_TMPDIR")).join(name);
        fs::create_dir_all(&path).expect("a folder can be made");
        Folder(path)
    }

    /// With a long-term key, `key`, and a delegation of some days, `delegation`.
    pub fn with_delegation(days: u32) -> Folder {
        let folder = Folder::new();
        assert!(folder.run(&["--make-key", "key"]).status.success());
        folder.delegate(days, &[]);
        folder
    }

    pub fn delegate(&self, days: u32, more: &[&str]) {
        let days = days.to_string();
        let words = ["--delegate", "key", "--days", &days, "--out", "delegation"];
        let said = self.run(&[&words[..], more].concat());
        assert!(said.status.success(), "{}", String::from_utf8_lossy(&said.stderr));
    }

    pub fn path(&self) -> &Path {
        &self.0
    }

    pub fn file(&self, name: &str) -> PathBuf {
        self.0.join(name)
    }

    pub fn write(&self, name: &str, text: &str) {
        // In one step, so that nobody reads half of it.
        fs::write(self.file(".next"), text).expect("it can be written");
        fs::rename(self.file(".next"), self.file(name)).expect("it can be renamed");
    }

    pub fn read(&self, name: &str) -> String {
        fs::read_to_string(self.file(name)).expect("it can be read")
    }

    /// Runs the program in it.
    pub fn run(&self, words: &[&str]) -> Output {
        let mut command = Command::new(PROGRAM);
        command.args(words).current_dir(&self.0).output().expect("it can be run")
    }

    /// The long-term public key.
    pub fn public_key(&self) -> [u8; 32] {
        let text = self.read("key");
        let line = text.lines().find_map(|line| line.strip_prefix("public ")).expect("it has one");
        let byte = |at| u8::from_str_radix(&line[at..at + 2], 16).expect("it is hex");
        let bytes: Vec<u8> = (0..line.len()).step_by(2).map(byte).collect();
        bytes.try_into().expect("it has 32 bytes")
    }
}

impl Drop for Folder {
    fn drop(&mut self) {
        let _ = fs::remove_dir_all(&self.0);
    }
}

/// What a run that fails says: a line alone, on standard error.
pub fn complaint(output: &Output, status: i32) -> String {
    assert_eq!(output.status.code(), Some(status));
    assert!(output.stdout.is_empty());
    let said = String::from_utf8(output.stderr.clone()).expect("it is text");
    assert_eq!(said.matches('\n').count(), 1, "{said}");
    assert!(said.starts_with("trawld: "), "{said}");
    said
}
