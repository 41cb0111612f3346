//! A folder in which the command `trawl` is run, as it is installed beside the proved program.

// Each test file takes this in, and none of them needs all of it.
#![allow(dead_code)]

use std::ffi::OsStr;
use std::fs;
use std::path::{Path, PathBuf};
use std::process::{Command, Output, Stdio};
use std::sync::Once;

pub const ROOT: &str = concat!(env!("CARGO_MANIFEST_DIR"), "/../..");

/// A folder with files, in which the command is run.
pub struct Room {
    pub folder: PathBuf,
}

/// What a run of the command left.
#[derive(Debug, PartialEq, Eq)]
pub struct Ran {
    pub out: String,
    pub said: String,
    pub status: Option<i32>,
}

static INSTALLED: Once = Once::new();

/// The folder in which the command is installed, once for all tests of a file: a file that is written
/// while another test starts a process cannot be run for as long as that process has it, too.
pub fn installed() -> PathBuf {
    let folder = Path::new(env!("CARGO_TARGET_TMPDIR")).join(env!("CARGO_CRATE_NAME"));
    INSTALLED.call_once(|| {
        let _ = fs::remove_dir_all(&folder);
        for part in ["bin", "libexec/trawlbeacon", "without/bin"] {
            fs::create_dir_all(folder.join(part)).expect("a folder can be made");
        }
        let program = Path::new(ROOT).join("build/libexec/trawlbeacon/verdict");
        fs::copy(env!("CARGO_BIN_EXE_trawl"), folder.join("bin/trawl")).expect("cargo built it");
        fs::copy(env!("CARGO_BIN_EXE_trawl"), folder.join("without/bin/trawl")).expect("and again");
        fs::copy(&program, folder.join("libexec/trawlbeacon/verdict")).unwrap_or_else(|error| {
            let how = "tools/native-program trawl build/libexec/trawlbeacon/verdict";
            panic!("{}: {error}; '{how}' makes it", program.display())
        });
    });
    folder
}

impl Room {
    /// An empty folder of this name.
    pub fn new(name: &str) -> Room {
        let folder = installed().join("rooms").join(name);
        fs::create_dir_all(&folder).expect("a folder can be made");
        Room { folder }
    }

    pub fn command<W: AsRef<OsStr>>(&self, words: &[W]) -> Command {
        let mut command = Command::new(installed().join("bin/trawl"));
        command.args(words).current_dir(&self.folder);
        command
    }

    /// The command, started by a shell behind these words of its own.
    pub fn by_shell(&self, before: &str, words: &[&str]) -> Command {
        let mut command = Command::new("sh");
        command.arg("-c").arg(format!("{before} exec \"$0\" \"$@\""));
        command.arg(installed().join("bin/trawl")).args(words).current_dir(&self.folder);
        command
    }

    pub fn output<W: AsRef<OsStr>>(&self, words: &[W]) -> Output {
        self.command(words).stdin(Stdio::null()).output().expect("it can be run")
    }

    pub fn run<W: AsRef<OsStr>>(&self, words: &[W]) -> Ran {
        Ran::of(self.output(words))
    }

    /// Writes a file, and names it.
    pub fn put<'a>(&self, name: &'a str, bytes: &[u8]) -> &'a str {
        fs::write(self.folder.join(name), bytes).expect("a file can be written");
        name
    }

    pub fn bytes(&self, name: &str) -> Vec<u8> {
        fs::read(self.folder.join(name)).expect("the file is there")
    }
}

impl Ran {
    pub fn of(Output { status, stdout, stderr }: Output) -> Ran {
        let text = |bytes| String::from_utf8(bytes).expect("it is text");
        Ran { out: text(stdout), said: text(stderr), status: status.code() }
    }
}
