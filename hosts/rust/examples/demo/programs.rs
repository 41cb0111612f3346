//! The two programs, which cargo puts beside the folder of this one.

use std::error::Error;
use std::path::PathBuf;
use std::process::Command;
use std::{env, io};

/// Where they stand.
#[derive(Clone)]
pub struct Programs {
    folder: PathBuf,
}

impl Programs {
    pub fn find() -> Result<Programs, Box<dyn Error>> {
        let own = env::current_exe()?;
        let folder = own.parent().and_then(|examples| examples.parent());
        let folder = folder.ok_or("this program stands in no folder")?.to_path_buf();
        for name in ["trawl", "trawld"] {
            if !folder.join(name).is_file() {
                return Err(format!("there is no {name} in {}", folder.display()).into());
            }
        }
        Ok(Programs { folder })
    }

    pub fn command(&self, name: &str, words: &[&str]) -> Command {
        let mut command = Command::new(self.folder.join(name));
        command.args(words);
        command
    }

    /// What a program prints that does one thing and ends.
    pub fn printed(&self, name: &str, words: &[&str]) -> io::Result<String> {
        let output = self.command(name, words).output()?;
        if !output.status.success() {
            let said = String::from_utf8_lossy(&output.stderr).into_owned();
            return Err(io::Error::new(io::ErrorKind::Other, said));
        }
        Ok(String::from_utf8_lossy(&output.stdout).into_owned())
    }
}
