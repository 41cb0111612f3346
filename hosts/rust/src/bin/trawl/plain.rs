//! The proved program: found, run, and what it prints passed on.

use crate::evidence::whose_keys;
use crate::flags::Flags;
use crate::hints::{self, Held};
use crate::output;
use crate::status::{Ended, Stop};
use std::ffi::OsString;
use std::io::ErrorKind;
use std::path::{Path, PathBuf};
use std::process::{Command, Stdio};
use std::{env, fs, process};

/// Document 01's fifth example. Its signatures are made up, and its answers are yes.
const SAMPLE: [(&str, &[u8]); 2] = [
    ("pile", include_bytes!("../../../../../crates/trawl/data/example5.pile")),
    ("answers", include_bytes!("../../../../../crates/trawl/data/example5.answers")),
];

pub fn run(flags: &Flags) -> Result<Ended, Stop> {
    if flags.words.is_empty() {
        return on_sample(flags.status);
    }
    for word in &flags.words {
        hints::unreadable(Path::new(word)).into_iter().for_each(|hint| output::say(&hint));
    }
    let said = verdict(&flags.words)?;
    output::print(&said)?;
    let ended = ended(&said);
    match ended {
        Ended::Refused => on_refusal(&flags.words).iter().for_each(|hint| output::say(hint)),
        Ended::Done => output::say(&whose_keys("--judge PILE --servers LIST")),
        _ => (),
    }
    Ok(ended.told(flags.status))
}

/// What is wrong with the files, which the program read. Of what is no file nothing is said: it can
/// be read but once.
fn on_refusal(files: &[OsString]) -> Vec<String> {
    let read = |file: &OsString| {
        let found = fs::metadata(file).ok()?;
        let small = file != "-" && found.is_file() && found.len() < 1 << 24;
        small.then(|| fs::read(file).ok()).flatten()
    };
    let held: Vec<Option<Vec<u8>>> = files.iter().map(read).collect();
    let held = |place: usize| -> Option<Held> {
        Some((Path::new(files.get(place)?), held[place].as_deref()?))
    };
    held(0).map_or(vec![], |pile| hints::on_pile_and_answers(pile, held(1)))
}

/// Where the program stands, as seen from this one.
fn program() -> Result<PathBuf, Stop> {
    let own = env::current_exe().map_err(|error| Stop::Failed(error.to_string()))?;
    let folder = own.parent().and_then(Path::parent).unwrap_or_else(|| Path::new("/"));
    Ok(folder.join("libexec/trawlbeacon/verdict"))
}

/// What the program prints of these files. It has no status of its own to say that its words were
/// not written, so that they are taken from it and written here.
fn verdict(files: &[OsString]) -> Result<Vec<u8>, Stop> {
    let program = program()?;
    // The program knows files by their names alone.
    let named = |file: &OsString| if file == "-" { "/dev/stdin".into() } else { file.clone() };
    let ran = Command::new(&program)
        .args(files.iter().map(named))
        .stdin(Stdio::inherit())
        .stderr(Stdio::inherit())
        .output()
        .map_err(|error| Stop::file(&program, error))?;
    if !ran.status.success() {
        return Err(Stop::file(&program, format!("it ended with {}", ran.status)));
    }
    Ok(ran.stdout)
}

/// What the last line of a verdict says.
fn ended(said: &[u8]) -> Ended {
    let last = said.strip_suffix(b"\n").unwrap_or(said).rsplit(|byte| *byte == b'\n').next();
    match last {
        Some(b"run none") => Ended::None,
        Some(run) if run.starts_with(b"run ") => Ended::Done,
        _ => Ended::Refused,
    }
}

/// A folder that was not there before, whoever made others of such names.
fn new_folder() -> Result<PathBuf, Stop> {
    let mut count = 0;
    loop {
        let folder = env::temp_dir().join(format!("trawl-sample-{}-{count}", process::id()));
        match fs::create_dir(&folder) {
            Ok(()) => return Ok(folder),
            Err(error) if error.kind() == ErrorKind::AlreadyExists && count < 100 => count += 1,
            Err(error) => return Err(Stop::file(&folder, error)),
        }
    }
}

/// The program reads files, so that the sample is put into some.
fn on_sample(status: bool) -> Result<Ended, Stop> {
    let folder = new_folder()?;
    let failed = |error| Stop::file(&folder, error);
    let files = SAMPLE.map(|(name, _)| folder.join(name));
    let written =
        SAMPLE.iter().zip(&files).try_for_each(|((_, bytes), file)| fs::write(file, bytes));
    let said = written.map_err(failed).and_then(|()| verdict(&files.map(OsString::from)));
    fs::remove_dir_all(&folder).map_err(failed)?;
    let said = said?;
    output::print(&said)?;
    output::say("no pile is named, and so this is of a sample; trawl --help says what there is");
    Ok(ended(&said).told(status))
}
