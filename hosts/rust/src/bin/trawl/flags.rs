//! What stands on the command line, and whether it goes together.

use crate::actions::{goes_with, takes_a_word, Action};
use crate::help;
use crate::names;
use crate::status::Stop;
use std::ffi::{OsStr, OsString};
use std::os::unix::ffi::{OsStrExt, OsStringExt};
use std::path::PathBuf;

/// How many lists of servers there may be: the owner's and the shipped one.
const MOST_LISTS: usize = 2;

/// The flags whose word is a number.
const NUMBERS: [&str; 3] = ["--of", "--within", "--watch"];

#[derive(Debug)]
pub struct Flags {
    pub action: Action,
    /// The words that are no flags.
    pub words: Vec<OsString>,
    pub json: bool,
    pub dates: bool,
    pub svg: bool,
    pub force: bool,
    pub status: bool,
    pub all: bool,
    pub out: Option<PathBuf>,
    /// Where reports go.
    pub reports: Option<PathBuf>,
    /// The lists of servers, the owner's first.
    pub servers: Vec<PathBuf>,
    /// The numbers, by their flags.
    numbers: Vec<(String, OsString)>,
}

/// What stands on the command line, before it is known whether it goes together.
#[derive(Default)]
struct Given {
    actions: Vec<Action>,
    flags: Vec<String>,
    words: Vec<OsString>,
    out: Option<OsString>,
    reports: Option<OsString>,
    servers: Vec<OsString>,
    numbers: Vec<(String, OsString)>,
}

impl Given {
    fn of(mut arguments: impl Iterator<Item = OsString>) -> Result<Given, Stop> {
        let mut given = Given::default();
        while let Some(word) = arguments.next() {
            let bytes = word.as_bytes();
            if bytes == b"--" {
                given.words.extend(arguments.by_ref());
            } else if bytes.len() < 2 || bytes[0] != b'-' {
                given.words.push(word);
            } else {
                given.flag(word, &mut arguments)?;
            }
        }
        Ok(given)
    }

    /// A flag, with its word behind a sign of equality or in the next one.
    fn flag(
        &mut self,
        word: OsString,
        more: &mut impl Iterator<Item = OsString>,
    ) -> Result<(), Stop> {
        let mut parts = word.as_bytes().splitn(2, |byte| *byte == b'=');
        let name = String::from_utf8_lossy(parts.next().unwrap_or_default()).into_owned();
        let behind = parts.next().map(|word| OsString::from_vec(word.to_vec()));
        if takes_a_word(&name) {
            let none = || Stop::Usage(format!("{name} names no {}", named_by(&name)));
            let word = behind.or_else(|| more.next()).filter(|word| !word.is_empty());
            let word = word.ok_or_else(none)?;
            match &name[..] {
                "--servers" => self.servers.push(word),
                "--reports" => self.reports = Some(word),
                _ if NUMBERS.contains(&&name[..]) => self.numbers.push((name.clone(), word)),
                _ => self.out = Some(word),
            }
        } else if behind.is_some() && (Action::of(&name).is_some() || goes_with(&name).is_some()) {
            return Err(Stop::Usage(format!("{name} takes nothing behind a sign of equality")));
        }
        match Action::of(&name) {
            Some(action) => self.actions.push(action),
            None => self.flags.push(name),
        }
        Ok(())
    }

    fn has(&self, flag: &str) -> bool {
        self.flags.iter().any(|given| given == flag)
    }

    /// The one action: help, wherever that is asked for. What only a verdict can be asked for asks
    /// for one.
    fn action(&self) -> Result<Action, Stop> {
        match self.actions[..] {
            _ if self.actions.contains(&Action::Help) => Ok(Action::Help),
            [] if self.has("--json") || self.has("--dates") => Ok(Action::Judge),
            [] => Ok(Action::Plain),
            [action] => Ok(action),
            [one, other, ..] => Err(Stop::Usage(format!(
                "{} and {} cannot be asked for at once\n{}",
                one.name(),
                other.name(),
                help::usage()
            ))),
        }
    }

    /// Whether flags and words go with the action.
    fn check(&self, action: Action) -> Result<(), Stop> {
        if let Some(flag) = self.flags.iter().find(|flag| !action.takes(flag)) {
            return Err(match goes_with(flag) {
                Some(actions) => action.wrong(format!("{flag} goes with {actions}")),
                None => no_flag(flag),
            });
        }
        let most = |flag: &str| if flag == "--servers" { MOST_LISTS } else { 1 };
        let often = |flag: &&String| self.flags.iter().filter(|other| other == flag).count();
        if let Some(flag) = self.flags.iter().find(|flag| often(flag) > most(flag)) {
            let times = if most(flag) == 1 { "twice" } else { "more than twice" };
            return Err(action.wrong(format!("{flag} stands there {times}")));
        }
        let words = self.words.len();
        if !action.counts(words) {
            let were = if words == 1 { "word is" } else { "words are" };
            let name = if action == Action::Plain { "trawl" } else { action.name() };
            let takes = format!("{name} takes {}", action.wants());
            return Err(action.wrong(format!("{takes}, and {words} {were} given")));
        }
        if self.has("--force") && self.out.is_none() {
            return Err(action.wrong("--force goes with --out".to_string()));
        }
        let dashes = self.files(action).filter(|file| *file == "-").count();
        if dashes > 1 {
            return Err(action.wrong("standard input can be read but once".to_string()));
        }
        Ok(())
    }

    /// The words that name files to be read. Where packets are put together - is a rand, too.
    fn files(&self, action: Action) -> impl Iterator<Item = &OsString> {
        let rand = move |place: usize| action == Action::Make && place % 4 == 1;
        let words = self.words.iter().enumerate().filter(move |(place, _)| !rand(*place));
        words.map(|(_, word)| word).chain(&self.servers)
    }
}

/// What the word behind a flag names.
fn named_by(flag: &str) -> &'static str {
    match flag {
        "--reports" => "folder",
        _ if NUMBERS.contains(&flag) => "number",
        _ => "file",
    }
}

fn no_flag(flag: &str) -> Stop {
    let flag = names::plain(flag);
    let file = if flag.starts_with("--") { "" } else { "; a file of that name is written ./" };
    let name = if file.is_empty() { "" } else { &flag[..] };
    Stop::Usage(format!("there is no flag {flag}{file}{name}\n{}", help::usage()))
}

impl Flags {
    pub fn of(arguments: impl Iterator<Item = OsString>) -> Result<Flags, Stop> {
        let given = Given::of(arguments)?;
        let action = given.action()?;
        if action != Action::Help {
            given.check(action)?;
        }
        Ok(Flags {
            action,
            json: given.has("--json"),
            dates: given.has("--dates"),
            svg: given.has("--svg"),
            force: given.has("--force"),
            status: given.has("--status"),
            all: given.has("--all"),
            words: given.words,
            out: given.out.map(PathBuf::from),
            reports: given.reports.map(PathBuf::from),
            servers: given.servers.into_iter().map(PathBuf::from).collect(),
            numbers: given.numbers,
        })
    }

    /// The word behind a flag that wants a number.
    pub fn number(&self, flag: &str) -> Option<&OsStr> {
        let mut numbers = self.numbers.iter();
        numbers.find(|(name, _)| name == flag).map(|(_, word)| word.as_os_str())
    }
}
