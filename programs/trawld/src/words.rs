//! The words of the command line: an action, its flags and their values, before it is known what
//! they mean.

use crate::stop::{usage, Stop};
use std::ffi::{OsStr, OsString};
use std::os::unix::ffi::{OsStrExt, OsStringExt};

/// What a flag takes, and which action it belongs to.
pub struct Flag {
    pub name: &'static str,
    pub takes: bool,
    pub action: &'static str,
    /// Whether it may stand there more than once.
    pub often: bool,
}

const fn flag(name: &'static str, action: &'static str, takes: bool, often: bool) -> Flag {
    Flag { name, takes, action, often }
}

/// The action where no flag names one.
pub const SERVE: &str = "DELEGATION";

/// All of them. A flag whose action it is itself is an action.
pub const FLAGS: &[Flag] = &[
    flag("--help", "--help", false, true),
    flag("--version", "--version", false, false),
    flag("--make-key", "--make-key", true, false),
    flag("--delegate", "--delegate", true, false),
    flag("--days", "--delegate", true, false),
    flag("--from", "--delegate", true, false),
    flag("--out", "--delegate", true, false),
    flag("--force", "--delegate", false, false),
    flag("--show", "--show", true, false),
    flag("--server-list", "--server-list", true, false),
    flag("--name", "--server-list", true, false),
    flag("--address", "--server-list", true, true),
    flag("--listen", SERVE, true, true),
    flag("--sockets", SERVE, true, false),
    flag("--no-tcp", SERVE, false, false),
    flag("--tcp-connections", SERVE, true, false),
    flag("--tcp-idle", SERVE, true, false),
    flag("--tcp-bytes", SERVE, true, false),
    flag("--radius", SERVE, true, false),
    flag("--margin", SERVE, true, false),
    flag("--trust-clock", SERVE, false, false),
    flag("--grease", SERVE, true, false),
    flag("--grease-form", SERVE, true, true),
    flag("--metrics", SERVE, true, false),
    flag("--line", SERVE, true, false),
    flag("--test-clock", SERVE, true, false),
];

/// Flags with their values, and words that are no flags.
#[derive(Debug, Default)]
pub struct Words {
    flags: Vec<(&'static str, OsString)>,
    pub words: Vec<OsString>,
}

impl Words {
    pub fn of(mut arguments: impl Iterator<Item = OsString>) -> Result<Words, Stop> {
        let mut given = Words::default();
        while let Some(word) = arguments.next() {
            let bytes = word.as_bytes();
            if bytes == b"--" {
                given.words.extend(arguments.by_ref());
            } else if bytes.len() < 2 || bytes[0] != b'-' {
                given.words.push(word);
            } else {
                given.flag(bytes, &mut arguments)?;
            }
        }
        Ok(given)
    }

    /// A flag, with its value behind a sign of equality or in the next word.
    fn flag(&mut self, word: &[u8], more: &mut impl Iterator<Item = OsString>) -> Result<(), Stop> {
        let mut parts = word.splitn(2, |byte| *byte == b'=');
        let name = String::from_utf8_lossy(parts.next().unwrap_or_default()).into_owned();
        let behind = parts.next().map(|value| OsString::from_vec(value.to_vec()));
        let name = if name == "-h" { "--help" } else { &name };
        let Some(flag) = FLAGS.iter().find(|flag| flag.name == name) else {
            return usage(format!("there is no flag {name}; 'trawld --help' lists them"));
        };
        if !flag.takes && behind.is_some() {
            return usage(format!("{name} takes nothing behind a sign of equality"));
        }
        let value = if flag.takes { behind.or_else(|| more.next()) } else { Some(OsString::new()) };
        match value.filter(|value| !flag.takes || !value.is_empty()) {
            Some(value) => self.flags.push((flag.name, value)),
            None => return usage(format!("{name} takes a value; 'trawld --help' says which")),
        }
        let times = self.flags.iter().filter(|(given, _)| *given == flag.name).count();
        match times > 1 && !flag.often {
            true => usage(format!("{name} stands there twice")),
            false => Ok(()),
        }
    }

    /// The one action, once it is known that all flags belong to it.
    pub fn action(&self) -> Result<&'static str, Stop> {
        let known = |name: &str| FLAGS.iter().find(|flag| flag.name == name);
        let flags = || self.flags.iter().filter_map(|(name, _)| known(name));
        if self.has("--help") {
            return Ok("--help");
        }
        let action = flags().find(|flag| flag.name == flag.action).map_or(SERVE, |flag| flag.name);
        match flags().find(|flag| flag.action != action) {
            Some(flag) if flag.name == flag.action => {
                usage(format!("{action} and {} cannot be asked for at once", flag.name))
            }
            Some(flag) => usage(format!("{} goes with {}", flag.name, flag.action)),
            None => Ok(action),
        }
    }

    pub fn has(&self, name: &str) -> bool {
        self.value(name).is_some()
    }

    pub fn value(&self, name: &str) -> Option<&OsStr> {
        let given = self.flags.iter().find(|(given, _)| *given == name);
        given.map(|(_, value)| &value[..])
    }

    pub fn values<'a>(&'a self, name: &'a str) -> impl Iterator<Item = &'a OsStr> {
        self.flags.iter().filter(move |(given, _)| *given == name).map(|(_, value)| &value[..])
    }

    /// A whole number within these bounds, or what it is without the flag.
    pub fn number(&self, name: &str, least: u64, most: u64) -> Result<Option<u64>, Stop> {
        let Some(value) = self.value(name) else { return Ok(None) };
        let number = value.to_str().and_then(|word| word.parse().ok());
        match number.filter(|number| (least..=most).contains(number)) {
            Some(number) => Ok(Some(number)),
            None => usage(format!(
                "{name} takes a number from {least} to {most}, and not '{}'",
                value.to_string_lossy().escape_debug()
            )),
        }
    }
}

#[cfg(test)]
mod tests {
    use super::*;

    fn action(words: &str) -> Result<&'static str, String> {
        let words = Words::of(words.split_whitespace().map(OsString::from));
        words.and_then(|words| words.action()).map_err(|stop| stop.to_string())
    }

    #[test]
    fn flags_go_with_their_action() {
        assert_eq!(action("file --listen=[::1]:1 --listen 127.0.0.1:1"), Ok(SERVE));
        assert_eq!(action("--delegate file --days 3 --out other"), Ok("--delegate"));
        assert_eq!(action("--make-key file -h"), Ok("--help"));
        let wrong = |words| action(words).unwrap_err();
        assert_eq!(wrong("--days 3"), "--days goes with --delegate");
        assert_eq!(wrong("--show a --show b"), "--show stands there twice");
        assert!(wrong("--show a --make-key b").contains("at once"));
        assert!(wrong("--shew a").starts_with("there is no flag --shew"));
        assert!(wrong("--out").starts_with("--out takes a value"));
        assert!(wrong("--force=1 --delegate a").contains("takes nothing"));
    }

    #[test]
    fn numbers_have_bounds() {
        let words = Words::of(["--days", "400"].map(OsString::from).into_iter()).unwrap();
        assert_eq!(words.number("--days", 1, 400).unwrap(), Some(400));
        assert!(words.number("--days", 1, 399).is_err());
        assert_eq!(words.number("--from", 0, 1).unwrap(), None);
    }
}
