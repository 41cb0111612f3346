//! What the command can be asked for, and what goes with each. Which flags these are the lines of
//! usage say.

use crate::help;
use crate::status::Stop;

#[derive(Clone, Copy, Debug, PartialEq, Eq)]
pub enum Action {
    Plain,
    Judge,
    Cut,
    Draw,
    Make,
    LookUp,
    List,
    Ask,
    Help,
    Version,
}

/// The actions, by the words that ask for them.
const ACTIONS: [(&str, Action); 10] = [
    ("files alone", Action::Plain),
    ("--judge", Action::Judge),
    ("--cut", Action::Cut),
    ("--draw", Action::Draw),
    ("--make", Action::Make),
    ("--look-up", Action::LookUp),
    ("--list", Action::List),
    ("--ask", Action::Ask),
    ("--help", Action::Help),
    ("--version", Action::Version),
];

impl Action {
    pub fn of(flag: &str) -> Option<Action> {
        let flag = if flag == "-h" { "--help" } else { flag };
        ACTIONS.into_iter().find(|(name, _)| *name == flag).map(|(_, action)| action)
    }

    pub fn name(self) -> &'static str {
        ACTIONS.into_iter().find(|(_, action)| *action == self).map_or("", |(name, _)| name)
    }

    /// Its line of usage.
    fn line(self) -> &'static str {
        let own = if self == Action::Plain { "[PILE" } else { self.name() };
        let called = |line: &&str| line.split_whitespace().any(|word| word == own);
        help::usage().lines().find(called).unwrap_or_default()
    }

    /// Whether a flag goes with it.
    pub fn takes(self, flag: &str) -> bool {
        let mut words = self.line().split_whitespace().map(bare);
        flag != self.name() && words.any(|word| word == flag)
    }

    /// Whether so many words beside the flags are right.
    pub fn counts(self, words: usize) -> bool {
        match self {
            Action::Plain => words <= 2,
            Action::Judge | Action::Cut | Action::Draw => words == 1 || words == 2,
            Action::Make => words > 0 && words % 4 == 0,
            Action::LookUp => words == 2 || words == 3,
            Action::List | Action::Ask => words == 1,
            Action::Help | Action::Version => true,
        }
    }

    /// Which words these are.
    pub fn wants(self) -> &'static str {
        match self {
            Action::Plain => "a pile and its answers at the most",
            Action::Judge | Action::Cut | Action::Draw => "a file, and its answers if need be",
            Action::Make => "a key, a rand, a request and a response for each record",
            Action::LookUp => "a key, and one list or two",
            Action::List | Action::Ask => "a list of servers",
            Action::Help | Action::Version => "anything",
        }
    }

    /// The arguments are wrong for it.
    pub fn wrong(self, words: String) -> Stop {
        let usage = self.line().trim_start_matches("usage:").trim_start();
        Stop::Usage(format!("{words}\nusage: {usage}"))
    }
}

/// A word of usage without its brackets.
fn bare(word: &str) -> &str {
    word.trim_matches(|letter| letter == '[' || letter == ']')
}

/// Whether a flag is followed by a word: in usage a name follows it within its brackets.
pub fn takes_a_word(flag: &str) -> bool {
    let mut words = help::usage().split_whitespace();
    words.any(|word| word.len() == flag.len() + 1 && word.starts_with('[') && bare(word) == flag)
}

/// With what a flag goes, as words; none, where there is no such flag.
pub fn goes_with(flag: &str) -> Option<String> {
    let takes = |(_, action): &(&str, Action)| action.takes(flag);
    let names: Vec<&str> = ACTIONS.into_iter().filter(takes).map(|(name, _)| name).collect();
    let (last, others) = names.split_last()?;
    let others = others.join(", ");
    Some(if others.is_empty() { last.to_string() } else { format!("{others} and {last}") })
}
