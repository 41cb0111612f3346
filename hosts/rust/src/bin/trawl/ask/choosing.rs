//! Who is asked: servers of the list, at random and in a random order (draft 19, section 8.2).

use super::listed::Listed;
use super::random;
use super::told::plural;
use super::wanted::{Count, Wanted};
use crate::keys::hex;
use crate::names::{self, plain};
use crate::status::Stop;
use std::path::Path;
use trawlbeacon::{ListedServer, FEWEST_SERVERS, MOST_SERVERS};

/// So many letters of a name are told. A list may have longer ones, and not without end.
const LONGEST_NAME: usize = 60;

pub struct Chosen {
    pub servers: Vec<ListedServer>,
    /// Whether the list has others.
    pub others: bool,
    /// Where reports may be sent.
    pub reports: Option<String>,
    /// What is to be said of the choice.
    pub notes: Vec<String>,
}

/// The servers of a list that are asked.
pub fn choose(file: &Path, wanted: &Wanted) -> Result<Chosen, Stop> {
    let mut list = Listed::read(file)?;
    let all = list.servers();
    let there = all.len();
    let mut servers = drawn(&mut list, all, wanted.servers)?;
    if servers.is_empty() {
        return Err(nobody(file, list.passed_over));
    }
    name(&mut servers);
    let notes = count(servers.len(), there, wanted).into_iter().chain(too_few(servers.len()));
    let others = there > servers.len();
    Ok(Chosen { notes: notes.collect(), others, reports: list.reports(), servers })
}

/// So many of the servers, at random and in a random order. One without an address does not count.
fn drawn(list: &mut Listed, all: Vec<Vec<usize>>, count: usize) -> Result<Vec<ListedServer>, Stop> {
    let (there, mut servers) = (all.len(), Vec::new());
    for places in random::some(all, there)? {
        if servers.len() < count {
            servers.extend(list.server(&places)?);
        }
    }
    Ok(servers)
}

fn nobody(file: &Path, passed_over: usize) -> Stop {
    let file = names::file(file);
    Stop::NoTime(match passed_over {
        0 => format!("no server of {file} has an address; a list with addresses is needed"),
        _ => format!(
            "no server of {file} can be asked, and {} passed over; trawl --list says why",
            plural(passed_over, "is", "are")
        ),
    })
}

/// What is said where another number is asked than was wanted.
fn count(asked: usize, there: usize, wanted: &Wanted) -> Option<String> {
    match wanted.count {
        Count::All if asked == MOST_SERVERS && there > asked => Some(format!(
            "{MOST_SERVERS} of {there} servers are asked, by chance: a clock has no more; ask \
             again for others"
        )),
        Count::Of if asked < wanted.servers => Some(format!(
            "{asked} servers are asked, and not {}: the list has no more that can be",
            wanted.servers
        )),
        _ => None,
    }
}

/// What is said where there are too few for a walk.
fn too_few(there: usize) -> Option<String> {
    (there < FEWEST_SERVERS).then(|| {
        format!(
            "the list has {} to ask: none may lie, and nothing can be shown of one that does; \
             a list of {FEWEST_SERVERS} or more is needed for that",
            plural(there, "server", "servers")
        )
    })
}

/// Gives each a name of its own that steers no terminal: where it has none, or another has the
/// same, the start of its key is in it.
fn name(servers: &mut [ListedServer]) {
    let names: Vec<String> = servers.iter().map(|server| short(server.name.trim())).collect();
    for (server, name) in servers.iter_mut().zip(&names) {
        let alone = names.iter().filter(|other| *other == name).count() == 1;
        let key = format!("key {}", &hex(&server.key)[..8]);
        server.name = match (name.is_empty(), alone) {
            (true, _) => key,
            (false, true) => name.clone(),
            (false, false) => format!("{name} ({key})"),
        };
    }
}

/// A name as it is told.
fn short(name: &str) -> String {
    let front: String = name.chars().take(LONGEST_NAME).collect();
    format!("{}{}", plain(&front), if front.len() < name.len() { ".." } else { "" })
}
