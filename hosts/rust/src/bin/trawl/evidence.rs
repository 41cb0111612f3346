//! What a file holds: a pile, or a report in JSON.

use crate::flags::Flags;
use crate::hints::{self, Held};
use crate::lists::{Lists, Place};
use crate::output;
use crate::status::{Ended, Stop};
use std::fs::File;
use std::io::{self, Read};
use std::path::{Path, PathBuf};
use trawlbeacon::{Checked, Cut, PacketRefusal, Refusal, Run, MOST_RECORDS, RECORD_LENGTH};

/// The longest file that is read. A report may be longer than those that we write, but not without
/// end.
const LONGEST: u64 = 64 << 20;

/// The records of a file, and answers about their signatures where there are some.
pub struct Evidence {
    pub pile: Vec<u8>,
    pub answers: Option<Vec<u8>>,
    /// Whose keys are known, where somebody gave a list.
    lists: Option<Lists>,
    /// The files that they came from.
    files: Vec<PathBuf>,
}

impl Evidence {
    /// What the first file of the command holds, with the answers of the second. A report that is
    /// none is refused with 24 or 25, and then with what is wrong in it.
    pub fn of(flags: &Flags) -> Result<Result<Evidence, (Refusal, Vec<String>)>, Stop> {
        let files: Vec<PathBuf> = flags.words.iter().map(PathBuf::from).collect();
        let lists = match flags.servers[..] {
            [] => None,
            _ => Some(Lists::of(&flags.servers)?),
        };
        let bytes = read(&files[0])?;
        let answers = files.get(1).map(|file| read(file)).transpose()?;
        let pile = match is_text(&bytes) {
            true => records_of(&bytes).map_err(|refusal| {
                (refusal, hints::on_text((&files[0], &bytes)).into_iter().collect())
            }),
            false => Ok(bytes),
        };
        Ok(pile.map(|pile| Evidence { pile, answers, lists, files }))
    }

    /// The same, for a command that has nothing to write where it is refused.
    pub fn or_stop(flags: &Flags) -> Result<Evidence, Stop> {
        Evidence::of(flags)?.map_err(|(refusal, hints)| Stop::refused(refusal, &hints))
    }

    /// What is wrong with the files, where they are refused for it.
    pub fn hints(&self, refusal: Refusal) -> Vec<String> {
        if refusal != Refusal::Pile {
            return vec![];
        }
        let answers = self.answers.as_ref().map(|answers| -> Held { (&self.files[1], answers) });
        hints::on_pile_and_answers((&self.files[0], &self.pile), answers)
    }

    /// The end of a command that has nothing to write.
    pub fn refused(&self, refusal: Refusal) -> Stop {
        Stop::refused(refusal, &self.hints(refusal))
    }

    pub fn judge(&self, place: usize) -> Result<Checked, PacketRefusal> {
        match &self.answers {
            Some(answers) => trawlbeacon::judge(&self.pile, answers, place),
            None => trawlbeacon::judge_signed(&self.pile, place),
        }
    }

    pub fn cut(&self) -> Result<Cut, Refusal> {
        match &self.answers {
            Some(answers) => trawlbeacon::cut(&self.pile, answers),
            None => trawlbeacon::cut_signed(&self.pile),
        }
    }

    /// The long-term key in a record.
    pub fn key(&self, place: usize) -> [u8; 32] {
        let mut key = [0; 32];
        key.copy_from_slice(&self.pile[place * RECORD_LENGTH..][..32]);
        key
    }

    /// Where the lists have the key of a record; nothing, where there is no list.
    pub fn server(&self, place: usize) -> Option<Option<Place>> {
        self.lists.as_ref().map(|lists| lists.server(&self.key(place)))
    }

    /// How a command ends that found a run, by whose keys it convicts. What is not known is said.
    pub fn convicts(&self, run: Run) -> Ended {
        if self.lists.is_none() {
            output::say(&whose_keys("--servers LIST"));
            return Ended::Done;
        }
        let unlisted = |place: &usize| self.server(*place) == Some(None);
        let unlisted: Vec<usize> = (run.first..=run.last).filter(unlisted).collect();
        for place in &unlisted {
            output::say(&format!("the key of record {place} is in no list: anybody may have it"));
        }
        if unlisted.is_empty() {
            Ended::Done
        } else {
            Ended::Unlisted
        }
    }
}

/// What is said where a run convicts and no list was given, and with which words one is.
pub fn whose_keys(words: &str) -> String {
    format!("whose keys these are nobody has looked up; {words} does")
}

/// All bytes of a file, or of standard input.
pub fn read(file: &Path) -> Result<Vec<u8>, Stop> {
    read_up_to(file, LONGEST)
}

/// The same, where it has no more bytes than these, which are whole MiB.
pub fn read_up_to(file: &Path, longest: u64) -> Result<Vec<u8>, Stop> {
    let failed = |error: io::Error| Stop::file(file, error);
    let bytes = match file.as_os_str() == "-" {
        true => taken(io::stdin(), longest),
        false => taken(File::open(file).map_err(failed)?, longest),
    };
    let bytes = bytes.map_err(failed)?;
    if bytes.len() as u64 > longest {
        return Err(Stop::file(file, format!("it has more than {} MiB", longest >> 20)));
    }
    Ok(bytes)
}

/// No more than shows that it is too long.
fn taken(from: impl Read, longest: u64) -> io::Result<Vec<u8>> {
    let mut bytes = Vec::new();
    from.take(longest + 1).read_to_end(&mut bytes)?;
    Ok(bytes)
}

/// Whether bytes are a text, and so no pile: every record has bytes that must be zero, and JSON has
/// none.
pub fn is_text(bytes: &[u8]) -> bool {
    !bytes.is_empty() && !bytes.contains(&0)
}

fn records_of(text: &[u8]) -> Result<Vec<u8>, Refusal> {
    let mut pile = vec![0; MOST_RECORDS * RECORD_LENGTH];
    let records = trawlbeacon::read_report(text, &mut pile)?;
    pile.truncate(records * RECORD_LENGTH);
    Ok(pile)
}
