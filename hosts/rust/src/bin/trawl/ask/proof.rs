//! What shows that a server lied: two answers that contradict each other, and the report on them
//! (draft 19, section 8.4.1).

use super::asker::Asker;
use crate::status::Stop;
use crate::whole::{self, Existing};
use std::io::ErrorKind;
use std::path::{Path, PathBuf};
use trawlbeacon::{Refusal, ReportRefusal, Window, LONGEST_REPORT, RECORD_LENGTH};

/// So many reports may stand in a folder.
const MOST: usize = 9_999;

/// What a server signed.
pub struct Party {
    pub server: usize,
    pub window: Window,
}

pub struct Contradiction {
    /// By its answer it was later than the other one says it can have been.
    pub first: Party,
    /// It was asked after that.
    pub second: Party,
    /// The report, as JSON.
    pub text: Vec<u8>,
    /// Where it is kept, once it is.
    pub kept: Option<PathBuf>,
}

/// What the answers of a walk show, if they show anything.
pub fn of(pile: &[u8], asker: &Asker) -> Result<Option<Contradiction>, Stop> {
    let cut = match trawlbeacon::cut_signed(pile) {
        Ok(cut) => cut,
        // No two contradict each other, or there is none.
        Err(Refusal::NoContradiction | Refusal::Pile) => return Ok(None),
        Err(refusal) => return Err(refusal.into()),
    };
    let refused = |why: ReportRefusal| Stop::from(why.refusal);
    let pair = trawlbeacon::check_signed_report(&cut.bytes).map_err(refused)?;
    let party = |place: usize| -> Result<Party, Stop> {
        let judged = trawlbeacon::judge_signed(&cut.bytes, place);
        let window = judged.map_err(|why| Stop::from(why.refusal))?.window;
        let key = &cut.bytes[place * RECORD_LENGTH..][..32];
        let server = asker.servers.iter().position(|server| server.key == key).unwrap_or(0);
        Ok(Party { server, window })
    };
    let mut text = vec![0; LONGEST_REPORT];
    let length = trawlbeacon::write_signed_report(&cut.bytes, &mut text).map_err(refused)?;
    text.truncate(length);
    let (first, second) = (party(pair.first)?, party(pair.second)?);
    Ok(Some(Contradiction { first, second, text, kept: None }))
}

/// The reports that were written, by the servers that they are about.
#[derive(Default)]
pub struct Kept(Vec<(usize, usize, PathBuf)>);

impl Kept {
    /// Writes the report into a folder, and over no other: the names are numbered. About the same
    /// two servers one is enough, also where they are asked over and over.
    pub fn keep(&mut self, folder: &Path, found: &mut Contradiction) -> Result<(), Stop> {
        let (first, second) = (found.first.server, found.second.server);
        let same = |kept: &&(usize, usize, PathBuf)| (kept.0, kept.1) == (first, second);
        if let Some((_, _, file)) = self.0.iter().find(same) {
            found.kept = Some(file.clone());
            return Ok(());
        }
        let file = write(folder, &found.text)?;
        self.0.push((first, second, file.clone()));
        found.kept = Some(file);
        Ok(())
    }
}

fn write(folder: &Path, text: &[u8]) -> Result<PathBuf, Stop> {
    for number in 1..=MOST {
        let file = folder.join(format!("malfeasance-{number}.json"));
        match whole::write(&file, text, Existing::Kept) {
            Ok(()) => return Ok(file),
            Err(error) if error.kind() == ErrorKind::AlreadyExists => (),
            Err(error) => return Err(Stop::file(&file, error)),
        }
    }
    Err(Stop::file(folder, format!("it has {MOST} reports already")))
}
