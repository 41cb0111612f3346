//! What time it is, by servers that are asked (draft 19): all at once, so that the time is there
//! after one round trip, and then in a walk, for the evidence. All that stands in a packet, every
//! verdict and the time itself is the library's; here stand sockets, threads, waiting and words.

mod asker;
mod backoff;
mod choosing;
mod dates;
mod json;
mod line;
mod listed;
mod measuring;
mod moment;
mod proof;
mod random;
mod told;
mod walking;
mod wanted;
mod watching;
mod ways;
mod worker;

use crate::flags::Flags;
use crate::output;
use crate::status::{Ended, Stop};
use asker::{Asker, Halt};
use choosing::Chosen;
use proof::Kept;
use std::path::{Path, PathBuf};
use wanted::Wanted;
use watching::Watch;

pub fn run(flags: &Flags) -> Result<Ended, Stop> {
    let wanted = Wanted::of(flags)?;
    let folder = flags.reports.clone().unwrap_or_default();
    if flags.reports.is_some() && !folder.is_dir() {
        return Err(Stop::file(&folder, "it is no folder, and --reports takes one"));
    }
    let Chosen { servers, others, reports, notes } =
        choosing::choose(Path::new(&flags.words[0]), &wanted)?;
    notes.iter().for_each(|note| output::say(note));
    // Before any thread is started, so that all of them leave signals alone.
    let watch = wanted.watch.map(Watch::new);
    let mut asker = Asker::new(servers)?;
    let mut session =
        Session { flags, wanted, folder, others, reports, kept: Kept::default(), count: 0 };
    let Some(watch) = watch else {
        return match session.measure(&mut asker) {
            Ok(ended) => Ok(ended),
            Err(Halt::Failed(stop)) => Err(stop),
            Err(Halt::Ended) => Ok(Ended::NoTime),
        };
    };
    watch.over_and_over(&mut asker, |asker| session.measure(asker))
}

/// What lasts from one measurement to the next, beside who asks.
struct Session<'a> {
    flags: &'a Flags,
    wanted: Wanted,
    /// Where reports go.
    folder: PathBuf,
    /// Where they may be sent.
    reports: Option<String>,
    /// Whether the list has more servers than are asked.
    others: bool,
    kept: Kept,
    /// How many measurements were printed.
    count: usize,
}

impl Session<'_> {
    /// Measures once, and prints what it came to. What could not be written is told last, so that
    /// nobody lacks the time for it.
    fn measure(&mut self, asker: &mut Asker) -> Result<Ended, Halt> {
        let (within, aloud) = (self.wanted.within, !self.flags.json && self.count == 0);
        let mut measured = measuring::measure(asker, within, aloud, self.reports.as_deref())?;
        let mut unwritten = None;
        for found in &mut measured.walked.contradictions {
            unwritten = self.kept.keep(&self.folder, found).err().or(unwritten);
        }
        measured.unwritten = unwritten.is_some();
        let said = match (self.flags.json, self.count) {
            (true, _) => measured.json(),
            (false, 0) => measured.lines(),
            (false, _) => format!("\n{}", measured.lines()),
        };
        output::print(said.as_bytes())?;
        self.count += 1;
        if let Some(remedy) = measured.remedy(self.others) {
            output::say(&format!("no time: {remedy}"));
        }
        if let Some(stop) = unwritten {
            output::say(&format!(
                "the report is not written: {stop}; --reports names another folder"
            ));
        }
        Ok(measured.ended())
    }
}
