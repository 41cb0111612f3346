//! The picture of a pile or a report.

use crate::evidence::Evidence;
use crate::flags::Flags;
use crate::lists::Place;
use crate::output;
use crate::status::{Ended, Stop};
use std::path::Path;
use trawlbeacon::picture::Picture;
use trawlbeacon::RECORD_LENGTH;

pub fn run(flags: &Flags) -> Result<Ended, Stop> {
    let evidence = Evidence::or_stop(flags)?;
    let picture = match &evidence.answers {
        Some(answers) => Picture::with_answers(&evidence.pile, answers),
        None => Picture::of_pile(&evidence.pile),
    };
    let mut picture = picture.map_err(|refusal| evidence.refused(refusal))?;
    if !flags.servers.is_empty() {
        picture.name_servers(|key| name(&evidence, key));
    }
    let svg = flags.svg || flags.out.as_deref().map_or(false, is_svg);
    let drawn = if svg { picture.svg() } else { picture.text() };
    output::deliver(flags, drawn.as_bytes())?;
    let ended = picture.run().map_or(Ended::None, |run| evidence.convicts(run));
    Ok(ended.told(flags.status))
}

/// The name of a server that stands in a list.
fn name(evidence: &Evidence, key: &[u8; 32]) -> Option<String> {
    let mut places = 0..evidence.pile.len() / RECORD_LENGTH;
    let record = places.find(|place| evidence.key(*place) == *key)?;
    evidence.server(record).flatten().map(Place::words)
}

/// Whether a file is called as pictures for a browser are.
fn is_svg(out: &Path) -> bool {
    out.extension().map_or(false, |kind| kind.eq_ignore_ascii_case("svg"))
}
