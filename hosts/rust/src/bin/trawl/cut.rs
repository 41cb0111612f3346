//! The run that convicts by itself, as a pile or as a report in JSON.

use crate::evidence::Evidence;
use crate::flags::Flags;
use crate::output;
use crate::status::{Ended, Stop};
use trawlbeacon::{Cut, ReportRefusal, LONGEST_REPORT};

pub fn run(flags: &Flags) -> Result<Ended, Stop> {
    let evidence = Evidence::or_stop(flags)?;
    let cut = evidence.cut().map_err(|refusal| evidence.refused(refusal))?;
    let bytes = if flags.json { text(&evidence, &cut)? } else { cut.bytes };
    output::deliver(flags, &bytes)?;
    output::say(&format!("run {} {}", cut.run.first, cut.run.last));
    Ok(evidence.convicts(cut.run))
}

/// The text of a run. What was cut is a report, so that nothing is refused.
fn text(evidence: &Evidence, cut: &Cut) -> Result<Vec<u8>, Stop> {
    let mut out = vec![0; LONGEST_REPORT];
    let written = match &evidence.answers {
        Some(answers) => {
            unverified(cut);
            let answers = &answers[2 * cut.run.first..2 * cut.run.last + 2];
            trawlbeacon::write_report(&cut.bytes, answers, &mut out)
        }
        None => trawlbeacon::write_signed_report(&cut.bytes, &mut out),
    };
    let refused = |why: ReportRefusal| Stop::from(why.refusal);
    out.truncate(written.map_err(refused)?);
    Ok(out)
}

/// A report in JSON has no place for answers: who reads it verifies its signatures. Where they do
/// not verify, it is said.
fn unverified(cut: &Cut) {
    if let Err(why) = trawlbeacon::check_signed_report(&cut.bytes) {
        output::say(&format!("by its own signatures this is no report: {why}"));
        output::say("the answers do not go with it, and who reads it will refuse it");
    }
}
