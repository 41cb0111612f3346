//! The verdict on a pile or a report, in the lines of the proved program or as JSON.

use crate::evidence::Evidence;
use crate::flags::Flags;
use crate::keys::base64;
use crate::lists::Place;
use crate::output;
use crate::status::{Ended, Stop};
use trawlbeacon::picture::Date;
use trawlbeacon::{Checked, PacketRefusal, Refusal, Run, Window, RECORD_LENGTH};

/// From this number on not every reader of JSON tells neighbours apart (RFC 8259, section 6).
const INEXACT: u64 = 1 << 53;

/// What is said of each record, and the run that convicts.
struct Verdict {
    records: Vec<Told>,
    run: Option<Run>,
}

struct Told {
    key: String,
    linked: bool,
    said: Result<Checked, PacketRefusal>,
    /// Where a list has its key, if somebody gave one.
    server: Option<Option<Place>>,
}

pub fn run(flags: &Flags) -> Result<Ended, Stop> {
    let evidence = Evidence::of(flags)?;
    let verdict = match &evidence {
        Ok(evidence) => Verdict::of(evidence).map_err(|refusal| (refusal, evidence.hints(refusal))),
        Err(refused) => Err(refused.clone()),
    };
    let said = match (&verdict, flags.json) {
        (Ok(verdict), false) => verdict.lines(flags.dates),
        (Ok(verdict), true) => verdict.json(flags.dates),
        (Err((refusal, _)), false) => format!("refused {}\n", refusal.code()),
        (Err((refusal, _)), true) => format!("{{{}}}\n", refused(&PacketRefusal::from(*refusal))),
    };
    output::print(said.as_bytes())?;
    let ended = match verdict {
        Ok(Verdict { run: None, .. }) => Ended::None,
        Ok(Verdict { run: Some(run), .. }) => {
            evidence.map_or(Ended::Refused, |evidence| evidence.convicts(run))
        }
        Err((refusal, hints)) => {
            output::say(&refusal.to_string());
            hints.iter().for_each(|hint| output::say(hint));
            Ended::Refused
        }
    };
    Ok(ended.told(flags.status))
}

impl Verdict {
    /// The only refusal is 15.
    fn of(evidence: &Evidence) -> Result<Verdict, Refusal> {
        let run = match evidence.cut() {
            Ok(cut) => Some(cut.run),
            Err(Refusal::NoContradiction) => None,
            Err(refusal) => return Err(refusal),
        };
        let told = |place: usize| Told {
            key: base64(&evidence.key(place)),
            linked: trawlbeacon::linked(&evidence.pile, place),
            said: evidence.judge(place),
            server: evidence.server(place),
        };
        let records = (0..evidence.pile.len() / RECORD_LENGTH).map(told).collect();
        Ok(Verdict { records, run })
    }

    /// The lines of the proved program, each with dates and its server behind it where they are
    /// wanted.
    fn lines(&self, dates: bool) -> String {
        let mut lines = vec![format!("records {}", self.records.len())];
        for (place, told) in self.records.iter().enumerate() {
            let said = match &told.said {
                Ok(checked) => format!("ok {}", seconds(&checked.window, dates)),
                Err(PacketRefusal { refusal, at: None }) => format!("refused {}", refusal.code()),
                Err(PacketRefusal { refusal, at: Some(at) }) => {
                    format!("refused {} {at}", refusal.code())
                }
            };
            let server = match told.server {
                None => String::new(),
                Some(None) => " unlisted".to_string(),
                Some(Some(server)) => format!(" {}", server.words()),
            };
            lines.push(format!("{place} {said}{server}"));
        }
        lines.push(match self.run {
            Some(run) => format!("run {} {}", run.first, run.last),
            None => "run none".to_string(),
        });
        lines.into_iter().map(|line| line + "\n").collect()
    }

    fn json(&self, dates: bool) -> String {
        let records: Vec<String> = self.records.iter().map(|told| told.json(dates)).collect();
        let run = match self.run {
            Some(run) => format!(r#"{{"first":{},"last":{}}}"#, run.first, run.last),
            None => "null".to_string(),
        };
        format!("{{\"records\":[{}],\"run\":{run}}}\n", records.join(","))
    }
}

impl Told {
    /// Its object.
    fn json(&self, dates: bool) -> String {
        let server = match self.server {
            None => String::new(),
            Some(None) => r#""server":null,"#.to_string(),
            Some(Some(Place { list, place })) => {
                format!(r#""server":{{"list":"{list}","place":{place}}},"#)
            }
        };
        let said = match &self.said {
            Ok(checked) => valid(checked, dates),
            Err(why) => refused(why),
        };
        format!(r#"{{"publicKey":"{}",{server}"linked":{},{said}}}"#, self.key, self.linked)
    }
}

/// The ends of a window, and those of its key's time.
fn ends(window: &Window) -> [(&'static str, u64); 4] {
    let Window { low, high, mint, maxt, .. } = *window;
    [("low", low), ("high", high), ("mint", mint), ("maxt", maxt)]
}

fn seconds(window: &Window, dates: bool) -> String {
    let mut words: Vec<String> = ends(window).iter().map(|(_, end)| end.to_string()).collect();
    if dates {
        let date = |end: &(&str, u64)| date(end.1).unwrap_or_else(|| "-".to_string());
        words.extend(ends(window).iter().map(date));
    }
    words.join(" ")
}

/// A date in one word, by RFC 3339, which has none past the year 9999.
fn date(seconds: u64) -> Option<String> {
    let date = Date::of(seconds);
    (date.year <= 9999).then(|| format!("{}T{}Z", date.day(), date.time()))
}

/// The members of a valid record.
fn valid(checked: &Checked, dates: bool) -> String {
    let Window { midp, radi, .. } = checked.window;
    let numbers = [("midp", midp), ("radi", radi.into())].into_iter().chain(ends(&checked.window));
    let mut members: Vec<String> =
        numbers.map(|(name, value)| format!(r#""{name}":{}"#, number(value))).collect();
    members.push(format!(r#""pubk":"{}""#, base64(&checked.pubk)));
    if dates {
        let quoted = |end: u64| date(end).map_or("null".into(), |date| format!("\"{date}\""));
        let named = |(name, end): &(&str, u64)| format!(r#""{name}":{}"#, quoted(*end));
        let dates: Vec<String> = ends(&checked.window).iter().map(named).collect();
        members.push(format!(r#""dates":{{{}}}"#, dates.join(",")));
    }
    members.join(",")
}

/// A number that every reader of JSON has exactly: a string, where it is too large to be one.
pub fn number(value: u64) -> String {
    if value < INEXACT {
        value.to_string()
    } else {
        format!("\"{value}\"")
    }
}

/// The member of what is refused. No words of a refusal hold what JSON escapes.
fn refused(why: &PacketRefusal) -> String {
    let at = why.at.map_or(String::new(), |at| format!(r#","at":{at}"#));
    format!(r#""refused":{{"code":{},"words":"{}"{at}}}"#, why.code(), why.refusal)
}
