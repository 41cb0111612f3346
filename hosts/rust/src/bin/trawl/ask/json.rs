//! What a measurement came to, as JSON for programs: one object, on one line.

use super::dates::exact;
use super::proof::{Contradiction, Party};
use super::told::{middle, Measured};
use super::walking::WalkEnded;
use crate::judge::number;
use crate::keys::base64;
use crate::names::steers;
use trawlbeacon::{Time, Window};

/// A string.
fn text(words: &str) -> String {
    let escaped = |letter: char| match letter {
        '"' => "\\\"".to_string(),
        '\\' => "\\\\".to_string(),
        _ if steers(letter) => {
            let mut units = [0; 2];
            letter.encode_utf16(&mut units).iter().map(|unit| format!("\\u{unit:04x}")).collect()
        }
        _ => letter.to_string(),
    };
    format!("\"{}\"", words.chars().map(escaped).collect::<String>())
}

fn or_null(value: Option<String>) -> String {
    value.unwrap_or_else(|| "null".to_string())
}

fn list(values: impl Iterator<Item = String>) -> String {
    format!("[{}]", values.collect::<Vec<String>>().join(","))
}

/// An object of members that are JSON already.
fn object(members: &[(&str, String)]) -> String {
    let members: Vec<String> =
        members.iter().map(|(name, value)| format!("\"{name}\":{value}")).collect();
    format!("{{{}}}", members.join(","))
}

impl Measured<'_> {
    pub fn json(&self) -> String {
        let (time, why) = match &self.time {
            Ok(time) => (Some(of_time(time)), None),
            Err(why) => (
                None,
                Some(object(&[("code", why.code().to_string()), ("words", text(why.words()))])),
            ),
        };
        let servers = (0..self.asker.servers.len()).map(|server| self.server(server));
        let liars = self.asker.liars();
        let exact = self.time.as_ref().map_or(false, |time| time.is_exact(liars));
        let counted = self.time.as_ref().map_or(0, |time| time.counted);
        let found = self.walked.contradictions.iter().map(|found| self.found(found));
        let members = [
            ("status", self.ended().status().to_string()),
            ("time", or_null(time)),
            ("refused", or_null(why)),
            ("mayLie", liars.to_string()),
            ("counted", counted.to_string()),
            ("exact", exact.to_string()),
            ("machine", number(self.machine)),
            ("thereAfter", or_null(self.there.map(|there| number(there.as_micros() as u64)))),
            ("took", number(self.took.as_micros() as u64)),
            ("servers", list(servers)),
            ("walk", self.walk_json()),
            ("contradictions", list(found)),
            ("reports", or_null(self.reports.map(text))),
        ];
        object(&members) + "\n"
    }

    fn server(&self, place: usize) -> String {
        let server = &self.asker.servers[place];
        let tally = server.tally.lock().clone();
        let bits = self.time.as_ref().map(|time| (time.agree, time.suspects));
        let state = match bits {
            Ok((agree, _)) if agree.contains(place) => "agrees",
            Ok((_, suspects)) if suspects.contains(place) => "suspect",
            _ => "uncounted",
        };
        let refusal = tally.refusal.map(|why| {
            object(&[("code", why.code().to_string()), ("words", text(&why.to_string()))])
        });
        object(&[
            ("name", text(&server.name)),
            ("publicKey", format!("\"{}\"", base64(&server.key))),
            ("state", format!("\"{state}\"")),
            ("answered", server.answered.to_string()),
            ("window", or_null(server.window.as_ref().map(window))),
            ("by", or_null(tally.way.map(|way| text(&way.words())))),
            ("sent", tally.sent.to_string()),
            ("refused", tally.refused.to_string()),
            ("refusal", or_null(refusal)),
            ("failure", or_null(tally.failure.map(|why| text(&why)))),
        ])
    }

    fn walk_json(&self) -> String {
        let walked = &self.walked;
        let ended = match walked.ended {
            WalkEnded::TooFew => "none",
            WalkEnded::OutOfTime => "unfinished",
            WalkEnded::Consistent => "consistent",
            WalkEnded::Malfeasance => "malfeasance",
        };
        let places = |servers: &[usize]| list(servers.iter().map(usize::to_string));
        object(&[
            ("outcome", format!("\"{ended}\"")),
            ("servers", places(&walked.servers)),
            ("answers", walked.answers.to_string()),
            ("leftOut", places(&walked.left_out)),
        ])
    }

    fn found(&self, found: &Contradiction) -> String {
        let party = |party: &Party| {
            object(&[("server", party.server.to_string()), ("window", window(&party.window))])
        };
        let kept = found.kept.as_ref().map(|file| text(&file.to_string_lossy()));
        object(&[
            ("first", party(&found.first)),
            ("second", party(&found.second)),
            ("report", or_null(kept)),
        ])
    }
}

/// The ends and the middle in microseconds since 1970, and as dates.
fn of_time(time: &Time) -> String {
    let ends = [("low", time.low), ("middle", middle(time).0), ("high", time.high)];
    let mut members: Vec<(&str, String)> =
        ends.iter().map(|(name, end)| (*name, number(*end))).collect();
    let dates: Vec<(&str, String)> = ends
        .iter()
        .map(|(name, end)| (*name, or_null(exact(*end).map(|date| text(&date)))))
        .collect();
    members.push(("stopped", time.stopped.to_string()));
    members.push(("dates", object(&dates)));
    object(&members)
}

fn window(window: &Window) -> String {
    let Window { midp, radi, low, high, mint, maxt } = *window;
    let ends = [("midp", midp), ("radi", radi.into()), ("low", low), ("high", high)];
    let ends = ends.into_iter().chain([("mint", mint), ("maxt", maxt)]);
    object(&ends.map(|(name, end)| (name, number(end))).collect::<Vec<_>>())
}

#[cfg(test)]
mod tests {
    use super::text;

    #[test]
    fn a_string_is_escaped() {
        assert_eq!(text("a\"b\\c\n"), "\"a\\\"b\\\\c\\u000a\"");
        assert_eq!(text("\u{202e}é時"), "\"\\u202eé時\"");
    }
}
