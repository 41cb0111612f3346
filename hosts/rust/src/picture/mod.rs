//! A picture of a pile, for people: a line a record with its window on a time axis, who was asked,
//! what was refused and why, which records are linked, and the run that convicts.
//!
//! Whatever it shows the library said: [`judge_signed`](crate::judge_signed) or
//! [`judge`](crate::judge) of each record, [`linked`](crate::linked), and the cutter of the run.
//! Only the drawing is ours. Any bytes at all may be given; what is no pile is refused as the
//! library refuses it.
//!
//! ```
//! # let pile = independent::appendix::pile().pile;
//! use trawlbeacon::picture::Picture;
//!
//! // The report of draft 19, appendix B.
//! let picture = Picture::of_pile(&pile)?;
//! assert!(picture.text().contains("2026-03-16 18:26:08"));
//! assert!(picture.svg().starts_with("<svg "));
//! # Ok::<(), trawlbeacon::Refusal>(())
//! ```

mod axis;
mod canvas;
mod dates;
mod steps;
mod style;
mod svg;
mod text;
mod words;

pub use dates::Date;

use crate::{Checked, Cut, PacketRefusal, Refusal, Run, Window, MOST_RECORDS, RECORD_LENGTH};

/// What is drawn of a pile.
#[derive(Clone, Debug, PartialEq, Eq)]
pub struct Picture {
    records: Vec<Shown>,
    /// The long-term keys, each once, in the order in which they come first.
    servers: Vec<[u8; 32]>,
    /// What each server is called, where somebody has looked; of one that he does not know nothing.
    names: Option<Vec<Option<String>>>,
    /// The run that convicts. No shorter one does, so that its two ends contradict each other.
    run: Option<Run>,
    judged: Judged,
}

/// By what the signatures were judged.
#[derive(Clone, Copy, Debug, PartialEq, Eq)]
enum Judged {
    Signatures,
    Answers,
}

/// What is drawn of a record.
#[derive(Clone, Debug, PartialEq, Eq)]
struct Shown {
    /// Which of the servers its key is.
    server: usize,
    told: Result<Window, PacketRefusal>,
    linked: bool,
}

impl Picture {
    /// The picture of a pile, with each record judged by its own signatures. The only refusal is 15,
    /// where it is not 1 to 16 whole records.
    pub fn of_pile(pile: &[u8]) -> Result<Picture, Refusal> {
        let judge = |place| crate::judge_signed(pile, place);
        Picture::of(pile, Judged::Signatures, judge, crate::cut_signed(pile))
    }

    /// The picture of a pile, with answers about its signatures. The only refusal is 15.
    pub fn with_answers(pile: &[u8], answers: &[u8]) -> Result<Picture, Refusal> {
        let judge = |place| crate::judge(pile, answers, place);
        Picture::of(pile, Judged::Answers, judge, crate::cut(pile, answers))
    }

    /// The picture of a report in the public form, the JSON of draft 19, section 8.4.1, with each
    /// record judged by its own signatures. The refusals are 24 and 25.
    pub fn of_text(text: &[u8]) -> Result<Picture, Refusal> {
        let mut pile = vec![0; MOST_RECORDS * RECORD_LENGTH];
        let records = crate::read_report(text, &mut pile)?;
        Picture::of_pile(&pile[..records * RECORD_LENGTH])
    }

    fn of(
        pile: &[u8],
        judged: Judged,
        judge: impl Fn(usize) -> Result<Checked, PacketRefusal>,
        cut: Result<Cut, Refusal>,
    ) -> Result<Picture, Refusal> {
        let run = match cut {
            Ok(cut) => Some(cut.run),
            Err(Refusal::NoContradiction) => None,
            Err(refusal) => return Err(refusal),
        };
        let mut picture = Picture { records: vec![], servers: vec![], names: None, run, judged };
        for (place, record) in pile.chunks_exact(RECORD_LENGTH).enumerate() {
            let server = picture.server_of(record);
            let told = judge(place).map(|checked| checked.window);
            picture.records.push(Shown { server, told, linked: crate::linked(pile, place) });
        }
        Ok(picture)
    }

    /// Names the servers by their long-term keys, as whoever trusts some list does. A server without
    /// a name is then said to be in no list: anybody can sign with keys of his own.
    ///
    /// ```
    /// # let pile = independent::appendix::pile().pile;
    /// use trawlbeacon::picture::Picture;
    ///
    /// let mut picture = Picture::of_pile(&pile)?;
    /// let first = pile[..32].to_vec();
    /// picture.name_servers(|key| (key[..] == first[..]).then(|| "alder".to_string()));
    /// assert!(picture.text().contains("Record 0 (alder) says that it was "));
    /// assert!(picture.text().contains(" in no list\n"));
    /// # Ok::<(), trawlbeacon::Refusal>(())
    /// ```
    pub fn name_servers(&mut self, mut name: impl FnMut(&[u8; 32]) -> Option<String>) {
        let plain = |letter: char| if letter.is_control() { '?' } else { letter };
        let plain = |name: String| name.chars().map(plain).collect();
        self.names = Some(self.servers.iter().map(|key| name(key).map(plain)).collect());
    }

    /// Which server a record names, among those so far.
    fn server_of(&mut self, record: &[u8]) -> usize {
        let known = self.servers.iter().position(|key| record.starts_with(key));
        known.unwrap_or_else(|| {
            let mut key = [0; 32];
            key.copy_from_slice(&record[..32]);
            self.servers.push(key);
            self.servers.len() - 1
        })
    }

    /// The windows of the valid records.
    fn windows(&self) -> Vec<Window> {
        self.records.iter().filter_map(|shown| shown.told.ok()).collect()
    }

    /// The windows of the two records that contradict each other, the earlier one first.
    fn pair(&self) -> Option<(Window, Window)> {
        let run = self.run?;
        Some((self.records[run.first].told.ok()?, self.records[run.last].told.ok()?))
    }

    /// Whether a record is one of the run.
    fn in_run(&self, place: usize) -> bool {
        self.run.map_or(false, |run| (run.first..=run.last).contains(&place))
    }

    /// Whether a run of its records convicts.
    #[must_use]
    pub const fn convicts(&self) -> bool {
        self.run.is_some()
    }

    /// The run that convicts, if there is one.
    #[must_use]
    pub const fn run(&self) -> Option<Run> {
        self.run
    }

    /// The picture as SVG, for any browser: by itself a whole file, with nothing that is fetched or
    /// run, and in the colours that the reader's system prefers, light or dark.
    #[must_use]
    pub fn svg(&self) -> String {
        svg::draw(self)
    }

    /// The picture as plain text, for a terminal of 80 columns.
    #[must_use]
    pub fn text(&self) -> String {
        text::draw(self)
    }
}
