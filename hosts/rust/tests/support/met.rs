//! What a comparison of readers of texts met: how often each code was given, each cause of a refusal
//! met, and each number of records read.

use super::tally::Tally;
use super::Xorshift;
use std::collections::BTreeMap;
use std::fmt::Debug;

pub struct Met<Cause> {
    pub tally: Tally,
    pub random: Xorshift,
    pub group: &'static str,
    pub texts: usize,
    pub bytes: usize,
    causes: BTreeMap<Cause, usize>,
    /// How many records the texts had that were read.
    records: BTreeMap<usize, usize>,
}

impl<Cause: Copy + Debug + Ord> Met<Cause> {
    /// Nothing yet; the table has these columns.
    pub fn new(columns: &[&str], seed: u64) -> Self {
        Met {
            tally: Tally::new(columns),
            random: Xorshift::new(seed),
            group: "",
            texts: 0,
            bytes: 0,
            causes: BTreeMap::new(),
            records: BTreeMap::new(),
        }
    }

    /// A text was refused.
    pub fn refused(&mut self, cause: Cause) {
        *self.causes.entry(cause).or_insert(0) += 1;
    }

    /// A text was read that has so many records.
    pub fn read(&mut self, records: usize) {
        *self.records.entry(records).or_insert(0) += 1;
    }

    /// Prints all of it.
    pub fn tell(&self) {
        println!(
            "{} texts in all, {} bytes, ours compared with independent; how often each code was \
             given:",
            self.texts, self.bytes
        );
        println!("{}", self.tally.table("code"));
        println!("records of those that were read, and how many there were: {:?}", self.records);
        println!("how often each cause of a refusal was met:");
        for (cause, count) in &self.causes {
            println!("{count:>8} {cause:?}");
        }
    }

    /// Sees that each of these causes, and of these numbers of records, was met so often: of one
    /// that is met seldom a comparison says little.
    pub fn often(&self, least: usize, causes: &[Cause], records: impl IntoIterator<Item = usize>) {
        assert!(self.texts >= 100_000, "there were {} texts", self.texts);
        for cause in causes {
            let count = self.causes.get(cause).copied().unwrap_or(0);
            assert!(count >= least, "{cause:?} was met {count} times, and {least} are needed");
        }
        for count in records {
            let often = self.records.get(&count) >= Some(&least);
            assert!(often, "{count} records were read too seldom");
        }
    }
}
