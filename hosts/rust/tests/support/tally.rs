//! What a comparison found: how often each code was met, and where the two sides differ.

use super::answers::{Answer, Both};
use std::collections::BTreeMap;

/// As many differences are shown as a reader can use.
const SHOWN: usize = 10;

#[derive(Default)]
pub struct Tally {
    /// The columns of the table, each with its count by row.
    columns: Vec<(String, BTreeMap<u32, usize>)>,
    differing: usize,
    shown: Vec<String>,
}

impl Tally {
    /// A table with these columns.
    pub fn new(columns: &[&str]) -> Self {
        let columns = columns.iter().map(|name| (name.to_string(), BTreeMap::new())).collect();
        Tally { columns, ..Tally::default() }
    }

    pub fn count(&mut self, column: &str, row: u32) {
        let rows =
            self.columns.iter_mut().find(|named| named.0 == column).map(|named| &mut named.1);
        *rows.unwrap_or_else(|| panic!("there is no column {column}")).entry(row).or_insert(0) += 1;
    }

    /// Counts an answer, and keeps it where the sides differ from each other or from the code that
    /// is due.
    pub fn answer<T: Answer>(
        &mut self,
        column: &str,
        both: &Both<T>,
        due: Option<u32>,
        input: impl Fn() -> String,
    ) {
        self.count(column, both.independent.code());
        let agree = both.ours == both.independent;
        if agree && due.map_or(true, |code| code == both.independent.code()) {
            return;
        }
        let due = due.map_or(String::new(), |code| format!("\n  code due    {code}"));
        let (ours, independent) = (both.ours.show(), both.independent.show());
        self.differs(format!(
            "{column}: {}\n  ours        {ours}\n  independent {independent}{due}",
            input()
        ));
    }

    /// How many were counted, in all columns.
    pub fn answers(&self) -> usize {
        self.columns.iter().flat_map(|named| named.1.values()).sum()
    }

    pub fn differs(&mut self, how: String) {
        self.differing += 1;
        if self.shown.len() < SHOWN {
            self.shown.push(how);
        }
    }

    /// The table, with a line for each row that was met.
    pub fn table(&self, corner: &str) -> String {
        let rows: std::collections::BTreeSet<u32> =
            self.columns.iter().flat_map(|named| named.1.keys().copied()).collect();
        let line = |first: String, rest: Vec<String>| {
            let cells: String = rest
                .iter()
                .zip(&self.columns)
                .map(|(cell, named)| format!("  {cell:>0$}", named.0.len().max(7)))
                .collect();
            format!("{first:<6}{cells}\n")
        };
        let mut table =
            line(corner.to_string(), self.columns.iter().map(|named| named.0.clone()).collect());
        for row in rows {
            let counts =
                self.columns.iter().map(|named| named.1.get(&row).unwrap_or(&0).to_string());
            table += &line(row.to_string(), counts.collect());
        }
        table
    }

    /// Stops the test where one of `rows` was met fewer than `least` times in a column.
    pub fn at_least(&self, least: usize, column: &str, rows: impl IntoIterator<Item = u32>) {
        let named =
            self.columns.iter().find(|named| named.0 == column).expect("the column is there");
        for row in rows {
            let count = *named.1.get(&row).unwrap_or(&0);
            assert!(
                count >= least,
                "{column}: {row} was met {count} times, and {least} are needed"
            );
        }
    }

    /// Stops the test where anything differed.
    pub fn no_difference(&self) {
        assert!(
            self.differing == 0,
            "{} answers differ, the first of them:\n{}",
            self.differing,
            self.shown.join("\n")
        );
    }
}
