//! Tables of what was measured: as they are printed, and as they stand on the page.

use crate::measured::Measured;
use crate::sides::Side;

/// A table, with the name that its place on the page has.
pub struct Table {
    pub name: &'static str,
    /// What is printed above it. The page has words of its own.
    pub title: String,
    pub head: Vec<String>,
    pub rows: Vec<Vec<String>>,
}

impl Table {
    pub fn new(name: &'static str, title: impl Into<String>, head: &[&str]) -> Self {
        let head = head.iter().map(|cell| cell.to_string()).collect();
        Table { name, title: title.into(), head, rows: Vec::new() }
    }

    /// Adds a line.
    pub fn row(&mut self, cells: Vec<String>) {
        assert_eq!(cells.len(), self.head.len(), "a line of {} has other columns", self.name);
        self.rows.push(cells);
    }

    /// With the columns below each other, numbers to the right.
    pub fn text(&self) -> String {
        let lines = || std::iter::once(&self.head).chain(&self.rows);
        let width = |column: usize| lines().map(|line| line[column].chars().count()).max();
        let widths: Vec<usize> = (0..self.head.len()).filter_map(width).collect();
        let cell = |(place, (text, width)): (usize, (&String, &usize))| match place {
            0 => format!("{text:<width$}"),
            _ => format!("  {text:>width$}"),
        };
        let line = |cells: &Vec<String>| -> String {
            cells.iter().zip(&widths).enumerate().map(cell).collect::<String>() + "\n"
        };
        self.title.clone() + "\n" + &lines().map(line).collect::<String>()
    }

    /// In Markdown.
    pub fn markdown(&self) -> String {
        let line = |cells: &[String]| format!("| {} |\n", cells.join(" | "));
        let rule = format!("|{}\n", "---|".repeat(self.head.len()));
        line(&self.head) + &rule + &self.rows.iter().map(|row| line(row)).collect::<String>()
    }
}

/// The columns of a table of times: a measure for each side, then the ratio of our time by each
/// other side's.
pub struct Columns {
    pub unit: &'static str,
    pub sides: &'static [Side],
    /// How many digits a measure has behind its point.
    pub digits: usize,
    /// A measure, from the length of a subject and the seconds of one call.
    pub show: fn(usize, f64) -> f64,
}

/// Times in microseconds, by the independent implementation.
pub const MICROSECONDS: Columns = Columns {
    unit: "µs",
    sides: &[Side::Ours, Side::Independent],
    digits: 1,
    show: |_, seconds| seconds * 1e6,
};

impl Columns {
    /// The names of the columns, of which the first is that of the subjects.
    pub fn head(&self, first: &str) -> Vec<String> {
        let measures = self.sides.iter().map(|side| format!("{} {}", side.name(), self.unit));
        let ratios = self.sides[1..].iter().map(|side| format!("by {}", side.name()));
        std::iter::once(first.to_string()).chain(measures).chain(ratios).collect()
    }

    pub fn row(&self, measured: &Measured) -> Vec<String> {
        let show = |time: f64| number((self.show)(measured.length, time), self.digits);
        let measures = self.sides.iter().map(|side| or_none(measured.time(*side).map(show)));
        let ratios = self.sides[1..].iter().map(|side| measured.ratio_text(*side));
        std::iter::once(measured.name.clone()).chain(measures).chain(ratios).collect()
    }
}

/// What stands where nothing was measured.
pub fn or_none(text: Option<String>) -> String {
    text.unwrap_or_else(|| "-".into())
}

/// Microseconds, with more digits where there are few.
pub fn microseconds(seconds: f64) -> String {
    let time = seconds * 1e6;
    number(time, if time < 10.0 { 2 } else { 1 })
}

/// A number with commas between its thousands.
pub fn number(number: f64, digits: usize) -> String {
    let text = format!("{number:.digits$}");
    let (whole, rest) = text.split_at(text.find('.').unwrap_or(text.len()));
    grouped(whole) + rest
}

/// The same of a whole number.
pub fn count(count: usize) -> String {
    grouped(&count.to_string())
}

fn grouped(digits: &str) -> String {
    let length = digits.len();
    let comma = |at: usize| at > 0 && (length - at) % 3 == 0;
    let put = |(at, digit)| if comma(at) { format!(",{digit}") } else { format!("{digit}") };
    digits.chars().enumerate().map(put).collect()
}

/// A paragraph in lines of at most 100 characters.
pub fn wrapped(text: &str) -> String {
    let mut lines = vec![String::new()];
    for word in text.split_whitespace() {
        let last = lines.last_mut().expect("there is one");
        if !last.is_empty() && last.chars().count() + 1 + word.chars().count() > 100 {
            lines.push(word.to_string());
        } else {
            let space = if last.is_empty() { "" } else { " " };
            *last += &format!("{space}{word}");
        }
    }
    lines.join("\n") + "\n"
}
