//! Why a text is no report: what is wrong with it, and for JSON at which byte.
//!
//! The library tells 24 or 25 for all of it, and no place. This looks once more, when it has told
//! one of them, and decides nothing. That it finds a cause wherever there is one, and the same as
//! the independent reader, tests/why.rs sees.

use crate::keys::{bytes_of, NoBase64};
use std::fmt;

/// The limits of draft 19, section 8.4.1, as the library reads it.
const MOST_DEPTH: usize = 16;
const MOST_ENTRIES: usize = 16;
const LONGEST_PACKET: usize = 2000;

/// What is wrong, and where in a text or in a report.
#[derive(Clone, Debug, PartialEq, Eq)]
pub enum Why {
    /// At this byte the text is not what JSON can have there.
    Json(usize, &'static str),
    /// It is JSON, and no report.
    Report(String),
}

impl fmt::Display for Why {
    fn fmt(&self, f: &mut fmt::Formatter) -> fmt::Result {
        match self {
            Why::Json(at, what) => write!(f, "no JSON at byte {at}: {what}"),
            Why::Report(what) => f.write_str(what),
        }
    }
}

/// Whether bytes look like a text in UTF-16, which JSON is not: by its mark, or by a zero in every
/// second of the first bytes.
pub fn is_utf16(bytes: &[u8]) -> bool {
    let half = |odd: usize| {
        let zeros = bytes.iter().skip(odd).step_by(2).take(8).all(|byte| *byte == 0);
        let letters = bytes.iter().skip(1 - odd).step_by(2).take(8).all(|byte| *byte != 0);
        bytes.len() >= 4 && zeros && letters
    };
    bytes.starts_with(&[0xff, 0xfe]) || bytes.starts_with(&[0xfe, 0xff]) || half(0) || half(1)
}

/// What is wrong with a text; nothing, where it is a report.
pub fn no_report(text: &[u8]) -> Option<Why> {
    report(text).err()
}

fn report(text: &[u8]) -> Result<(), Why> {
    let outermost = json(text)?;
    let Value::Object(members) = outermost else {
        return no("its outermost value is no object".to_string());
    };
    let Value::List(entries) = the_one(&members, "responses", "the report")? else {
        return no("\"responses\" is no list".to_string());
    };
    let lengths: Result<Vec<_>, Why> = entries.iter().enumerate().map(entry).collect();
    let lengths = lengths?;
    if !(1..=MOST_ENTRIES).contains(&lengths.len()) {
        return no(format!(
            "it has {} entries, and a report has 1 to {MOST_ENTRIES}",
            lengths.len()
        ));
    }
    for (place, packets) in lengths.into_iter().enumerate() {
        if let Some((name, length)) = packets.into_iter().find(|(_, l)| *l > LONGEST_PACKET) {
            let most = format!("and a packet has at most {LONGEST_PACKET}");
            return no(format!("\"{name}\" of entry {place} has {length} bytes, {most}"));
        }
    }
    Ok(())
}

pub fn no<T>(what: String) -> Result<T, Why> {
    Err(Why::Report(what))
}

/// The lengths of an entry's packets. What the first has for a rand is not looked at.
fn entry((place, value): (usize, &Value)) -> Result<[(&'static str, usize); 2], Why> {
    let Value::Object(members) = value else { return no(format!("entry {place} is no object")) };
    let whose = format!("entry {place}");
    for name in ["rand", "publicKey"].into_iter().skip(usize::from(place == 0)) {
        let length = decoded(members, name, &whose)?;
        if length != 32 {
            return no(format!("\"{name}\" of {whose} has {length} bytes, and should have 32"));
        }
    }
    let mut packets = [("request", 0), ("response", 0)];
    for (name, length) in &mut packets {
        *length = decoded(members, name, &whose)?;
    }
    Ok(packets)
}

/// How many bytes the base64 of a member stands for.
pub fn decoded(members: &[(Vec<u32>, Value)], name: &str, whose: &str) -> Result<usize, Why> {
    let Value::Text(letters) = the_one(members, name, whose)? else {
        return no(format!("\"{name}\" of {whose} is no string"));
    };
    let wrong = |what: String| Why::Report(format!("\"{name}\" of {whose} is no base64: {what}"));
    bytes_of(letters).map(|bytes| bytes.len()).map_err(|fault| {
        wrong(match fault {
            NoBase64::Groups => format!("{} letters are not whole groups of 4", letters.len()),
            NoBase64::Letter(at) => format!("its letter {at} is none that may stand there"),
            NoBase64::SpareBits => "bits of its last letter that no byte takes are not 0".into(),
        })
    })
}

/// The value of the member of this name, which must be there once.
pub fn the_one<'a>(
    members: &'a [(Vec<u32>, Value)],
    name: &str,
    whose: &str,
) -> Result<&'a Value, Why> {
    let named = |(letters, _): &&(Vec<u32>, Value)| letters.iter().copied().eq(units(name));
    let mut found = members.iter().filter(named);
    match (found.next(), found.next()) {
        (None, _) => no(format!("\"{name}\" of {whose} is missing")),
        (_, Some(_)) => no(format!("\"{name}\" of {whose} is there more than once")),
        (Some((_, value)), None) => Ok(value),
    }
}

fn units(text: &str) -> impl Iterator<Item = u32> + '_ {
    text.chars().map(u32::from)
}

/// A value of JSON, as far as a report or a list of servers asks.
#[derive(Debug)]
pub enum Value {
    Object(Vec<(Vec<u32>, Value)>),
    List(Vec<Value>),
    /// The letters of a string without its escapes; of a pair of surrogates both.
    Text(Vec<u32>),
    /// A number, as it is written.
    Number(String),
    Other,
}

pub fn json(text: &[u8]) -> Result<Value, Why> {
    if is_utf16(text) {
        return Err(Why::Json(0, "it is a text in UTF-16, and JSON is written in UTF-8"));
    }
    if text.starts_with(b"\xef\xbb\xbf") {
        return Err(Why::Json(0, "it begins with a byte order mark, which JSON does not have"));
    }
    let letters = std::str::from_utf8(text).map_err(|error| {
        Why::Json(error.valid_up_to(), "this is not UTF-8, in which JSON is written")
    })?;
    let mut reader = Reader { text: letters.as_bytes(), at: 0, depth: 0 };
    let value = reader.value()?;
    match reader.next_letter() {
        None => Ok(value),
        Some(_) => reader.wrong("something stands behind the value"),
    }
}

/// What goes over a text. A place is told where something is wrong: that of the letter that cannot
/// stand there, or the end of a text that ends too early.
struct Reader<'a> {
    text: &'a [u8],
    at: usize,
    depth: usize,
}

impl Reader<'_> {
    fn wrong<T>(&self, what: &'static str) -> Result<T, Why> {
        let end = "the text ends within its value";
        Err(Why::Json(self.at, if self.at < self.text.len() { what } else { end }))
    }

    fn here(&self) -> Option<u8> {
        self.text.get(self.at).copied()
    }

    /// The next letter that is no blank, which is not passed.
    fn next_letter(&mut self) -> Option<u8> {
        while let Some(b' ' | b'\t' | b'\n' | b'\r') = self.here() {
            self.at += 1;
        }
        self.here()
    }

    /// Passes one of these letters, and tells which.
    fn pass(&mut self, letters: &[u8], what: &'static str) -> Result<u8, Why> {
        match self.next_letter().filter(|letter| letters.contains(letter)) {
            Some(letter) => {
                self.at += 1;
                Ok(letter)
            }
            None => self.wrong(what),
        }
    }

    fn value(&mut self) -> Result<Value, Why> {
        match self.next_letter() {
            Some(b'{') => self.within(Self::object),
            Some(b'[') => self.within(Self::list),
            Some(b'"') => self.string().map(Value::Text),
            Some(b'-' | b'0'..=b'9') => self.number(),
            _ => self.word(),
        }
    }

    fn word(&mut self) -> Result<Value, Why> {
        let rest = &self.text[self.at..];
        for word in ["true", "false", "null"] {
            if rest.starts_with(word.as_bytes()) {
                self.at += word.len();
                return Ok(Value::Other);
            }
            if word.as_bytes().starts_with(rest) {
                self.at = self.text.len();
            }
        }
        self.wrong("no value begins like this")
    }

    /// Passes the bracket that opens an object or a list, and reads what is within.
    fn within(&mut self, read: fn(&mut Self) -> Result<Value, Why>) -> Result<Value, Why> {
        if self.depth == MOST_DEPTH {
            return self.wrong("values nest deeper than 16");
        }
        self.depth += 1;
        self.at += 1;
        let value = read(self)?;
        self.depth -= 1;
        Ok(value)
    }

    fn object(&mut self) -> Result<Value, Why> {
        let mut members = Vec::new();
        let mut end = self.next_letter() == Some(b'}');
        self.at += usize::from(end);
        while !end {
            if self.next_letter() != Some(b'"') {
                return self.wrong("a member's name in quotes should stand here");
            }
            let name = self.string()?;
            self.pass(b":", "a colon should stand here")?;
            members.push((name, self.value()?));
            end = self.pass(b",}", "a comma or the end of an object should stand here")? == b'}';
        }
        Ok(Value::Object(members))
    }

    fn list(&mut self) -> Result<Value, Why> {
        let mut values = Vec::new();
        let mut end = self.next_letter() == Some(b']');
        self.at += usize::from(end);
        while !end {
            values.push(self.value()?);
            end = self.pass(b",]", "a comma or the end of a list should stand here")? == b']';
        }
        Ok(Value::List(values))
    }

    /// Passes digits, one at the least.
    fn digits(&mut self) -> Result<(), Why> {
        let start = self.at;
        while let Some(b'0'..=b'9') = self.here() {
            self.at += 1;
        }
        if self.at == start {
            return self.wrong("a digit should stand here");
        }
        Ok(())
    }

    fn number(&mut self) -> Result<Value, Why> {
        let start = self.at;
        self.at += usize::from(self.here() == Some(b'-'));
        if self.here() == Some(b'0') {
            self.at += 1;
        } else {
            self.digits()?;
        }
        if self.here() == Some(b'.') {
            self.at += 1;
            self.digits()?;
        }
        if let Some(b'e' | b'E') = self.here() {
            self.at += 1;
            self.at += usize::from(matches!(self.here(), Some(b'+' | b'-')));
            self.digits()?;
        }
        Ok(Value::Number(String::from_utf8_lossy(&self.text[start..self.at]).into_owned()))
    }

    /// The letters of a string, whose quote is next.
    fn string(&mut self) -> Result<Vec<u32>, Why> {
        self.at += 1;
        let mut letters = Vec::new();
        loop {
            match self.here() {
                None | Some(0..=0x1f) => return self.wrong("no such letter stands in a string"),
                Some(b'"') => break,
                Some(b'\\') => letters.push(self.escape()?),
                Some(first) => {
                    // The text is UTF-8, and so are its letters one after the other.
                    let length = [1, 2, 3, 4][usize::from(first >= 0xc0)
                        + usize::from(first >= 0xe0)
                        + usize::from(first >= 0xf0)];
                    let letter = std::str::from_utf8(&self.text[self.at..self.at + length]);
                    letters.extend(letter.iter().flat_map(|letter| units(letter)));
                    self.at += length;
                }
            }
        }
        self.at += 1;
        Ok(letters)
    }

    fn escape(&mut self) -> Result<u32, Why> {
        self.at += 1;
        let letter = match self.here() {
            Some(letter @ (b'"' | b'\\' | b'/')) => letter,
            Some(b'b') => 8,
            Some(b'f') => 12,
            Some(b'n') => b'\n',
            Some(b'r') => b'\r',
            Some(b't') => b'\t',
            Some(b'u') => return self.four_digits(),
            _ => return self.wrong("no escape is written like this"),
        };
        self.at += 1;
        Ok(u32::from(letter))
    }

    fn four_digits(&mut self) -> Result<u32, Why> {
        let mut unit = 0;
        for _ in 0..4 {
            self.at += 1;
            match self.here().and_then(|digit| char::from(digit).to_digit(16)) {
                Some(digit) => unit = 16 * unit + digit,
                None => return self.wrong("four digits of hex should stand here"),
            }
        }
        self.at += 1;
        Ok(unit)
    }
}
