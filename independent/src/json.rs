//! JSON as RFC 8259 has it, read strictly: what its grammar does not have is refused. The text is
//! UTF-8 without a byte order mark (section 8.1), and nothing but blanks stands around its value.

use crate::utf8;

/// A value.
#[derive(Clone, Debug, PartialEq, Eq)]
pub enum Value {
    /// `null`.
    Null,
    /// `true` or `false`.
    Bool(bool),
    /// A number, as it is written.
    Number(Vec<u8>),
    /// A string, without its quotes and escapes, in UTF-8. An escaped surrogate that has no partner
    /// is JSON by the grammar; it stands here as the three bytes that UTF-8 would give its number.
    Text(Vec<u8>),
    /// The values of an array.
    List(Vec<Value>),
    /// The members of an object, in order, repeated ones too.
    Object(Vec<(Vec<u8>, Value)>),
}

/// Why a text is refused.
#[derive(Clone, Copy, Debug, PartialEq, Eq, PartialOrd, Ord)]
pub enum Fault {
    /// It is not UTF-8.
    Utf8(utf8::Fault),
    /// It starts with a byte order mark.
    ByteOrderMark,
    /// It has no value at all.
    Nothing,
    /// It ends within its value.
    Unfinished,
    /// No value starts with this byte, or one of the three words is misspelt.
    Value,
    /// A number that is none, as `01`, `1.` and `-`.
    Number,
    /// An escape that is none.
    Escape,
    /// A control character, below 20, that stands in a string as it is.
    Control,
    /// What stands where a colon, a comma, an end or a name must be.
    Separator,
    /// Something behind the value that is no blank.
    Behind,
    /// Objects and arrays nest too deep.
    Depth,
}

impl Fault {
    /// Every one of them.
    pub fn all() -> Vec<Fault> {
        let others = [
            Fault::ByteOrderMark,
            Fault::Nothing,
            Fault::Unfinished,
            Fault::Value,
            Fault::Number,
            Fault::Escape,
            Fault::Control,
            Fault::Separator,
            Fault::Behind,
            Fault::Depth,
        ];
        utf8::Fault::ALL.into_iter().map(Fault::Utf8).chain(others).collect()
    }
}

/// U+FEFF in UTF-8.
const BYTE_ORDER_MARK: &[u8] = &[0xef, 0xbb, 0xbf];

/// The value of a text in which at most `most` objects and arrays stand within each other, the
/// outermost counted.
pub fn read(text: &[u8], most: usize) -> Result<Value, Fault> {
    utf8::check(text).map_err(Fault::Utf8)?;
    if text.starts_with(BYTE_ORDER_MARK) {
        return Err(Fault::ByteOrderMark);
    }
    let mut reader = Reader { text, at: 0, left: most };
    if reader.after_blanks().is_none() {
        return Err(Fault::Nothing);
    }
    let value = reader.value()?;
    match reader.after_blanks() {
        None => Ok(value),
        Some(_) => Err(Fault::Behind),
    }
}

/// What goes over a text.
struct Reader<'a> {
    text: &'a [u8],
    /// The next byte.
    at: usize,
    /// How many objects and arrays may still be opened within each other.
    left: usize,
}

impl<'a> Reader<'a> {
    fn peek(&self) -> Option<u8> {
        self.text.get(self.at).copied()
    }

    /// The next byte, which is passed.
    fn take(&mut self) -> Result<u8, Fault> {
        let byte = self.peek().ok_or(Fault::Unfinished)?;
        self.at += 1;
        Ok(byte)
    }

    /// The next byte that is no blank (section 2), which is not passed.
    fn after_blanks(&mut self) -> Option<u8> {
        while let Some(b' ' | b'\t' | b'\n' | b'\r') = self.peek() {
            self.at += 1;
        }
        self.peek()
    }

    /// The same, where the text cannot end yet; it is passed.
    fn take_after_blanks(&mut self) -> Result<u8, Fault> {
        self.after_blanks();
        self.take()
    }

    /// Section 3.
    fn value(&mut self) -> Result<Value, Fault> {
        match self.after_blanks().ok_or(Fault::Unfinished)? {
            b'{' => self.within(Self::object),
            b'[' => self.within(Self::list),
            b'"' => self.string().map(Value::Text),
            b'-' | b'0'..=b'9' => self.number(),
            b't' => self.word("true", Value::Bool(true)),
            b'f' => self.word("false", Value::Bool(false)),
            b'n' => self.word("null", Value::Null),
            _ => Err(Fault::Value),
        }
    }

    fn word(&mut self, word: &str, value: Value) -> Result<Value, Fault> {
        if !self.text[self.at..].starts_with(word.as_bytes()) {
            return Err(Fault::Value);
        }
        self.at += word.len();
        Ok(value)
    }

    /// Passes the bracket that opens an object or an array, and reads what is within.
    fn within(&mut self, read: fn(&mut Self) -> Result<Value, Fault>) -> Result<Value, Fault> {
        self.left = self.left.checked_sub(1).ok_or(Fault::Depth)?;
        self.at += 1;
        let value = read(self)?;
        self.left += 1;
        Ok(value)
    }

    /// Section 4, behind the bracket.
    fn object(&mut self) -> Result<Value, Fault> {
        let mut members = Vec::new();
        if self.after_blanks() == Some(b'}') {
            self.at += 1;
            return Ok(Value::Object(members));
        }
        loop {
            match self.after_blanks().ok_or(Fault::Unfinished)? {
                b'"' => (),
                _ => return Err(Fault::Separator),
            }
            let name = self.string()?;
            if self.take_after_blanks()? != b':' {
                return Err(Fault::Separator);
            }
            members.push((name, self.value()?));
            match self.take_after_blanks()? {
                b',' => (),
                b'}' => return Ok(Value::Object(members)),
                _ => return Err(Fault::Separator),
            }
        }
    }

    /// Section 5, behind the bracket.
    fn list(&mut self) -> Result<Value, Fault> {
        let mut values = Vec::new();
        if self.after_blanks() == Some(b']') {
            self.at += 1;
            return Ok(Value::List(values));
        }
        loop {
            values.push(self.value()?);
            match self.take_after_blanks()? {
                b',' => (),
                b']' => return Ok(Value::List(values)),
                _ => return Err(Fault::Separator),
            }
        }
    }

    /// Passes digits, and tells how many.
    fn digits(&mut self) -> usize {
        let start = self.at;
        while let Some(b'0'..=b'9') = self.peek() {
            self.at += 1;
        }
        self.at - start
    }

    /// Passes a byte, if it is one of these.
    fn pass(&mut self, bytes: &[u8]) -> bool {
        let found = self.peek().map_or(false, |byte| bytes.contains(&byte));
        self.at += usize::from(found);
        found
    }

    /// Section 6.
    fn number(&mut self) -> Result<Value, Fault> {
        let start = self.at;
        self.pass(b"-");
        if !self.pass(b"0") && self.digits() == 0 {
            return Err(Fault::Number);
        }
        if self.pass(b".") && self.digits() == 0 {
            return Err(Fault::Number);
        }
        if self.pass(b"eE") {
            self.pass(b"+-");
            if self.digits() == 0 {
                return Err(Fault::Number);
            }
        }
        // None of these can stand behind a number, so that the fault is the number's.
        if self.pass(b"0123456789.eE+-") {
            return Err(Fault::Number);
        }
        Ok(Value::Number(self.text[start..self.at].to_vec()))
    }

    /// Section 7, from the quote on.
    fn string(&mut self) -> Result<Vec<u8>, Fault> {
        self.at += 1;
        let mut text = Vec::new();
        loop {
            let start = self.at;
            while self.peek().map_or(false, |byte| byte >= 0x20 && byte != b'"' && byte != b'\\') {
                self.at += 1;
            }
            text.extend(&self.text[start..self.at]);
            match self.take()? {
                b'"' => return Ok(text),
                b'\\' => self.escape(&mut text)?,
                _ => return Err(Fault::Control),
            }
        }
    }

    /// What an escape stands for, behind its backslash.
    fn escape(&mut self, text: &mut Vec<u8>) -> Result<(), Fault> {
        text.push(match self.take()? {
            byte @ (b'"' | b'\\' | b'/') => byte,
            b'b' => 0x08,
            b'f' => 0x0c,
            b'n' => 0x0a,
            b'r' => 0x0d,
            b't' => 0x09,
            b'u' => {
                let unit = self.unit()?;
                push(text, self.joined(unit)?);
                return Ok(());
            }
            _ => return Err(Fault::Escape),
        });
        Ok(())
    }

    /// The four digits of an escape.
    fn unit(&mut self) -> Result<u32, Fault> {
        let mut unit = 0;
        for _ in 0..4 {
            let digit = char::from(self.take()?).to_digit(16).ok_or(Fault::Escape)?;
            unit = 16 * unit + digit;
        }
        Ok(unit)
    }

    /// The character that starts with this unit. The first of a pair of surrogates takes the
    /// second, where that is the next escape.
    fn joined(&mut self, unit: u32) -> Result<u32, Fault> {
        if !(0xd800..0xdc00).contains(&unit) || !self.text[self.at..].starts_with(b"\\u") {
            return Ok(unit);
        }
        let before = self.at;
        self.at += 2;
        let next = self.unit()?;
        if (0xdc00..0xe000).contains(&next) {
            return Ok(0x10000 + ((unit - 0xd800) << 10) + (next - 0xdc00));
        }
        self.at = before;
        Ok(unit)
    }
}

/// Adds a number as UTF-8 would have it (RFC 3629, section 3), surrogates too.
fn push(text: &mut Vec<u8>, number: u32) {
    let tail = |shift: u32| 0x80 | (number >> shift & 0x3f) as u8;
    match number {
        0..=0x7f => text.push(number as u8),
        0x80..=0x7ff => text.extend([0xc0 | (number >> 6) as u8, tail(0)]),
        0x800..=0xffff => text.extend([0xe0 | (number >> 12) as u8, tail(6), tail(0)]),
        _ => text.extend([0xf0 | (number >> 18) as u8, tail(12), tail(6), tail(0)]),
    }
}

#[cfg(test)]
mod tests {
    use super::*;

    fn text(text: &str) -> Value {
        Value::Text(text.as_bytes().to_vec())
    }

    fn number(text: &str) -> Value {
        Value::Number(text.as_bytes().to_vec())
    }

    #[test]
    fn values_of_every_kind() {
        for (json, value) in [
            ("null", Value::Null),
            (" \t\r\ntrue\n", Value::Bool(true)),
            ("false", Value::Bool(false)),
            ("\"\"", text("")),
            ("\"a\u{7f}\u{e9}\u{10ffff}\"", text("a\u{7f}\u{e9}\u{10ffff}")),
            (r#""\"\\\/\b\f\n\r\t""#, text("\"\\/\x08\x0c\n\r\t")),
            (r#""\u0041\u00E9\u20ac\uD83D\ude00""#, text("A\u{e9}\u{20ac}\u{1f600}")),
            ("[]", Value::List(vec![])),
            ("[ 1 , [ ] ]", Value::List(vec![number("1"), Value::List(vec![])])),
            ("{ }", Value::Object(vec![])),
            (
                r#"{"a" : 1,"a":{"":null}}"#,
                Value::Object(vec![
                    (b"a".to_vec(), number("1")),
                    (b"a".to_vec(), Value::Object(vec![(vec![], Value::Null)])),
                ]),
            ),
        ] {
            assert_eq!(read(json.as_bytes(), 16), Ok(value), "{json}");
        }
        for text in ["0", "-0", "10", "-1.50", "0.0", "1e5", "1E+5", "2.25e-10", "0e0"] {
            assert_eq!(read(text.as_bytes(), 16), Ok(number(text)), "{text}");
        }
    }

    #[test]
    fn a_surrogate_alone_is_json_and_its_neighbours_stay() {
        for (json, bytes) in [
            (r#""\ud800""#, &b"\xed\xa0\x80"[..]),
            (r#""\ud800\u0041""#, b"\xed\xa0\x80A"),
            (r#""\ud800\ud83d\ude00""#, b"\xed\xa0\x80\xf0\x9f\x98\x80"),
            (r#""\udc00\ud800""#, b"\xed\xb0\x80\xed\xa0\x80"),
            (r#""\ud800\n""#, b"\xed\xa0\x80\n"),
        ] {
            assert_eq!(read(json.as_bytes(), 16), Ok(Value::Text(bytes.to_vec())), "{json}");
        }
        assert_eq!(read(br#""\ud800\u00""#, 16), Err(Fault::Escape));
    }

    #[test]
    fn each_fault_has_its_texts() {
        let faults: [(Fault, &[&str]); 10] = [
            (Fault::ByteOrderMark, &["\u{feff}1"]),
            (Fault::Nothing, &["", " ", "\r\n\t"]),
            (Fault::Unfinished, &["[", "[1,", "{\"a\"", "{\"a\":", "\"", "\"\\", "\"\\u00", "{"]),
            (Fault::Value, &["a", "tru", "nul ", "True", "[1,]", "[,1]", "'a'", "+1", ".5", "]"]),
            (Fault::Value, &["NaN", "Infinity", "\u{b}1", "\u{a0}1"]),
            (Fault::Number, &["-", "01", "1.", "1.e1", "1e", "1e+", "-.5", "1.5.5"]),
            (Fault::Escape, &[r#""\x""#, r#""\u12g4""#, r#""\U0041""#, r#""\'""#, r#""\u+041""#]),
            (Fault::Control, &["\"\n\"", "\"\0\"", "\"\u{1f}\""]),
            (Fault::Separator, &["[1 2]", "{1:2}", "{\"a\",1}", "{\"a\":1,}", "{\"a\":1]", "[1}"]),
            (Fault::Behind, &["1 2", "{}}", "[]\0", "null,", "1\u{b}", "0x1", "\"\"\""]),
        ];
        for (fault, texts) in faults {
            for text in texts {
                assert_eq!(read(text.as_bytes(), 16), Err(fault), "{text:?}");
            }
        }
        assert_eq!(read(b"\"\xff\"", 16), Err(Fault::Utf8(utf8::Fault::TooLarge)));
    }

    #[test]
    fn the_outermost_counts_for_the_depth() {
        let nested = |depth: usize| "[".repeat(depth) + "0" + &"]".repeat(depth);
        assert_eq!(read(b"0", 0), Ok(number("0")));
        for depth in 1..20 {
            let deep = read(nested(depth).as_bytes(), 16);
            assert_eq!(deep.is_ok(), depth <= 16, "{depth}");
            assert!(deep.is_ok() || deep == Err(Fault::Depth));
        }
        // Beside each other they are not within each other.
        let beside = format!("[{}{{}}]", "[],{},".repeat(100));
        assert!(read(beside.as_bytes(), 2).is_ok());
    }
}
