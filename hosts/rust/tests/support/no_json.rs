//! Texts that are no JSON, made of reports by a fault in their bytes, and bytes that may be
//! anything.

use super::json_values::{
    no_utf8, raw, word, written, Node, Style, NO_ESCAPES, NO_NUMBERS, NO_WORDS,
};
use super::texts::{Due, Text, Tree};
use super::Xorshift;

/// A text that is no JSON, by a fault in the bytes.
#[derive(Clone, Copy, Debug, PartialEq, Eq)]
pub enum NoJson {
    ByteOrderMark,
    Nothing,
    Cut,
    Behind,
    Number,
    Word,
    Escape,
    Control,
    Utf8,
    Utf8Anywhere,
    Separator,
    Name,
}

pub const NO_JSON: [NoJson; 12] = [
    NoJson::ByteOrderMark,
    NoJson::Nothing,
    NoJson::Cut,
    NoJson::Behind,
    NoJson::Number,
    NoJson::Word,
    NoJson::Escape,
    NoJson::Control,
    NoJson::Utf8,
    NoJson::Utf8Anywhere,
    NoJson::Separator,
    NoJson::Name,
];

/// What is no JSON, made of a tree that may have any other fault too.
pub fn no_json(random: &mut Xorshift, mut tree: Tree, fault: NoJson) -> Text {
    let style = Style::random(random);
    if let Some(node) = no_value(random, fault) {
        tree.strew(random, node, fault == NoJson::Name);
    }
    let bytes = written(random, style, &tree.node());
    Text { bytes: broken(random, fault, bytes), due: Due::Code(24) }
}

/// The bytes of a text with a fault in them; where it is one of a value or a name, that stands there
/// already.
pub fn broken(random: &mut Xorshift, fault: NoJson, bytes: Vec<u8>) -> Vec<u8> {
    match fault {
        NoJson::ByteOrderMark => [b"\xef\xbb\xbf", &bytes[..]].concat(),
        NoJson::Nothing => (0..random.pick(&[0, 1, 20])).map(|_| random.pick(b" \t\n\r")).collect(),
        NoJson::Cut => {
            let end = bytes.iter().rposition(|byte| !b" \t\n\r".contains(byte)).unwrap_or(0);
            bytes[..random.below(end + 1)].to_vec()
        }
        NoJson::Behind => {
            let more = random.pick(&[
                "x", ",", "}", "]", "0", "{}", "\0", "\u{b}", "\u{c}", "\"\"", "\u{a0}",
                "\u{feff}", "//", "#",
            ]);
            [&bytes[..], more.as_bytes()].concat()
        }
        NoJson::Utf8Anywhere => {
            let at = random.below(bytes.len() + 1);
            [&bytes[..at], &no_utf8(random), &bytes[at..]].concat()
        }
        NoJson::Separator => wrong_separator(random, bytes),
        _ => bytes,
    }
}

/// What stands where a value or a name should.
pub fn no_value(random: &mut Xorshift, fault: NoJson) -> Option<Node> {
    let within = |random: &mut Xorshift, bytes: &[u8]| {
        let (before, after) =
            (random.pick(&["", "a", "\u{e9}", "AAAA"]), random.pick(&["", "b", "="]));
        raw([b"\"", before.as_bytes(), bytes, after.as_bytes(), b"\""].concat())
    };
    Some(match fault {
        NoJson::Number => raw(word(random, NO_NUMBERS)),
        NoJson::Word => raw(word(random, NO_WORDS)),
        NoJson::Escape => raw(word(random, NO_ESCAPES)),
        NoJson::Control => {
            let byte = [random.below(0x20) as u8];
            within(random, &byte)
        }
        NoJson::Utf8 => {
            let bytes = no_utf8(random);
            within(random, &bytes)
        }
        NoJson::Name => {
            raw(random.pick(&["a", "1", "null", "'a'", "[]", "{}", "", "\"a", "\"\n\"", "\"\\x\""]))
        }
        _ => return None,
    })
}

/// Leaves a bracket, a colon or a comma out, doubles it, or puts another in its place.
fn wrong_separator(random: &mut Xorshift, mut bytes: Vec<u8>) -> Vec<u8> {
    let places = separators(&bytes);
    if places.is_empty() {
        return bytes;
    }
    let at = random.pick(&places);
    let digit = |at: usize| bytes.get(at).map_or(false, u8::is_ascii_digit);
    // Two numbers without their comma are one.
    let joins = digit(at.wrapping_sub(1)) && digit(at + 1);
    match random.below(3) {
        0 if !joins => {
            bytes.remove(at);
        }
        1 => bytes.insert(at, bytes[at]),
        _ => {
            let others: Vec<u8> =
                b"{}[]:,;=".iter().copied().filter(|byte| *byte != bytes[at]).collect();
            bytes[at] = random.pick(&others);
        }
    }
    bytes
}

/// Where brackets, colons and commas stand that are in no string. A value that is none has some
/// only where it is the fault already.
fn separators(bytes: &[u8]) -> Vec<usize> {
    let (mut places, mut quoted, mut escaped) = (vec![], false, false);
    for (at, byte) in bytes.iter().enumerate() {
        match byte {
            _ if escaped => escaped = false,
            b'\\' if quoted => escaped = true,
            b'"' => quoted = !quoted,
            b'{' | b'}' | b'[' | b']' | b':' | b',' if !quoted => places.push(at),
            _ => (),
        }
    }
    places
}

/// A text of a good report with a byte changed, added or left out, or some of them moved. What
/// comes of it is for the two sides to say.
pub fn damaged(random: &mut Xorshift, bytes: Vec<u8>) -> Text {
    Text { bytes: altered(random, bytes), due: Due::Unknown }
}

/// The same of any text.
pub fn altered(random: &mut Xorshift, mut bytes: Vec<u8>) -> Vec<u8> {
    const USUAL: &[u8] = b"{}[]:,\"\\ \n\t019-+.eEtfnu/=AZaz\0\x1f\x7f\x80\xc3\xed\xef\xff";
    for _ in 0..random.pick(&[1, 1, 1, 2, 4]) {
        let (at, other) = (random.below(bytes.len()), random.below(bytes.len()));
        let byte = if random.once_in(3) { random.next() as u8 } else { random.pick(USUAL) };
        match random.below(5) {
            0 => bytes[at] = byte,
            1 => bytes.insert(at, byte),
            2 if bytes.len() > 1 => {
                bytes.remove(at);
            }
            3 => bytes.swap(at, other),
            _ => bytes[at] ^= 1 << random.below(8),
        }
    }
    bytes
}

/// Bytes that nobody meant anything by, or pieces of JSON in any order.
pub fn noise(random: &mut Xorshift) -> Text {
    const PIECES: [&str; 24] = [
        "{",
        "}",
        "[",
        "]",
        ":",
        ",",
        "\"",
        "\\",
        " ",
        "\n",
        "0",
        "1",
        "-",
        ".",
        "e",
        "true",
        "null",
        "\"responses\"",
        "\"rand\"",
        "\"publicKey\"",
        "\"a\"",
        "\"\"",
        "{\"responses\":[",
        "]}",
    ];
    let length = random.pick(&[1, 2, 3, 5, 8, 20, 60]);
    let bytes = match random.below(40) {
        0 => nested(random),
        1..=13 => random.bytes(length),
        14..=26 => (0..length).flat_map(|_| random.pick(&PIECES).bytes()).collect(),
        _ => {
            let mut text = b"{\"responses\":[".to_vec();
            text.extend((0..length).flat_map(|_| random.pick(&PIECES).bytes()));
            text
        }
    };
    Text { bytes, due: Due::Unknown }
}

/// Objects or arrays within each other and nothing else, up to more than Python reads.
pub fn nested(random: &mut Xorshift) -> Vec<u8> {
    let depth = random.pick(&[1, 15, 16, 17, 18, 400, 2_000]);
    let (open, close) = random.pick(&[("[", "]"), ("{\"a\":", "}"), ("[0,{\"responses\":", "}]")]);
    (open.repeat(depth) + "0" + &close.repeat(depth)).into_bytes()
}
