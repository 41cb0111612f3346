//! JSON values as trees, and how they are written: with blanks, escapes and forms of numbers that
//! are allowed, and with what only looks like a value where one is to be wrong.

use super::{unhex, Xorshift};
use independent::base64;

/// A value.
#[derive(Clone, Debug, PartialEq)]
pub enum Node {
    /// What is written as it stands: a word, a number, or something that is no value.
    Raw(Vec<u8>),
    /// A string by the numbers of its characters. Surrogates can be among them, and are escaped.
    Text(Vec<u32>),
    List(Vec<Node>),
    Object(Vec<(Name, Node)>),
}

/// A member's name, which may be any string, or something that is none.
pub type Name = Node;

pub fn name(text: &str) -> Name {
    Node::Text(text.chars().map(u32::from).collect())
}

pub fn raw(bytes: impl AsRef<[u8]>) -> Node {
    Node::Raw(bytes.as_ref().to_vec())
}

/// How a tree is written.
#[derive(Clone, Copy, Debug)]
pub struct Style {
    blanks: Blanks,
    /// A character is escaped that need not be once in so many; never where it is 0.
    escapes: usize,
}

#[derive(Clone, Copy, Debug, PartialEq)]
enum Blanks {
    None,
    /// Each member on a line of its own, two blanks further in than what it belongs to.
    Pretty,
    /// Any number of them, wherever they may be.
    Any,
}

impl Style {
    pub fn random(random: &mut Xorshift) -> Self {
        Style {
            blanks: random.pick(&[Blanks::None, Blanks::Pretty, Blanks::Any]),
            escapes: random.pick(&[0, 0, 2, 10, 50]),
        }
    }
}

struct Writer<'a> {
    random: &'a mut Xorshift,
    style: Style,
    out: Vec<u8>,
    depth: usize,
}

/// The bytes of a tree.
pub fn written(random: &mut Xorshift, style: Style, node: &Node) -> Vec<u8> {
    let mut writer = Writer { random, style, out: Vec::new(), depth: 0 };
    writer.gap();
    writer.node(node);
    writer.gap();
    writer.out
}

impl Writer<'_> {
    /// Blanks where nothing is due.
    fn gap(&mut self) {
        if self.style.blanks == Blanks::Any {
            for _ in 0..self.random.pick(&[0, 0, 0, 1, 2, 5]) {
                self.out.push(self.random.pick(b" \t\n\r"));
            }
        }
    }

    /// Where a member, an element or the end of them comes.
    fn line(&mut self) {
        self.gap();
        if self.style.blanks == Blanks::Pretty {
            self.out.push(b'\n');
            self.out.extend(vec![b' '; 2 * self.depth]);
        }
    }

    fn node(&mut self, node: &Node) {
        match node {
            Node::Raw(bytes) => self.out.extend(bytes),
            Node::Text(numbers) => self.string(numbers),
            Node::List(nodes) => self.within([b'[', b']'], nodes, Self::node),
            Node::Object(members) => self.within([b'{', b'}'], members, |writer, (name, value)| {
                writer.node(name);
                writer.gap();
                writer.out.push(b':');
                if writer.style.blanks == Blanks::Pretty {
                    writer.out.push(b' ');
                }
                writer.gap();
                writer.node(value);
            }),
        }
    }

    fn within<T>(&mut self, brackets: [u8; 2], parts: &[T], part: fn(&mut Self, &T)) {
        self.out.push(brackets[0]);
        self.depth += 1;
        for (i, one) in parts.iter().enumerate() {
            if i > 0 {
                self.gap();
                self.out.push(b',');
            }
            self.line();
            part(self, one);
        }
        self.depth -= 1;
        if parts.is_empty() {
            self.gap();
        } else {
            self.line();
        }
        self.out.push(brackets[1]);
    }

    fn string(&mut self, numbers: &[u32]) {
        self.out.push(b'"');
        for number in numbers {
            let must = matches!(number, 0..=0x1f | 0x22 | 0x5c | 0xd800..=0xdfff);
            let may = self.style.escapes > 0 && self.random.once_in(self.style.escapes);
            match char::from_u32(*number).filter(|_| !must && !may) {
                Some(character) => {
                    self.out.extend(character.encode_utf8(&mut [0; 4]).as_bytes());
                }
                None => self.escape(*number),
            }
        }
        self.out.push(b'"');
    }

    /// By its letter, where it has one, or by its number.
    fn escape(&mut self, number: u32) {
        let short = match number {
            0x08 => Some(b'b'),
            0x09 => Some(b't'),
            0x0a => Some(b'n'),
            0x0c => Some(b'f'),
            0x0d => Some(b'r'),
            0x22 | 0x2f | 0x5c => Some(number as u8),
            _ => None,
        };
        match short {
            Some(letter) if self.random.once_in(2) => self.out.extend([b'\\', letter]),
            _ if number > 0xffff => {
                let more = number - 0x10000;
                self.unit(0xd800 + (more >> 10));
                self.unit(0xdc00 + (more & 0x3ff));
            }
            _ => self.unit(number),
        }
    }

    /// Digits above 9 are written large or small.
    fn unit(&mut self, unit: u32) {
        self.out.extend(b"\\u");
        for digit in format!("{unit:04x}").into_bytes() {
            let large = self.random.once_in(2);
            self.out.push(if large { digit.to_ascii_uppercase() } else { digit });
        }
    }
}

/// Numbers in every form that the grammar has. Blanks part them, as in what follows.
pub const NUMBERS: &str =
    "0 -0 7 -12 1234567890 0.5 -0.0 12.250 1e5 1E5 1e+5 1E-5 0e0 -0e-0 3.25e+10 1e999 \
    -1e-999 18446744073709551616 1.7976931348623157e308 100000000000000000000000000000000000000000";

/// What is none, where a number would be.
pub const NO_NUMBERS: &str =
    "01 -01 00 1. -1. .5 -.5 1e 1E+ 1e- - +1 --1 1.e5 0x10 1_000 1.5.5 1e5.5 1e5e5 \
    1- 1+1 0b1 1f -Infinity -NaN 1.-5 1e0x1 -a";

/// Words that are none.
pub const NO_WORDS: &str =
    "True FALSE Null tru nul nulll truefalse undefined NaN Infinity none nil t 'text' \
    ` \\u0031";

/// Strings with an escape that is none.
pub const NO_ESCAPES: &str = r#""\x41" "\u" "\u1" "\u12" "\u123" "\u12g4" "\u:123" "\u+123" "\u-123"
    "\U0041" "\'" "\0" "\a" "\v" "\N" "\ud800\uzzzz" "\ud800\u12" "\u004" "\uD83D\x""#;

/// Bytes that are no UTF-8, as hex: a byte that starts nothing, too many bytes for a character,
/// surrogates, numbers that are too large, characters that end too soon.
const NO_UTF8: &str = "80 bf 8080 c28080 \
    c080 c1bf c0a2 e08080 e09fbf e080a2 f0808080 f08fbfbf \
    eda080 edbfbf eda0bdedb880 edb080 \
    f4908080 f5808080 f7bfbfbf f888808080 fc8480808080 fe ff \
    c3 e2 e282 f09f f09f98 f48f c3c3a9";

/// One of the words of a text.
pub fn word<'a>(random: &mut Xorshift, words: &'a str) -> &'a str {
    let words: Vec<&str> = words.split_whitespace().collect();
    random.pick(&words)
}

pub fn no_utf8(random: &mut Xorshift) -> Vec<u8> {
    unhex(word(random, NO_UTF8)).expect("it is hexadecimal")
}

/// Characters of every length, and both ends of what a surrogate is beside.
pub const CHARACTERS: [u32; 22] = [
    0x00, 0x1f, 0x20, 0x22, 0x2f, 0x41, 0x5c, 0x7f, 0x80, 0xe9, 0x7ff, 0x800, 0x20ac, 0x2028,
    0xd7ff, 0xe000, 0xfeff, 0xfffd, 0xffff, 0x10000, 0x1f600, 0x10ffff,
];

/// A string that nothing is meant by. Now and then it has surrogates that have no partner.
pub fn any_text(random: &mut Xorshift) -> Node {
    let length = random.pick(&[0, 1, 2, 5, 12]);
    let character = |random: &mut Xorshift| match random.below(8) {
        0..=3 => 0x20 + random.below(0x5f) as u32,
        4 => random.below(0x20) as u32,
        5 => random.pick(&[0xd800, 0xdbff, 0xdc00, 0xdfff]),
        _ => random.pick(&CHARACTERS),
    };
    Node::Text((0..length).map(|_| character(random)).collect())
}

/// Names that look like those that mean something, and are others. Beside them stands the empty
/// one.
const NEAR_NAMES: &str = "Responses responses\0 \u{1}responses response_s respons RESPONSES \
    responsess Rand rand\0 ran randd r\u{101}nd publickey PublicKey public_key publicKe publicKeys \
    Request requests reques Response respons\u{e9} responsE";

pub fn near_name(random: &mut Xorshift) -> Name {
    let near = word(random, NEAR_NAMES);
    name(random.pick(&[near, near, near, near, ""]))
}

pub fn other_name(random: &mut Xorshift) -> Name {
    if random.once_in(2) {
        return near_name(random);
    }
    match any_text(random) {
        // A name by chance is one that means nothing: none of those has a blank.
        Node::Text(mut numbers) => {
            numbers.push(0x20);
            Node::Text(numbers)
        }
        node => node,
    }
}

/// A value without others within it.
pub fn leaf(random: &mut Xorshift) -> Node {
    match random.below(5) {
        0 => raw(word(random, NUMBERS)),
        1 => raw(random.pick(&["true", "false", "null"])),
        2 => name(random.pick(&[
            "responses",
            "rand",
            "AAAA",
            "AA==",
            "{\"a\":[1]}",
            "]",
            "\"",
            "\\",
        ])),
        _ => any_text(random),
    }
}

/// A value in which at most `most` objects and arrays stand within each other.
pub fn any_value(random: &mut Xorshift, most: usize) -> Node {
    if most == 0 || random.once_in(2) {
        return leaf(random);
    }
    let count = random.pick(&[0, 1, 1, 2, 3]);
    if random.once_in(2) {
        return Node::List((0..count).map(|_| any_value(random, most - 1)).collect());
    }
    let member = |random: &mut Xorshift| {
        let known = name(random.pick(&["responses", "rand", "publicKey", "request", "response"]));
        let name = if random.once_in(3) { known } else { other_name(random) };
        (name, any_value(random, most - 1))
    };
    Node::Object((0..count).map(|_| member(random)).collect())
}

/// A value in which just so many objects and arrays stand within each other, some of one kind, some
/// of both. It has other values beside them.
pub fn deep(random: &mut Xorshift, depth: usize) -> Node {
    let kinds = random.pick(&[&[true][..], &[false], &[true, false]]);
    let mut node = leaf(random);
    for step in 0..depth {
        let beside = if random.once_in(4) { vec![leaf(random)] } else { vec![] };
        let list = random.pick(kinds);
        // The innermost one may be empty.
        let inner = if step == 0 && random.once_in(2) { vec![] } else { vec![node] };
        let parts = if random.once_in(2) { [beside, inner] } else { [inner, beside] }.concat();
        node = if list {
            Node::List(parts)
        } else {
            Node::Object(parts.into_iter().map(|part| (other_name(random), part)).collect())
        };
    }
    node
}

pub fn base64_node(bytes: &[u8]) -> Node {
    name(&base64::encode(bytes))
}
