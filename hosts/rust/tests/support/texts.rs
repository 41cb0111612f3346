//! Reports as JSON, right and wrong, of which it is known what must be said of them, since it is
//! known how they were made.
//!
//! A text is a tree of values first, of the entries that it is to have and of much else that a
//! reader must skip. A fault is put into the tree, and then it is written.

use super::json_values::{
    any_value, base64_node, deep, leaf, name, near_name, other_name, raw, word, written, Name,
    Node, Style, CHARACTERS, NUMBERS,
};
use super::Xorshift;
use independent::base64;
use independent::report_text::{self, Entry, Member};

/// What must be said of a text.
#[derive(Clone, Debug, PartialEq)]
pub enum Due {
    /// It is a report with these records.
    Records(Vec<u8>),
    /// It is refused with this code.
    Code(u32),
    Unknown,
}

/// A text, and what must be said of it.
#[derive(Clone, Debug)]
pub struct Text {
    pub bytes: Vec<u8>,
    pub due: Due,
}

/// Lengths that a packet may have here: mostly short ones, of which a text does not get long.
fn packet_length(random: &mut Xorshift) -> usize {
    match random.below(300) {
        0 => 2000,
        1 => 1996 + random.below(5),
        2 => random.below(2001),
        3..=60 => random.below(4),
        _ => random.below(40),
    }
}

pub fn entries(random: &mut Xorshift, count: usize) -> Vec<Entry> {
    let mut entry = |place: usize| {
        let (asked, told) = (packet_length(random), packet_length(random));
        Entry {
            key: random.array(),
            rand: if place == 0 { [0; 32] } else { random.array() },
            request: random.bytes(asked),
            response: random.bytes(told),
        }
    };
    (0..count).map(&mut entry).collect()
}

/// How many entries a report has: mostly few.
fn count(random: &mut Xorshift) -> usize {
    let any = 1 + random.below(16);
    random.pick(&[1, 1, 1, 2, 2, 2, 2, 2, 3, 4, any])
}

/// A report as a tree, for a fault to be put into.
pub struct Tree {
    /// The members of the outermost object; one of them is `responses`, with an empty list.
    around: Vec<(Name, Node)>,
    /// What is said of that list, where it is something else than the entries.
    responses: Option<Node>,
    entries: Vec<Vec<(Name, Node)>>,
    /// Entries that are no objects, by their place.
    strange: Vec<(usize, Node)>,
    /// The members that have a fault, by their entries' places. None gets a second one, which could
    /// mend the first.
    spoiled: Vec<(usize, Member)>,
    /// The outermost value, where it is no object.
    outermost: Option<Node>,
    /// The code that is due, where one is.
    code: Option<u32>,
    records: Vec<u8>,
}

/// Puts a value among others.
fn insert<T>(random: &mut Xorshift, into: &mut Vec<T>, one: T) {
    let at = random.below(into.len() + 1);
    into.insert(at, one);
}

fn shuffle<T>(random: &mut Xorshift, all: &mut [T]) {
    for end in (1..all.len()).rev() {
        all.swap(end, random.below(end + 1));
    }
}

/// How deep an entry's member, and one of the outermost object, may nest, so that the whole is 16.
const LEFT_IN_ENTRY: usize = 16 - 3;
const LEFT_AROUND: usize = 16 - 1;

impl Tree {
    /// The members of these entries, plain and in the draft's order.
    pub fn plain(entries: &[Entry]) -> Self {
        let members = |(place, entry): (usize, &Entry)| {
            Member::ALL
                .into_iter()
                .filter(|member| place > 0 || *member != Member::Rand)
                .map(|member| (name(member.name()), base64_node(value_of(entry, member))))
                .collect()
        };
        Tree {
            around: vec![(name("responses"), Node::List(vec![]))],
            responses: None,
            entries: entries.iter().enumerate().map(members).collect(),
            strange: vec![],
            spoiled: vec![],
            outermost: None,
            code: None,
            records: report_text::pile_of(entries),
        }
    }

    /// A good report with much beside it: other members, another order, and a first rand that is
    /// anything.
    pub fn rich(random: &mut Xorshift) -> Self {
        let count = count(random);
        let entries = entries(random, count);
        let mut tree = Tree::plain(&entries);
        tree.enrich(random);
        tree
    }

    pub fn enrich(&mut self, random: &mut Xorshift) {
        let seldom = random.pick(&[2, 6, 30]);
        self.first_rand(random);
        for members in &mut self.entries {
            while random.once_in(seldom) {
                let more = (other_name(random), any_value(random, 3));
                insert(random, members, more);
            }
            if random.once_in(2) {
                shuffle(random, members);
            }
        }
        while random.once_in(seldom) {
            let more = (other_name(random), any_value(random, 4));
            insert(random, &mut self.around, more);
        }
        self.repeat_unknown(random);
    }

    /// What the first entry has for a rand is ignored: none, a good one, anything, or several.
    fn first_rand(&mut self, random: &mut Xorshift) {
        let Some(members) = self.entries.first_mut() else { return };
        for _ in 0..random.pick(&[0, 0, 1, 1, 2, 5]) {
            let value = match random.below(4) {
                0 => base64_node(&random.array()),
                1 => {
                    let length = random.below(70);
                    base64_node(&random.bytes(length))
                }
                2 => any_value(random, 4),
                _ => raw(word(random, r#"null 7 [] {} "" "=" "\ud800""#)),
            };
            insert(random, members, (name("rand"), value));
        }
    }

    /// Unknown members may be there more than once, and mean nothing then either.
    fn repeat_unknown(&mut self, random: &mut Xorshift) {
        if random.once_in(3) {
            let same = other_name(random);
            for _ in 0..2 + random.below(3) {
                let value = any_value(random, 2);
                insert(random, &mut self.around, (same.clone(), value));
            }
        }
    }

    /// The value of the tree, and what is due to it.
    pub fn node(&self) -> Node {
        if let Some(node) = &self.outermost {
            return node.clone();
        }
        let mut list: Vec<Node> = self.entries.iter().cloned().map(Node::Object).collect();
        for (place, node) in &self.strange {
            list[*place] = node.clone();
        }
        let responses = self.responses.clone().unwrap_or(Node::List(list));
        let mut around = self.around.clone();
        let place = around.iter().position(|(known, _)| *known == name("responses"));
        if let Some(place) = place {
            around[place].1 = responses;
        }
        Node::Object(around)
    }

    pub fn text(&self, random: &mut Xorshift, style: Style) -> Text {
        let bytes = written(random, style, &self.node());
        let due = match self.code {
            Some(code) => Due::Code(code),
            None => Due::Records(self.records.clone()),
        };
        Text { bytes, due }
    }

    /// 24 counts before 25, wherever it stands.
    fn is_due(&mut self, code: u32) {
        self.code = Some(self.code.map_or(code, |before| before.min(code)));
    }

    /// An entry: the first, the last, or any.
    fn place(&self, random: &mut Xorshift) -> usize {
        let any = random.below(self.entries.len());
        random.pick(&[0, self.entries.len() - 1, any])
    }

    /// A member that can have this fault and has none yet, by the places of its entry and of
    /// itself.
    fn needed(&self, random: &mut Xorshift, wrong: Wrong) -> Option<(usize, usize, Member)> {
        let entry = self.place(random);
        let members: &[Member] = match wrong {
            Wrong::Packet => &[Member::Request, Member::Response],
            Wrong::Length if entry == 0 => &[Member::PublicKey],
            Wrong::Length => &[Member::PublicKey, Member::Rand],
            _ if entry == 0 => &Member::ALL[1..],
            // Only here it is needed, so that it comes more often.
            _ if random.once_in(3) => &[Member::Rand],
            _ => &Member::ALL,
        };
        let member = random.pick(members);
        if self.spoiled.contains(&(entry, member)) {
            return None;
        }
        let sought = name(member.name());
        let at = self.entries[entry].iter().position(|(known, _)| *known == sought)?;
        Some((entry, at, member))
    }
}

fn value_of(entry: &Entry, member: Member) -> &[u8] {
    match member {
        Member::Rand => &entry.rand,
        Member::PublicKey => &entry.key,
        Member::Request => &entry.request,
        Member::Response => &entry.response,
    }
}

/// A value that is no string.
fn no_string(random: &mut Xorshift) -> Node {
    match random.below(4) {
        0 => raw(word(random, "null true false")),
        1 => raw(word(random, NUMBERS)),
        2 => Node::List(vec![base64_node(&random.array())]),
        _ => Node::Object(vec![(name("rand"), base64_node(&random.array()))]),
    }
}

/// What no base64 has where a letter is.
const NO_LETTERS: [u32; 18] = [
    0x2d, 0x5f, 0x20, 0x0a, 0x0d, 0x2e, 0x40, 0x5b, 0x60, 0x7b, 0x00, 0x3a, 0x2a, 0x7f, 0xe9,
    0x0410, 0xd800, 0x1f600,
];

/// The letters of a text that is no base64, by one fault, made of one that is.
fn no_base64(random: &mut Xorshift, bytes: &[u8]) -> Vec<u32> {
    let mut letters: Vec<u32> = base64::encode(bytes).chars().map(u32::from).collect();
    let padding = letters.iter().filter(|letter| **letter == 0x3d).count();
    let end = letters.len() - padding;
    match random.below(11) {
        // The padding is left out, by one or whole, or there is too much of it.
        0 if padding > 0 => letters.truncate(end + padding - 1),
        1 if padding > 0 => letters.truncate(end),
        2 => letters.extend(vec![0x3d; 1 + random.below(4)]),
        // A bit that no byte takes.
        3 | 4 | 9 | 10 if padding > 0 => spare_bit(random, &mut letters, padding),
        // A letter too many or too few.
        5 => insert(random, &mut letters, 0x41),
        6 => {
            letters.remove(random.below(end));
        }
        // Padding where letters follow.
        7 => letters[random.below(end - 1)] = 0x3d,
        _ => letters[random.below(end)] = random.pick(&NO_LETTERS),
    }
    letters
}

/// Turns one of the spare bits of the last letter.
fn spare_bit(random: &mut Xorshift, letters: &mut [u32], padding: usize) {
    let alphabet: Vec<u32> = "ABCDEFGHIJKLMNOPQRSTUVWXYZabcdefghijklmnopqrstuvwxyz0123456789+/"
        .chars()
        .map(u32::from)
        .collect();
    let last = letters.len() - 1 - padding;
    let value = alphabet.iter().position(|letter| *letter == letters[last]).expect("a letter");
    // One byte leaves four bits of its second letter, two leave two of their third.
    let bit = random.below(2 * padding);
    letters[last] = alphabet[value | 1 << bit];
}

/// What is long, or comes many times, and is skipped.
fn long_value(random: &mut Xorshift) -> Node {
    let count = 1_000 + random.below(4_000);
    let fitting = LEFT_IN_ENTRY.min(LEFT_AROUND);
    match random.below(6) {
        0 => raw("7".repeat(count)),
        1 => raw(format!("-0.{}e-{}", "0".repeat(count), "9".repeat(count))),
        2 => Node::Text((0..count).map(|_| random.pick(&CHARACTERS)).collect()),
        3 => Node::List((0..count / 10).map(|_| leaf(random)).collect()),
        4 => Node::List((0..count / 100).map(|_| deep(random, fitting - 1)).collect()),
        _ => Node::Object((0..count / 10).map(|_| (other_name(random), leaf(random))).collect()),
    }
}

impl Tree {
    /// Adds something long, or many members.
    pub fn lengthen(&mut self, random: &mut Xorshift) {
        let place = self.place(random);
        let into = random.pick(&[true, false]);
        let members = if into { &mut self.entries[place] } else { &mut self.around };
        match random.below(3) {
            0 => {
                let (long, value) = (long_value(random), leaf(random));
                let long = if matches!(long, Node::Text(_)) { long } else { other_name(random) };
                insert(random, members, (long, value));
            }
            1 => {
                for _ in 0..100 + random.below(200) {
                    let more = (other_name(random), leaf(random));
                    insert(random, members, more);
                }
            }
            _ => {
                let more = (other_name(random), long_value(random));
                insert(random, members, more);
            }
        }
    }
}

/// A fault of a report that is JSON.
#[derive(Clone, Copy, Debug, PartialEq, Eq)]
pub enum Wrong {
    Outermost,
    NoResponses,
    ManyResponses,
    ResponsesKind,
    EntryKind,
    Missing,
    Repeated,
    Kind,
    Base64,
    Length,
    Depth,
    NoEntry,
    ManyEntries,
    Packet,
}

/// All that lead to 24.
pub const WRONG_TEXT: [Wrong; 16] = [
    Wrong::Outermost,
    Wrong::NoResponses,
    Wrong::ManyResponses,
    Wrong::ResponsesKind,
    Wrong::EntryKind,
    Wrong::Missing,
    Wrong::Missing,
    Wrong::Repeated,
    Wrong::Repeated,
    Wrong::Kind,
    Wrong::Kind,
    Wrong::Base64,
    Wrong::Base64,
    Wrong::Base64,
    Wrong::Length,
    Wrong::Depth,
];

/// All that lead to 25.
pub const WRONG_SIZE: [Wrong; 3] = [Wrong::NoEntry, Wrong::ManyEntries, Wrong::Packet];

impl Tree {
    /// Puts a fault in. One that has no place here any more, since others came first, is left out.
    pub fn spoil(&mut self, random: &mut Xorshift, wrong: Wrong) {
        let within = !self.entries.is_empty();
        match wrong {
            _ if self.outermost.is_some() => (),
            Wrong::Outermost => self.other_outermost(random),
            Wrong::NoResponses | Wrong::ManyResponses | Wrong::ResponsesKind => {
                self.spoil_around(random, wrong);
            }
            Wrong::Depth => self.too_deep(random),
            Wrong::EntryKind if within => {
                let node = match random.below(3) {
                    0 => leaf(random),
                    1 => Node::List(vec![Node::Object(self.entries[0].clone())]),
                    _ => Node::List(vec![]),
                };
                let place = self.place(random);
                self.strange.push((place, node));
                self.is_due(24);
            }
            Wrong::NoEntry if self.code.is_none() => {
                self.entries.clear();
                self.is_due(25);
            }
            Wrong::ManyEntries if within => self.too_many(random),
            Wrong::NoEntry | Wrong::ManyEntries | Wrong::EntryKind => (),
            _ if within => self.spoil_member(random, wrong),
            _ => (),
        }
    }

    fn other_outermost(&mut self, random: &mut Xorshift) {
        let node = match random.below(3) {
            0 => leaf(random),
            1 => Node::List(vec![self.node()]),
            _ => Node::List(self.entries.iter().cloned().map(Node::Object).collect()),
        };
        self.outermost = Some(node);
        self.is_due(24);
    }

    fn spoil_around(&mut self, random: &mut Xorshift, wrong: Wrong) {
        let responses = name("responses");
        match wrong {
            Wrong::NoResponses if random.once_in(2) => {
                self.around.retain(|(known, _)| *known != responses);
            }
            // It has another name.
            Wrong::NoResponses => {
                let (other, whole) = (near_name(random), self.node());
                let Node::Object(around) = whole else { return };
                self.around = around;
                for member in &mut self.around {
                    if member.0 == responses {
                        member.0 = other.clone();
                    }
                }
            }
            Wrong::ManyResponses => {
                let again = if random.once_in(2) { Node::List(vec![]) } else { leaf(random) };
                insert(random, &mut self.around, (responses.clone(), again.clone()));
                // Where it was left out before, it is there twice now.
                if self.around.iter().filter(|(known, _)| *known == responses).count() == 1 {
                    insert(random, &mut self.around, (responses, again));
                }
            }
            _ => {
                let node = match random.below(4) {
                    0 => leaf(random),
                    1 => Node::Object(self.entries.first().cloned().unwrap_or_default()),
                    2 => Node::Object(vec![(responses, Node::List(vec![]))]),
                    _ => Node::Object(vec![]),
                };
                self.responses = Some(node);
            }
        }
        self.is_due(24);
    }

    fn too_many(&mut self, random: &mut Xorshift) {
        let count = match random.below(40) {
            0 => 200,
            1..=4 => 17 + random.below(40),
            5..=12 => 18,
            _ => 17,
        };
        let entry = Entry { key: [1; 32], rand: [2; 32], request: vec![3], response: vec![] };
        let more = Tree::plain(&[entry.clone(), entry]).entries.remove(1);
        while self.entries.len() < count {
            self.entries.push(more.clone());
        }
        self.is_due(25);
    }

    /// 17 objects and arrays within each other, or more, in one member or within the list.
    fn too_deep(&mut self, random: &mut Xorshift) {
        let more = random.pick(&[1, 1, 1, 2, 5, 100]);
        if self.entries.is_empty() || random.once_in(2) {
            let node = deep(random, LEFT_AROUND + more);
            let known = other_name(random);
            insert(random, &mut self.around, (known, node));
        } else {
            let node = deep(random, LEFT_IN_ENTRY + more);
            let place = self.place(random);
            let known =
                if place == 0 && random.once_in(2) { name("rand") } else { other_name(random) };
            insert(random, &mut self.entries[place], (known, node));
        }
        self.is_due(24);
    }

    /// Values that just reach the depth of 16.
    pub fn as_deep_as_may_be(&mut self, random: &mut Xorshift) {
        let (around, within) = (deep(random, LEFT_AROUND), deep(random, LEFT_IN_ENTRY));
        let place = self.place(random);
        let known = if place == 0 && random.once_in(2) { name("rand") } else { other_name(random) };
        insert(random, &mut self.entries[place], (known, within));
        let known = other_name(random);
        insert(random, &mut self.around, (known, around));
    }

    fn spoil_member(&mut self, random: &mut Xorshift, wrong: Wrong) {
        let Some((entry, at, member)) = self.needed(random, wrong) else { return };
        self.spoiled.push((entry, member));
        let members = &mut self.entries[entry];
        match wrong {
            Wrong::Missing => {
                if random.once_in(2) {
                    members.remove(at);
                } else {
                    members[at].0 = other_name(random);
                }
            }
            Wrong::Repeated => {
                let same = members[at].1.clone();
                let again = if random.once_in(2) { same } else { any_value(random, 2) };
                insert(random, members, (name(member.name()), again));
            }
            Wrong::Kind => members[at].1 = no_string(random),
            Wrong::Base64 => {
                let length = random.pick(&[1, 2, 3, 30, 31, 32, 32, 32, 33, 34, 100]);
                let bytes = random.bytes(length);
                members[at].1 = Node::Text(no_base64(random, &bytes));
            }
            Wrong::Packet => {
                let length = random.pick(&[2001, 2001, 2002, 2003, 2004, 4001]);
                members[at].1 = base64_node(&random.bytes(length));
                return self.is_due(25);
            }
            _ => {
                let length = random.pick(&[0, 1, 30, 31, 33, 34, 64, 300]);
                members[at].1 = base64_node(&random.bytes(length));
            }
        }
        self.is_due(24);
    }
}

impl Tree {
    /// Puts what is no value, or no name, in some place of the tree.
    pub fn strew(&mut self, random: &mut Xorshift, node: Node, as_name: bool) {
        let value = any_value(random, 1);
        let member = if as_name { (node, value) } else { (other_name(random), node.clone()) };
        let members = match self.entries.len() {
            0 => &mut self.around,
            _ if random.once_in(3) => &mut self.around,
            _ => {
                let place = self.place(random);
                &mut self.entries[place]
            }
        };
        // In the place of a value that means something, too.
        let at = random.below(members.len() + 1);
        match members.get_mut(at) {
            Some((known, value)) if !as_name && at % 3 == 0 && *known != name("responses") => {
                *value = member.1;
            }
            _ => members.insert(at, member),
        }
    }
}
