//! Lists of servers as JSON, right and wrong, of which it is known what must be said of them, since
//! it is known how they were made.
//!
//! A list is made first, then it is a tree of values with much else that a reader must skip. A fault
//! is put into the tree, and then it is written.

use super::json_values::{
    any_value, base64_node, deep, leaf, name, other_name, raw, word, written, Name, Node, Style,
    CHARACTERS, NUMBERS,
};
use super::list_words as words;
use super::Xorshift;
use independent::list_text::{Address, Listed, Member, Server};

/// What must be said of a text.
#[derive(Clone, Debug, PartialEq)]
pub enum Due {
    /// It is this list.
    List(Listed),
    /// It is refused with this code.
    Code(u32),
    Unknown,
}

/// A text, and what must be said of it.
#[derive(Clone, Debug)]
pub struct Text {
    pub bytes: Vec<u8>,
    pub due: Due,
}

/// A name for people: any characters, but no half of a pair of surrogates.
fn called(random: &mut Xorshift) -> String {
    let length = random.pick(&[0, 1, 3, 10, 24, 24, 60]);
    let character = |random: &mut Xorshift| match random.below(10) {
        0 => random.below(0x20) as u32,
        1 => random.pick(&[0x22, 0x5c, 0x2f, 0x7f]),
        2 | 3 => random.pick(&CHARACTERS),
        4 => random.below(0x110000) as u32,
        _ => 0x20 + random.below(0x5f) as u32,
    };
    (0..length).filter_map(|_| char::from_u32(character(random))).collect()
}

const OTHER_VERSIONS: &str = "0 -0 2 -1 10 11 2147483660 2147483649 3000600613 4294967297 \
    18446744073709551617 1000000000000000000000000000000000000000000000001 -1000000000000000000000";

const OTHER_TYPES: &str = "Ed25519 ed448 ed25519ph ed2551 ED25519 ed25519\0 rsa ed\u{ff12}5519";

pub fn server(random: &mut Xorshift) -> Server {
    let seldom = random.pick(&[4, 12]);
    let other_length = random.pick(&[0, 1, 31, 33, 57, 64]);
    let length = if random.once_in(seldom) { other_length } else { 32 };
    let version = if random.once_in(seldom) { word(random, OTHER_VERSIONS) } else { "1" };
    let other_type = if random.once_in(6) { "" } else { word(random, OTHER_TYPES) };
    let key_type = if random.once_in(seldom) { other_type } else { "ed25519" };
    let any = random.below(9);
    let count = random.pick(&[0, 1, 1, 1, 2, 2, 3, 8, any]);
    let address = |random: &mut Xorshift| Address {
        tcp: random.once_in(2),
        text: words::address(random).into_bytes(),
    };
    Server {
        name: called(random).into_bytes(),
        version: version.as_bytes().to_vec(),
        key_type: key_type.as_bytes().to_vec(),
        key: random.bytes(length),
        addresses: (0..count).map(|_| address(random)).collect(),
    }
}

pub fn listed(random: &mut Xorshift) -> Listed {
    let any = 1 + random.below(64);
    let count = if random.once_in(30) {
        random.pick(&[63, 64, any])
    } else {
        random.pick(&[1, 1, 1, 2, 2, 3, 3, 4, 6])
    };
    let sources = random.pick(&[0, 0, 0, 1, 1, 2, 5]);
    Listed {
        servers: (0..count).map(|_| server(random)).collect(),
        sources: (0..sources).map(|_| words::url(random).into_bytes()).collect(),
        reports: (!random.once_in(3)).then(|| words::url(random).into_bytes()),
    }
}

fn text(bytes: &[u8]) -> Node {
    name(std::str::from_utf8(bytes).expect("what is made here is UTF-8"))
}

fn member(member: Member, node: Node) -> (Name, Node) {
    (name(member.name()), node)
}

fn address_node(address: &Address) -> Node {
    Node::Object(vec![
        member(Member::Protocol, name(if address.tcp { "tcp" } else { "udp" })),
        member(Member::Address, text(&address.text)),
    ])
}

fn server_node(server: &Server) -> Node {
    Node::Object(vec![
        member(Member::Name, text(&server.name)),
        member(Member::Version, raw(&server.version)),
        member(Member::KeyType, text(&server.key_type)),
        member(Member::PublicKey, base64_node(&server.key)),
        member(Member::Addresses, Node::List(server.addresses.iter().map(address_node).collect())),
    ])
}

/// A list as a tree, for a fault to be put into.
pub struct Tree {
    pub node: Node,
    listed: Listed,
    /// The members that have a fault, by the objects that they belong to. None gets a second one,
    /// which could mend the first.
    spoiled: Vec<(Spot, Member)>,
    /// The code that is due, where one is.
    code: Option<u32>,
}

/// An object of a list: the outermost, a server, or an address of one.
#[derive(Clone, Copy, Debug, PartialEq, Eq)]
enum Spot {
    Whole,
    Server(usize),
    Address(usize, usize),
}

/// How many objects and arrays may still nest in a member of such an object, so that they are 16.
fn left(spot: Spot) -> usize {
    match spot {
        Spot::Whole => 16 - 1,
        Spot::Server(_) => 16 - 3,
        Spot::Address(..) => 16 - 5,
    }
}

/// Puts a value among others.
fn insert<T>(random: &mut Xorshift, into: &mut Vec<T>, one: T) {
    let at = random.below(into.len() + 1);
    into.insert(at, one);
}

fn shuffle<T>(random: &mut Xorshift, all: &mut [T]) {
    for end in (1..all.len()).rev() {
        all.swap(end, random.below(end + 1));
    }
}

/// The values of a list, if it is one.
fn values(node: &mut Node) -> Option<&mut Vec<Node>> {
    match node {
        Node::List(values) => Some(values),
        _ => None,
    }
}

/// Names that look like those that mean something, and are others.
const NEAR_NAMES: &str = "Servers server serverss servers\0 \u{1}servers SERVERS source Sources \
    source\u{17f} report Reports names Name n\u{e1}me versions Version publicKeytype PublicKeyType \
    publicKeyTypes publickey public_key publicKeys address\0 Addresses adresses addres Address \
    protocols Protocol proto";

/// A name that means nothing here.
fn unknown(random: &mut Xorshift) -> Name {
    if random.once_in(3) {
        return name(word(random, NEAR_NAMES));
    }
    other_name(random)
}

/// A value that nothing is meant by, with names in it that would mean something elsewhere.
fn unmeant(random: &mut Xorshift, depth: usize) -> Node {
    if random.once_in(4) {
        let known = random.pick(&Member::ALL);
        return Node::Object(vec![member(known, any_value(random, depth - 1))]);
    }
    any_value(random, depth)
}

impl Tree {
    /// The members of a list, plain and in the draft's order.
    pub fn plain(listed: Listed) -> Self {
        let servers = listed.servers.iter().map(server_node).collect();
        let mut members = vec![member(Member::Servers, Node::List(servers))];
        if !listed.sources.is_empty() {
            let sources = listed.sources.iter().map(|source| text(source)).collect();
            members.push(member(Member::Sources, Node::List(sources)));
        }
        if let Some(url) = &listed.reports {
            members.push(member(Member::Reports, text(url)));
        }
        Tree { node: Node::Object(members), listed, spoiled: vec![], code: None }
    }

    /// A good list with much beside it: other members, and another order.
    pub fn rich(random: &mut Xorshift) -> Self {
        let listed = listed(random);
        let mut tree = Tree::plain(listed);
        tree.enrich(random);
        tree
    }

    fn enrich(&mut self, random: &mut Xorshift) {
        let seldom = random.pick(&[2, 6, 30]);
        // No sources may be told in two ways.
        if self.listed.sources.is_empty() && random.once_in(3) {
            let none = member(Member::Sources, Node::List(vec![]));
            insert(random, self.members(Spot::Whole).expect("it is whole"), none);
        }
        for spot in self.spots() {
            let Some(members) = self.members(spot) else { continue };
            while random.once_in(seldom) {
                let more = (unknown(random), unmeant(random, 3));
                insert(random, members, more);
            }
            if random.once_in(8) {
                let same = unknown(random);
                for _ in 0..2 {
                    let again = (same.clone(), leaf(random));
                    insert(random, members, again);
                }
            }
            if random.once_in(2) {
                shuffle(random, members);
            }
        }
    }

    /// Every object that means something.
    fn spots(&self) -> Vec<Spot> {
        let mut spots = vec![Spot::Whole];
        for (place, server) in self.listed.servers.iter().enumerate() {
            spots.push(Spot::Server(place));
            spots.extend((0..server.addresses.len()).map(|which| Spot::Address(place, which)));
        }
        spots
    }

    /// One of them, of all kinds alike.
    fn spot(&self, random: &mut Xorshift) -> Spot {
        let last = self.listed.servers.len() - 1;
        let any = random.below(last + 1);
        let place = random.pick(&[0, last, any]);
        match (random.below(3), self.listed.servers[place].addresses.len()) {
            (0, _) => Spot::Whole,
            (1, count @ 1..) => Spot::Address(place, random.below(count)),
            _ => Spot::Server(place),
        }
    }

    /// The members of an object, where it is there.
    fn members(&mut self, spot: Spot) -> Option<&mut Vec<(Name, Node)>> {
        let node = match spot {
            Spot::Whole => &mut self.node,
            Spot::Server(place) => {
                values(self.known(Spot::Whole, Member::Servers)?)?.get_mut(place)?
            }
            Spot::Address(place, which) => {
                let addresses = self.known(Spot::Server(place), Member::Addresses)?;
                values(addresses)?.get_mut(which)?
            }
        };
        match node {
            Node::Object(members) => Some(members),
            _ => None,
        }
    }

    /// The value of a member.
    fn known(&mut self, spot: Spot, member: Member) -> Option<&mut Node> {
        let sought = name(member.name());
        let members = self.members(spot)?;
        members.iter_mut().find(|(known, _)| *known == sought).map(|(_, value)| value)
    }

    pub fn text(&self, random: &mut Xorshift, style: Style) -> Text {
        let bytes = written(random, style, &self.node);
        let due = match self.code {
            Some(code) => Due::Code(code),
            None => Due::List(self.listed.clone()),
        };
        Text { bytes, due }
    }

    /// 24 counts before 25, wherever it stands.
    fn is_due(&mut self, code: u32) {
        self.code = Some(self.code.map_or(code, |before| before.min(code)));
    }
}

/// A fault of a list that is JSON.
#[derive(Clone, Copy, Debug, PartialEq, Eq)]
pub enum Wrong {
    Outermost,
    ServerKind,
    AddressKind,
    SourceKind,
    Missing,
    Repeated,
    Kind,
    Integer,
    Surrogate,
    Base64,
    Protocol,
    Address,
    Url,
    Depth,
    NoServer,
    ManyServers,
    ManyAddresses,
}

/// All that lead to 24.
pub const WRONG_TEXT: [Wrong; 23] = [
    Wrong::Outermost,
    Wrong::ServerKind,
    Wrong::AddressKind,
    Wrong::SourceKind,
    Wrong::Missing,
    Wrong::Missing,
    Wrong::Missing,
    Wrong::Repeated,
    Wrong::Repeated,
    Wrong::Repeated,
    Wrong::Kind,
    Wrong::Kind,
    Wrong::Kind,
    Wrong::Integer,
    Wrong::Surrogate,
    Wrong::Surrogate,
    Wrong::Base64,
    Wrong::Protocol,
    Wrong::Address,
    Wrong::Address,
    Wrong::Address,
    Wrong::Url,
    Wrong::Depth,
];

/// All that lead to 25.
pub const WRONG_SIZE: [Wrong; 3] = [Wrong::NoServer, Wrong::ManyServers, Wrong::ManyAddresses];

/// The members of such an object.
fn members_of(spot: Spot) -> &'static [Member] {
    match spot {
        Spot::Whole => &[Member::Servers, Member::Sources, Member::Reports],
        Spot::Server(_) => {
            &[Member::Name, Member::Version, Member::KeyType, Member::PublicKey, Member::Addresses]
        }
        Spot::Address(..) => &[Member::Protocol, Member::Address],
    }
}

/// A value that this member must not have, by its kind.
fn other_kind(random: &mut Xorshift, of: Member) -> Node {
    let text = name(random.pick(&["", "1", "https://a.example/", "udp"]));
    let number = raw(word(random, NUMBERS));
    let constant = raw(random.pick(&["null", "true", "false"]));
    let list = Node::List(vec![name("https://a.example/")]);
    let object = Node::Object(vec![member(of, text.clone())]);
    let others: [&Node; 3] = match of {
        Member::Servers | Member::Sources | Member::Addresses => [&text, &number, &object],
        Member::Version => [&text, &list, &object],
        _ => [&number, &list, &object],
    };
    if random.once_in(4) {
        return constant;
    }
    others[random.below(3)].clone()
}

/// Half a pair of surrogates, or both halves in the wrong order, in a text.
fn halved(random: &mut Xorshift, bytes: &[u8]) -> Node {
    let mut numbers: Vec<u32> = String::from_utf8_lossy(bytes).chars().map(u32::from).collect();
    let half = random.pick(&[&[0xd800][..], &[0xdbff], &[0xdc00], &[0xdfff], &[0xdc00, 0xd800]]);
    let at = random.below(numbers.len() + 1);
    for (more, number) in half.iter().enumerate() {
        numbers.insert(at + more, *number);
    }
    Node::Text(numbers)
}

const NO_INTEGERS: &str = "1.0 1e0 1E0 1.5 -1.0 0.1 10e-1 1e1 1.0e0 100e-2 0e0 1E+0 -1e0";
const NO_PROTOCOLS: &str = "UDP TCP Udp tcp\0 udp6 quic tcpudp tc ud udpp \u{ff55}dp";
const NO_BASE64: &str =
    "A AA AAA A=== AA= ==== AAAA= AAA=AAAA =AAA AA-_ AA\u{e9} AA.= AAA\n AB== AAB= \
    Zh== AA==AA== AAAAA AAAAAA A A=A= \u{0410}AAA AAAA====";

impl Tree {
    /// Puts a fault in. One that has no place here any more, since others came first, is left out.
    pub fn spoil(&mut self, random: &mut Xorshift, wrong: Wrong) {
        match wrong {
            Wrong::Outermost => {
                self.node = match random.below(3) {
                    0 => leaf(random),
                    1 => Node::List(vec![]),
                    _ => Node::List(vec![self.node.clone()]),
                };
                self.is_due(24);
            }
            Wrong::ServerKind | Wrong::AddressKind | Wrong::SourceKind => {
                self.other_element(random, wrong);
            }
            Wrong::Depth => self.too_deep(random),
            Wrong::NoServer | Wrong::ManyServers => self.other_count(random, wrong),
            Wrong::ManyAddresses => self.more_addresses(random),
            _ => self.spoil_member(random, wrong),
        }
    }

    /// An element of a list that is none of its kind.
    fn other_element(&mut self, random: &mut Xorshift, wrong: Wrong) {
        let place = random.below(self.listed.servers.len());
        let list = match wrong {
            Wrong::ServerKind => self.known(Spot::Whole, Member::Servers),
            Wrong::AddressKind => self.known(Spot::Server(place), Member::Addresses),
            _ => self.known(Spot::Whole, Member::Sources),
        };
        let Some(list) = list.and_then(values) else { return };
        let node = match random.below(4) {
            0 => raw(word(random, NUMBERS)),
            1 => raw(random.pick(&["null", "true"])),
            2 => Node::List(list.first().cloned().into_iter().collect()),
            _ if wrong == Wrong::SourceKind => Node::Object(vec![]),
            _ => name("a.example:2002"),
        };
        match list.len() {
            count @ 1.. if random.once_in(2) => list[random.below(count)] = node,
            _ => insert(random, list, node),
        }
        self.is_due(24);
    }

    /// A value that nests one too many, or more, in a member that nothing is meant by.
    fn too_deep(&mut self, random: &mut Xorshift) {
        let (spot, more) = (self.spot(random), random.pick(&[1, 1, 1, 2, 5, 100]));
        let node = deep(random, left(spot) + more);
        if self.add(random, spot, node) {
            self.is_due(24);
        }
    }

    /// Values that just reach the depth of 16.
    pub fn as_deep_as_may_be(&mut self, random: &mut Xorshift) {
        for spot in [Spot::Whole, self.spot(random)] {
            let node = deep(random, left(spot));
            self.add(random, spot, node);
        }
    }

    /// Puts a member among those of an object that nothing is meant by.
    fn add(&mut self, random: &mut Xorshift, spot: Spot, node: Node) -> bool {
        let known = unknown(random);
        let Some(members) = self.members(spot) else { return false };
        insert(random, members, (known, node));
        true
    }

    fn other_count(&mut self, random: &mut Xorshift, wrong: Wrong) {
        if wrong == Wrong::NoServer && self.code.is_some() {
            return;
        }
        let count = random.pick(&[65, 65, 65, 66, 70, 130]);
        let more = server_node(&Server { addresses: vec![], ..server(random) });
        let Some(servers) = self.known(Spot::Whole, Member::Servers).and_then(values) else {
            return;
        };
        match wrong {
            Wrong::NoServer => servers.clear(),
            _ => servers.resize(count, more),
        }
        self.is_due(25);
    }

    fn more_addresses(&mut self, random: &mut Xorshift) {
        let (Spot::Server(place) | Spot::Address(place, _)) = self.spot(random) else { return };
        let count = random.pick(&[9, 9, 9, 10, 30]);
        let more = address_node(&Address { tcp: false, text: words::address(random).into_bytes() });
        let addresses = self.known(Spot::Server(place), Member::Addresses).and_then(values);
        let Some(addresses) = addresses else { return };
        addresses.resize(count, more);
        self.is_due(25);
    }

    /// A member that can have this fault and has none yet.
    fn needed(&self, random: &mut Xorshift, wrong: Wrong) -> Option<(Spot, Member)> {
        let spot = self.spot(random);
        let members: &[Member] = match (wrong, spot) {
            (Wrong::Missing, Spot::Whole) => &[Member::Servers],
            (Wrong::Missing | Wrong::Repeated | Wrong::Kind, _) => members_of(spot),
            (Wrong::Url, _) | (Wrong::Surrogate, Spot::Whole) => {
                return Some((Spot::Whole, random.pick(&[Member::Sources, Member::Reports])));
            }
            (Wrong::Surrogate, Spot::Server(_)) => &[Member::Name],
            (Wrong::Surrogate | Wrong::Address, Spot::Address(..)) => &[Member::Address],
            (Wrong::Integer, Spot::Server(_)) => &[Member::Version],
            (Wrong::Base64, Spot::Server(_)) => &[Member::PublicKey],
            (Wrong::Protocol, Spot::Address(..)) => &[Member::Protocol],
            _ => return None,
        };
        let member = random.pick(members);
        (!self.spoiled.contains(&(spot, member))).then_some((spot, member))
    }

    fn spoil_member(&mut self, random: &mut Xorshift, wrong: Wrong) {
        // Another object is taken where this one has no such member.
        let found = (0..20).find_map(|_| self.needed(random, wrong));
        let Some((spot, member)) = found.filter(|found| !self.spoiled.contains(found)) else {
            return;
        };
        let sought = name(member.name());
        let other = unknown(random);
        let Some(members) = self.members(spot) else { return };
        let Some(at) = members.iter().position(|(known, _)| *known == sought) else { return };
        match wrong {
            Wrong::Missing if random.once_in(2) => {
                members.remove(at);
            }
            Wrong::Missing => members[at].0 = other,
            Wrong::Repeated => {
                let same = members[at].1.clone();
                let again = if random.once_in(2) { same } else { any_value(random, 2) };
                insert(random, members, (sought, again));
            }
            Wrong::Kind => members[at].1 = other_kind(random, member),
            Wrong::Integer => members[at].1 = raw(word(random, NO_INTEGERS)),
            Wrong::Base64 => members[at].1 = name(word(random, NO_BASE64)),
            Wrong::Protocol if random.once_in(6) => members[at].1 = name(""),
            Wrong::Protocol => members[at].1 = name(word(random, NO_PROTOCOLS)),
            Wrong::Address => members[at].1 = name(&words::no_address(random)),
            _ => {
                let node = wrong_text(random, wrong, member);
                match &mut members[at].1 {
                    Node::List(sources) if sources.is_empty() => sources.push(node),
                    Node::List(sources) => {
                        let place = random.below(sources.len());
                        sources[place] = node;
                    }
                    value => *value = node,
                }
            }
        }
        self.spoiled.push((spot, member));
        self.is_due(24);
    }

    /// Puts what is no value, or no name, in some place of the tree.
    pub fn strew(&mut self, random: &mut Xorshift, node: Node, as_name: bool) {
        let spot = self.spot(random);
        let (value, known) = (leaf(random), unknown(random));
        let member = if as_name { (node, value) } else { (known, node) };
        let place = match self.members(spot) {
            Some(members) => members,
            None => match &mut self.node {
                Node::Object(members) => members,
                _ => return self.node = Node::Object(vec![member]),
            },
        };
        insert(random, place, member);
    }
}

/// A text or a URL with a fault.
fn wrong_text(random: &mut Xorshift, wrong: Wrong, member: Member) -> Node {
    if wrong == Wrong::Url {
        return name(&words::no_url(random));
    }
    let text = match member {
        Member::Name => called(random),
        Member::Address => words::address(random),
        _ => words::url(random),
    };
    halved(random, text.as_bytes())
}

impl Tree {
    /// An address or a URL of the list made of pieces, of which it is for the two sides to say
    /// whether it is one.
    pub fn with_any_words(&mut self, random: &mut Xorshift) {
        let place = random.below(self.listed.servers.len());
        let (address, url) = (words::any_address(random), words::any_url(random));
        if random.once_in(3) {
            let Some(members) = self.members(Spot::Whole) else { return };
            members.retain(|(known, _)| *known != name(Member::Reports.name()));
            return insert(random, members, member(Member::Reports, name(&url)));
        }
        let node = address_node(&Address { tcp: false, text: address.into_bytes() });
        if let Some(list) = self.known(Spot::Server(place), Member::Addresses).and_then(values) {
            list.truncate(7);
            list.push(node);
        }
    }
}

/// Pieces of lists in any order.
pub fn noise(random: &mut Xorshift) -> Vec<u8> {
    const PIECES: [&str; 26] = [
        "{",
        "}",
        "[",
        "]",
        ":",
        ",",
        "\"",
        "\\",
        " ",
        "1",
        "null",
        "\"servers\"",
        "\"servers\":[",
        "\"name\":\"a\"",
        "\"version\":1",
        "\"publicKeyType\":\"ed25519\"",
        "\"publicKey\":\"AAAA\"",
        "\"addresses\":[]",
        "\"addresses\":[{",
        "\"protocol\":\"udp\"",
        "\"address\":\"a:1\"",
        "\"sources\":[]",
        "\"reports\":\"https://a\"",
        "},{",
        "]}",
        "\"\"",
    ];
    let length = random.pick(&[1, 2, 3, 5, 8, 20, 60]);
    let mut text = random.pick(&["", "{\"servers\":[{", "{\"servers\":["]).as_bytes().to_vec();
    text.extend((0..length).flat_map(|_| random.pick(&PIECES).bytes()));
    text
}
