//! Packets that are right, in every shape that the rules allow, and the means to make others.
//!
//! A packet is made in three steps. Its fields say what it means ([`RequestFields`],
//! [`ResponseFields`]). A [`Plan`] has its messages as pairs, and there tags can be added, dropped
//! and changed. Bytes come last, the innermost message first, and each message's bytes can be
//! changed before they go into the message around it.

use super::Xorshift;
use independent::tag::*;
use independent::{message, packet};

pub type Pairs = Vec<(Tag, Vec<u8>)>;

/// The messages of a packet, in the order in which they must be judged. A request has the first
/// alone.
#[derive(Clone, Copy, Debug, PartialEq, Eq, PartialOrd, Ord)]
pub enum Level {
    Outer,
    Srep,
    Cert,
    Dele,
}

pub const LEVELS: [Level; 4] = [Level::Outer, Level::Srep, Level::Cert, Level::Dele];

/// What a packet is meant to be.
#[derive(Clone, Copy, Debug, PartialEq, Eq)]
pub enum Kind {
    Request,
    Response,
}

impl Kind {
    pub fn levels(self) -> &'static [Level] {
        match self {
            Kind::Request => &LEVELS[..1],
            Kind::Response => &LEVELS,
        }
    }

    /// The tags without which a message at this level is refused.
    pub fn needed(self, level: Level) -> &'static [Tag] {
        match (self, level) {
            (Kind::Request, _) => &[VER, NONC, TYPE],
            (_, Level::Outer) => &[SIG, NONC, TYPE, PATH, SREP, CERT, INDX],
            (_, Level::Srep) => &[VER, RADI, MIDP, VERS, ROOT],
            (_, Level::Cert) => &[SIG, DELE],
            (_, Level::Dele) => &[PUBK, MINT, MAXT],
        }
    }

    /// The tags that mean something in a message at this level.
    pub fn known(self, level: Level) -> &'static [Tag] {
        match self {
            Kind::Request => &[VER, SRV, NONC, TYPE],
            Kind::Response => self.needed(level),
        }
    }
}

/// Every tag that means something somewhere.
const NAMED: [Tag; 18] = [
    SIG, VER, SRV, NONC, DELE, TYPE, PATH, RADI, PUBK, MIDP, SREP, VERS, MINT, ROOT, CERT, MAXT,
    INDX, ZZZZ,
];

/// A packet as the pairs of its messages.
#[derive(Clone, Debug)]
pub struct Plan {
    pub kind: Kind,
    /// By level. Where a message holds another, the value is empty here.
    pub messages: [Pairs; 4],
}

impl Plan {
    fn new(kind: Kind, mut messages: [Pairs; 4]) -> Self {
        messages.iter_mut().for_each(|pairs| pairs.sort());
        Plan { kind, messages }
    }

    pub fn pairs(&mut self, level: Level) -> &mut Pairs {
        &mut self.messages[level as usize]
    }

    pub fn has(&self, level: Level, tag: Tag) -> bool {
        self.messages[level as usize].iter().any(|pair| pair.0 == tag)
    }

    /// Gives `tag` another value, where it is there.
    pub fn set(&mut self, level: Level, tag: Tag, value: &[u8]) {
        set(self.pairs(level), tag, value);
    }

    pub fn packet(&self) -> Vec<u8> {
        self.packet_with(|_, _| ())
    }

    /// The packet, where `change` was let at the bytes of each message before they went into the
    /// next.
    pub fn packet_with(&self, mut change: impl FnMut(Level, &mut Vec<u8>)) -> Vec<u8> {
        let mut encoded = |level: Level, inside: &[(Tag, Vec<u8>)]| {
            let mut pairs = self.messages[level as usize].clone();
            inside.iter().for_each(|(tag, value)| set(&mut pairs, *tag, value));
            let mut bytes = message::encode(&pairs);
            change(level, &mut bytes);
            bytes
        };
        let outer = match self.kind {
            Kind::Request => encoded(Level::Outer, &[]),
            Kind::Response => {
                let dele = encoded(Level::Dele, &[]);
                let cert = encoded(Level::Cert, &[(DELE, dele)]);
                let srep = encoded(Level::Srep, &[]);
                encoded(Level::Outer, &[(SREP, srep), (CERT, cert)])
            }
        };
        packet::encode(&outer)
    }
}

fn set(pairs: &mut Pairs, tag: Tag, value: &[u8]) {
    pairs.iter_mut().filter(|pair| pair.0 == tag).for_each(|pair| pair.1 = value.to_vec());
}

/// The bytes of a list of versions.
pub fn list(versions: &[u32]) -> Vec<u8> {
    versions.iter().flat_map(|version| version.to_le_bytes()).collect()
}

/// What a request says.
#[derive(Clone, Debug)]
pub struct RequestFields {
    pub versions: Vec<u32>,
    pub srv: Option<[u8; 32]>,
    pub nonc: [u8; 32],
    /// The number at TYPE.
    pub type_number: u32,
    /// Pairs with other tags.
    pub others: Pairs,
}

impl RequestFields {
    /// A good request.
    pub fn random(random: &mut Xorshift) -> Self {
        let versions = versions(random);
        let srv = (!random.once_in(3)).then(|| random.array());
        let nonc = random.array();
        let room = if random.once_in(2) { 4 } else { 28 };
        let others = others(random, Kind::Request.known(Level::Outer), room);
        let mut request = RequestFields { versions, srv, nonc, type_number: 0, others };
        request.trim();
        if random.once_in(2) {
            let size = 4 * random.below(500);
            request.pad(random.pick(&[1036, packet::MOST, size]));
        }
        request
    }

    /// Adds ZZZZ so that the packet has `size` bytes, where it is shorter and there is room for
    /// another tag.
    pub fn pad(&mut self, size: usize) {
        let plan = self.plan();
        let padded = plan.packet().len() + 8;
        if padded <= size && plan.messages[0].len() < 32 && !plan.has(Level::Outer, ZZZZ) {
            self.others.push((ZZZZ, vec![0; size - padded]));
        }
    }

    /// Drops other tags until the packet is no longer than it may be.
    pub fn trim(&mut self) {
        while self.packet().len() > packet::MOST {
            self.others.pop();
        }
    }

    pub fn plan(&self) -> Plan {
        let mut pairs = self.others.clone();
        pairs.push((VER, list(&self.versions)));
        pairs.extend(self.srv.map(|srv| (SRV, srv.to_vec())));
        pairs.push((NONC, self.nonc.to_vec()));
        pairs.push((TYPE, self.type_number.to_le_bytes().to_vec()));
        Plan::new(Kind::Request, [pairs, vec![], vec![], vec![]])
    }

    pub fn packet(&self) -> Vec<u8> {
        self.plan().packet()
    }
}

/// What a response says.
#[derive(Clone, Debug)]
pub struct ResponseFields {
    pub sig: Vec<u8>,
    pub nonc: [u8; 32],
    /// The number at TYPE.
    pub type_number: u32,
    pub path: Vec<[u8; 32]>,
    pub indx: u32,
    /// The number at VER in SREP.
    pub version: u32,
    pub radi: u32,
    pub midp: u64,
    /// The list at VERS.
    pub versions: Vec<u32>,
    pub root: [u8; 32],
    pub cert_sig: Vec<u8>,
    pub pubk: [u8; 32],
    pub mint: u64,
    pub maxt: u64,
    /// Pairs with other tags, by level.
    pub others: [Pairs; 4],
}

impl ResponseFields {
    /// A good response. It answers no request, and nobody signed it.
    pub fn random(random: &mut Xorshift) -> Self {
        let rich = random.pick(&LEVELS);
        let mut response = ResponseFields {
            sig: random.bytes(64),
            nonc: random.array(),
            type_number: 1,
            path: (0..random.below(33)).map(|_| random.array()).collect(),
            indx: number(random) as u32,
            version: 1,
            radi: radius(random),
            midp: number(random),
            versions: versions(random),
            root: random.array(),
            cert_sig: random.bytes(64),
            pubk: random.array(),
            mint: number(random),
            maxt: number(random),
            others: LEVELS.map(|level| {
                let known = Kind::Response.known(level);
                let room = if level == rich { 32 - known.len() } else { 2 * random.below(2) };
                others(random, known, room)
            }),
        };
        response.trim();
        response
    }

    /// Drops other tags until the packet is no longer than it may be.
    pub fn trim(&mut self) {
        while self.packet().len() > packet::MOST {
            let longest =
                self.others.iter_mut().max_by_key(|pairs| pairs.len()).expect("there are four");
            longest.pop();
        }
    }

    pub fn plan(&self) -> Plan {
        let number = |n: u32| n.to_le_bytes().to_vec();
        let time = |n: u64| n.to_le_bytes().to_vec();
        let [mut outer, mut srep, mut cert, mut dele] = self.others.clone();
        outer.extend([
            (SIG, self.sig.clone()),
            (NONC, self.nonc.to_vec()),
            (TYPE, number(self.type_number)),
        ]);
        outer.extend([
            (PATH, self.path.concat()),
            (SREP, vec![]),
            (CERT, vec![]),
            (INDX, number(self.indx)),
        ]);
        srep.extend([
            (VER, number(self.version)),
            (RADI, number(self.radi)),
            (MIDP, time(self.midp)),
        ]);
        srep.extend([(VERS, list(&self.versions)), (ROOT, self.root.to_vec())]);
        cert.extend([(SIG, self.cert_sig.clone()), (DELE, vec![])]);
        dele.extend([(PUBK, self.pubk.to_vec()), (MINT, time(self.mint)), (MAXT, time(self.maxt))]);
        Plan::new(Kind::Response, [outer, srep, cert, dele])
    }

    pub fn packet(&self) -> Vec<u8> {
        self.plan().packet()
    }
}

/// Good packets of both kinds: `each` requests, then `each` responses.
pub fn samples(random: &mut Xorshift, each: usize) -> Vec<Plan> {
    let requests: Vec<Plan> = (0..each).map(|_| RequestFields::random(random).plan()).collect();
    let responses = (0..each).map(|_| ResponseFields::random(random).plan());
    requests.into_iter().chain(responses).collect()
}

/// A number of any size: small ones, the largest and all in between are equally likely to be met.
pub fn number(random: &mut Xorshift) -> u64 {
    let bits = random.below(65) as u32;
    random.next().checked_shr(bits).unwrap_or(0)
}

/// A radius of any size but 0.
pub fn radius(random: &mut Xorshift) -> u32 {
    1.max(number(random) as u32)
}

/// The versions that a client or a server knows: 1 is among them.
fn versions(random: &mut Xorshift) -> Vec<u32> {
    let mut versions = rising(random);
    versions[0] = 1;
    if versions.len() < 32 && random.once_in(4) {
        versions.insert(0, 0);
    }
    versions
}

/// Versions around the one that is right, few or as many as there may be; 1 need not be among them.
pub fn versions_near(random: &mut Xorshift) -> Vec<u32> {
    let few: [&[u32]; 5] = [&[1], &[1, 2], &[2], &[0, 1], &[1, 0x8000_000c]];
    if random.once_in(6) {
        let least = random.below(3) as u32;
        (least..least + 32).collect()
    } else {
        random.pick(&few).to_vec()
    }
}

/// Whether a client and a server both know a version that is larger than 1, which is the one that
/// every good response chose.
pub fn know_better(client: &[u32], server: &[u32]) -> bool {
    server.iter().any(|version| *version > 1 && client.contains(version))
}

/// 1 to 32 versions, rising, and all above 1.
fn rising(random: &mut Xorshift) -> Vec<u32> {
    let count = 1 + random.below(32);
    let mut versions: Vec<u32> = Vec::new();
    while versions.len() < count {
        let (small, any) = (2 + random.below(60) as u32, random.next() as u32 | 2);
        let version = random.pick(&[small, any, 0x8000_000c]);
        if !versions.contains(&version) {
            versions.push(version);
        }
    }
    versions.sort_unstable();
    versions
}

/// Up to `most` pairs with tags that are not `known`, each once; every third value is empty.
fn others(random: &mut Xorshift, known: &[Tag], most: usize) -> Pairs {
    let count = random.below(most + 1);
    let mut pairs = Pairs::new();
    while pairs.len() < count {
        let tag = unknown_tag(random, known);
        if !pairs.iter().any(|pair| pair.0 == tag) {
            let words = if random.once_in(3) { 0 } else { random.below(9) };
            pairs.push((tag, random.bytes(4 * words)));
        }
    }
    pairs
}

/// A tag that is not `known`, though it may mean something in another message, or stand right
/// beside a known one.
fn unknown_tag(random: &mut Xorshift, known: &[Tag]) -> Tag {
    loop {
        let any = random.next() as u32;
        let beside = random.pick(known);
        let tags = [any, letters(random), random.pick(&NAMED), beside - 1, beside + 1, 0, u32::MAX];
        let tag = random.pick(&tags);
        if !known.contains(&tag) {
            return tag;
        }
    }
}

/// A tag as the draft has them: one to four capital letters, then zeros.
fn letters(random: &mut Xorshift) -> Tag {
    let count = 1 + random.below(4);
    let letter = |i| if i < count { b'A' + random.below(26) as u8 } else { 0 };
    let bytes: Vec<u8> = (0..4).map(letter).collect();
    named(&bytes.try_into().expect("four were made"))
}
