//! Packets right and wrong, read by the proved library and by the independent implementation: every
//! code and every field must be the same.
//!
//! Each packet goes through both readers, both writers of signed texts and the taker of what is
//! verified, whatever it is meant to be. Where the damage that was done to a packet is known, so is
//! the code that is due, and then both sides are held to it as well.

mod support;

use independent::tag::{CERT, DELE, PATH, SREP};
use independent::{packet, place};
use std::collections::{BTreeMap, BTreeSet};
use support::damage::{self, set_word, Damaged};
use support::packets::LEVELS;
use support::packets::{samples, versions_near, Kind, Level, Plan, RequestFields, ResponseFields};
use support::tally::Tally;
use support::{answers, counted, hex, Xorshift};

const REQUESTS: &str = "requests";
const RESPONSES: &str = "responses";
const DELEGATIONS: &str = "delegation texts";
const TEXTS: &str = "response texts";
const PARTS: &str = "signed parts";
/// Requests read as responses, and responses as requests.
const CROSSED: &str = "crossed";

/// The messages of a response.
const PLACES: [&str; 4] = ["outermost", "SREP", "CERT", "DELE"];

const KINDS: [place::Kind; 5] = [
    place::Kind::Request,
    place::Kind::Root,
    place::Kind::Srep,
    place::Kind::Cert,
    place::Kind::Dele,
];

/// Of these the first six are code 4, and the others 5, 6 and 7.
const CAUSES: [place::Cause; 11] = [
    place::Cause::Length,
    place::Cause::Count,
    place::Cause::Header,
    place::Cause::Uneven,
    place::Cause::Falling,
    place::Cause::Outside,
    place::Cause::Order,
    place::Cause::Absent,
    place::Cause::Size,
    place::Cause::List,
    place::Cause::Radius,
];

/// The longest text that a packet can hold fits.
const BUFFER: [u8; packet::MOST + 40] = [0xa5; packet::MOST + 40];

/// What was compared.
struct Comparison {
    tally: Tally,
    packets: usize,
    /// How often the independent side found each message bad for each cause.
    causes: BTreeMap<(place::Kind, place::Cause), usize>,
}

impl Comparison {
    /// Compares all that both sides say of `packet`. `due` is the code that the reader of its kind
    /// must give, or both readers where it has none.
    fn packet(&mut self, packet: &[u8], kind: Option<Kind>, due: Option<u32>) {
        self.packets += 1;
        let found = match kind {
            Some(Kind::Request) => place::in_request(packet),
            _ => place::in_response(packet),
        };
        if let Some(found) = found {
            *self.causes.entry((found.kind, found.cause)).or_insert(0) += 1;
        }
        let tally = &mut self.tally;
        let input = || hex(packet);
        let (requests, due_request) = match kind {
            Some(Kind::Response) => (CROSSED, None),
            _ => (REQUESTS, due),
        };
        tally.answer(requests, &answers::read_request(packet), due_request, input);
        let (responses, delegations, texts, parts, due_response) = match kind {
            Some(Kind::Request) => (CROSSED, CROSSED, CROSSED, CROSSED, None),
            _ => (RESPONSES, DELEGATIONS, TEXTS, PARTS, due),
        };
        tally.answer(responses, &answers::read_response(packet), due_response, input);
        // TYPE and the version stop neither a text nor the parts.
        let due_text = due_response.map(|code| if code == 8 { 0 } else { code });
        tally.answer(delegations, &answers::delegation_text(packet, &BUFFER), due_text, input);
        tally.answer(texts, &answers::response_text(packet, &BUFFER), due_text, input);
        tally.answer(parts, &answers::signed_parts(packet), due_text, input);
        if let Some(wrong) = answers::unseen_fields(packet) {
            tally.differs(format!("{wrong}\n  for {}", hex(packet)));
        }
    }

    fn count(&self, kind: place::Kind, cause: place::Cause) -> usize {
        self.causes.get(&(kind, cause)).copied().unwrap_or(0)
    }

    fn print_causes(&self) {
        println!("how often each message was bad for each cause, its place compared:");
        for kind in KINDS {
            let causes = CAUSES.into_iter().filter(|cause| can_be(kind, *cause));
            let counts: Vec<String> =
                causes.map(|cause| format!("{cause:?} {}", self.count(kind, cause))).collect();
            println!("  {kind:?}: {}", counts.join(", "));
        }
    }
}

/// Lists of versions stand in requests and in SREP alone, and RADI in SREP.
fn can_be(kind: place::Kind, cause: place::Cause) -> bool {
    match cause {
        place::Cause::List => matches!(kind, place::Kind::Request | place::Kind::Srep),
        place::Cause::Radius => kind == place::Kind::Srep,
        _ => true,
    }
}

/// The shapes of good packets that were met: each must be, lest the generator leave some out.
#[derive(Default)]
struct Shapes {
    /// By message, and those of requests last.
    pairs: [BTreeSet<usize>; 5],
    /// Those of requests and of responses.
    versions: [BTreeSet<usize>; 2],
    siblings: BTreeSet<usize>,
    sizes: BTreeSet<usize>,
}

impl Shapes {
    fn check(&self) {
        let all = |from: usize, to: usize| (from..=to).collect::<BTreeSet<usize>>();
        for (pairs, fewest) in self.pairs.iter().zip([7, 5, 2, 3, 3]) {
            assert_eq!(*pairs, all(fewest, 32), "numbers of pairs");
        }
        for versions in &self.versions {
            assert_eq!(*versions, all(1, 32), "numbers of versions");
        }
        assert_eq!(self.siblings, all(0, 32), "numbers of siblings");
        assert!(self.sizes.contains(&packet::MOST), "no packet had the largest size");
    }
}

/// Good requests. What was put in is what must come out: here the generator is a third opinion.
fn good_requests(seen: &mut Comparison, shapes: &mut Shapes) {
    let mut random = Xorshift::new(0x5eed_0101);
    for _ in 0..20_000 {
        let request = RequestFields::random(&mut random);
        let packet = request.packet();
        seen.packet(&packet, Some(Kind::Request), Some(0));
        let read = trawlbeacon::read_request(&packet);
        if read != Ok(trawlbeacon::Request { nonc: request.nonc, srv: request.srv }) {
            seen.tally.differs(format!("{read:?} was read of {request:?}"));
        }
        shapes.pairs[4].insert(request.plan().messages[0].len());
        shapes.versions[0].insert(request.versions.len());
        shapes.sizes.insert(packet.len());
    }
}

/// Good responses, in the same way.
fn good_responses(seen: &mut Comparison, shapes: &mut Shapes) {
    let mut random = Xorshift::new(0x5eed_0102);
    for _ in 0..25_000 {
        let response = ResponseFields::random(&mut random);
        let packet = response.packet();
        seen.packet(&packet, Some(Kind::Response), Some(0));
        let read = trawlbeacon::read_response(&packet);
        let ResponseFields { nonc, indx, midp, radi, root, .. } = response;
        if read != Ok(trawlbeacon::Response { nonc, indx, midp, radi, root }) {
            seen.tally.differs(format!("{read:?} was read of {response:?}"));
        }
        let parts = trawlbeacon::signed_parts(&packet);
        let taken =
            parts.map(|parts| [&parts.signature, &parts.delegation, &parts.pubk[..]].concat());
        if taken != Ok([&response.sig[..], &response.cert_sig, &response.pubk].concat()) {
            seen.tally.differs(format!("{parts:?} were taken out of {response:?}"));
        }
        for (pairs, message) in shapes.pairs.iter_mut().zip(&response.plan().messages) {
            pairs.insert(message.len());
        }
        shapes.versions[1].insert(response.versions.len());
        shapes.siblings.insert(response.path.len());
        shapes.sizes.insert(packet.len());
    }
}

fn good_packets(seen: &mut Comparison) {
    let mut shapes = Shapes::default();
    good_requests(seen, &mut shapes);
    good_responses(seen, &mut shapes);
    shapes.check();
}

/// Versions around the one that is right, and radii at their ends.
fn near_versions(seen: &mut Comparison) {
    let mut random = Xorshift::new(0x5eed_0110);
    for _ in 0..6_000 {
        let mut request = RequestFields::random(&mut random);
        request.versions = versions_near(&mut random);
        request.trim();
        let due = if request.versions.contains(&1) { 0 } else { 8 };
        seen.packet(&request.packet(), Some(Kind::Request), Some(due));
        let mut response = ResponseFields::random(&mut random);
        response.versions = versions_near(&mut random);
        response.radi = random.pick(&[0, 1, u32::MAX]);
        response.trim();
        let due = match &response {
            ResponseFields { radi: 0, .. } => 7,
            ResponseFields { versions, .. } if !versions.contains(&1) => 8,
            _ => 0,
        };
        seen.packet(&response.packet(), Some(Kind::Response), Some(due));
    }
}

/// Up to six damages to a packet. Returns how often each code was due to each message.
fn damaged_packets(seen: &mut Comparison) -> Tally {
    let mut random = Xorshift::new(0x5eed_0103);
    let mut places = Tally::new(&PLACES);
    for i in 0..135_000 {
        let plan = match i % 3 {
            0 => RequestFields::random(&mut random).plan(),
            _ => ResponseFields::random(&mut random).plan(),
        };
        let kind = plan.kind;
        let Damaged { packet, done } = damage::damaged(&mut random, plan);
        seen.packet(&packet, Some(kind), Some(damage::first_code(&done)));
        if let (Kind::Response, Some((level, code @ 4..=7))) = (kind, damage::first(&done)) {
            places.count(PLACES[level as usize], code);
        }
    }
    places
}

/// Any of a message's pairs without the others, down to none.
fn fewer_pairs(seen: &mut Comparison) {
    let mut random = Xorshift::new(0x5eed_0104);
    for _ in 0..3_000 {
        for mut plan in samples(&mut random, 1) {
            let level = random.pick(plan.kind.levels());
            let kept = 1 + random.below(4);
            plan.pairs(level).retain(|_| random.below(5) < kept);
            let needed = plan.kind.needed(level);
            let due = match plan.pairs(level).len() {
                0 => 4,
                _ if needed.iter().any(|tag| !plan.has(level, *tag)) => 6,
                _ => 0,
            };
            seen.packet(&plan.packet(), Some(plan.kind), Some(due));
        }
    }
}

/// Good pairs and nothing wrong with the frame, but around the most pairs that a message may have.
fn more_pairs(seen: &mut Comparison) {
    let mut random = Xorshift::new(0x5eed_010d);
    for pairs in (28..=40).chain([64]) {
        for mut plan in samples(&mut random, 25) {
            plan.set(Level::Outer, PATH, &[]);
            let level = random.pick(plan.kind.levels());
            for other in LEVELS {
                let known = plan.kind.known(other);
                plan.pairs(other).retain(|pair| known.contains(&pair.0));
            }
            let have = plan.pairs(level).len() as u32;
            plan.pairs(level).extend((have..pairs).map(|i| (u32::MAX - 64 + i, vec![])));
            seen.packet(&plan.packet(), Some(plan.kind), Some(if pairs <= 32 { 0 } else { 4 }));
        }
    }
}

/// Numbers that sit at the edge of something: of a word, of a message, of 32 bits, and of 8 N in 32
/// bits.
#[rustfmt::skip]
const EDGES: [u32; 22] = [
    0, 1, 2, 3, 4, 5, 8, 31, 32, 33, 64, 128, 1024, 2000, 0x2000_0001, 0x2000_0002,
    0x7fff_fffc, 0x8000_0000, 0x8000_0004, 0xffff_fff8, 0xffff_fffc, u32::MAX,
];

/// Those, and the neighbours of what a word is.
fn other_words(word: u32) -> Vec<u32> {
    let near =
        [word.wrapping_sub(4), word.wrapping_sub(1), word.wrapping_add(1), word.wrapping_add(4)];
    let turned = [word ^ 1 << 31, word.swap_bytes()];
    let all = EDGES.into_iter().chain(near).chain(turned);
    all.filter(|other| *other != word).collect()
}

/// Each word of each message's header in turn, changed.
fn header_words(seen: &mut Comparison) {
    let mut random = Xorshift::new(0x5eed_0105);
    for plan in samples(&mut random, 12) {
        for level in plan.kind.levels() {
            let mut bytes = Vec::new();
            plan.packet_with(|here, message| {
                if here == *level {
                    bytes = message.clone();
                }
            });
            for at in 0..2 * plan.messages[*level as usize].len() {
                for word in other_words(damage::word(&bytes, at)) {
                    let packet = plan.packet_with(|here, message| {
                        if here == *level {
                            set_word(message, at, word);
                        }
                    });
                    seen.packet(&packet, Some(plan.kind), None);
                }
            }
        }
    }
}

/// Each byte of the mark changed to every other, and the length field changed.
fn packet_headers(seen: &mut Comparison) {
    let mut random = Xorshift::new(0x5eed_010e);
    for plan in samples(&mut random, 1) {
        let right = plan.packet();
        for at in 0..packet::MARK.len() {
            for change in 1..=255 {
                let mut packet = right.clone();
                packet[at] ^= change;
                seen.packet(&packet, Some(plan.kind), Some(2));
            }
        }
    }
    for plan in samples(&mut random, 50) {
        let right = plan.packet();
        for length in other_words(right.len() as u32 - 12).into_iter().chain([right.len() as u32]) {
            let mut packet = right.clone();
            set_word(&mut packet, 2, length);
            seen.packet(&packet, Some(plan.kind), Some(3));
        }
    }
}

/// Each field in turn: absent, and with every length, of bytes that mean nothing.
fn each_field(seen: &mut Comparison) {
    let mut random = Xorshift::new(0x5eed_010f);
    for plan in samples(&mut random, 4) {
        for level in plan.kind.levels() {
            for tag in plan.kind.known(*level) {
                let mut without = plan.clone();
                without.pairs(*level).retain(|pair| pair.0 != *tag);
                let due = if plan.kind.needed(*level).contains(tag) { 6 } else { 0 };
                seen.packet(&without.packet(), Some(plan.kind), Some(due));
                // A nested message is cut to every length elsewhere.
                let lengths = if [SREP, CERT, DELE].contains(tag) { 0 } else { 140 };
                for length in 0..lengths {
                    let mut other = plan.clone();
                    other.set(*level, *tag, &random.bytes(length));
                    seen.packet(&other.packet(), Some(plan.kind), None);
                }
            }
        }
    }
}

/// Two neighbouring offsets made equal, so that one value is empty and the next has the bytes of
/// both.
fn equal_offsets(seen: &mut Comparison) {
    let mut random = Xorshift::new(0x5eed_0106);
    for plan in samples(&mut random, 300) {
        for level in plan.kind.levels() {
            for at in 1..plan.messages[*level as usize].len() {
                let packet = plan.packet_with(|here, bytes| {
                    if here == *level {
                        let before = if at == 1 { 0 } else { damage::word(bytes, at - 1) };
                        set_word(bytes, at, before);
                    }
                });
                seen.packet(&packet, Some(plan.kind), None);
            }
        }
    }
}

/// Each packet cut at every length, with the length field that it had and with the right one, and
/// each nested message cut at every length.
fn cut_short(seen: &mut Comparison) {
    let mut random = Xorshift::new(0x5eed_0107);
    for plan in samples(&mut random, 4) {
        let (kind, whole) = (Some(plan.kind), plan.packet());
        for length in 0..whole.len() {
            let due = if length < packet::HEADER { 1 } else { 3 };
            seen.packet(&whole[..length], kind, Some(due));
            if length >= packet::HEADER {
                // At a whole number of words a pair may still be what it was, if nothing but an
                // unknown value was cut.
                let due = if length % 4 == 0 { None } else { Some(4) };
                seen.packet(&packet::encode(&whole[packet::HEADER..length]), kind, due);
            }
        }
        for level in &plan.kind.levels()[1..] {
            cut_nested(seen, &plan, *level);
        }
    }
}

/// A nested message of every length up to some words more than it has.
fn cut_nested(seen: &mut Comparison, plan: &Plan, level: Level) {
    let mut whole = 0;
    plan.packet_with(|here, bytes| whole = if here == level { bytes.len() } else { whole });
    for length in 0..whole + 20 {
        let packet = plan.packet_with(|here, bytes| {
            if here == level {
                bytes.resize(length, 0);
            }
        });
        // Where a nested message has no whole words, neither has the outermost, or one of its
        // offsets.
        let due = if length % 4 == 0 { None } else { Some(4) };
        seen.packet(
            &packet,
            Some(plan.kind),
            if packet.len() > packet::MOST { Some(1) } else { due },
        );
    }
}

/// Every size around the smallest and the largest, with bytes that mean nothing and with a good
/// packet padded to it.
fn sizes(seen: &mut Comparison) {
    let mut random = Xorshift::new(0x5eed_0108);
    for size in (0..=40).chain(1980..=2020).chain([4096, 65_535, 65_536, 1 << 20]) {
        let due = if (12..=packet::MOST).contains(&size) { None } else { Some(1) };
        for bytes in [vec![0; size], vec![0xff; size], random.bytes(size)] {
            seen.packet(&bytes, None, due);
        }
        if size >= packet::HEADER {
            seen.packet(&packet::encode(&vec![0; size - packet::HEADER]), None, due.or(Some(4)));
            padded(seen, &mut random, size);
        }
    }
}

/// A good packet with so many bytes behind it, and counted in its length field, that it has `size`.
fn padded(seen: &mut Comparison, random: &mut Xorshift, size: usize) {
    for mut plan in samples(random, 1) {
        // A path of any length would leave no room for some sizes.
        plan.set(Level::Outer, PATH, &[]);
        let known = plan.kind.known(Level::Outer);
        plan.pairs(Level::Outer).retain(|pair| known.contains(&pair.0));
        let bare = plan.packet().len() + 8;
        if bare <= size {
            plan.pairs(Level::Outer).push((u32::MAX, vec![0; size - bare]));
            let due = match size {
                0..=packet::MOST if size % 4 == 0 => 0,
                0..=packet::MOST => 4,
                _ => 1,
            };
            seen.packet(&plan.packet(), Some(plan.kind), Some(due));
        }
    }
}

/// Every bit of some good packets turned, one at a time; then two at a time, at random.
fn flipped_bits(seen: &mut Comparison) {
    let mut random = Xorshift::new(0x5eed_0109);
    for plan in samples(&mut random, 4) {
        let mut packet = plan.packet();
        for bit in 0..8 * packet.len() {
            packet[bit / 8] ^= 1 << (bit % 8);
            seen.packet(&packet, Some(plan.kind), None);
            packet[bit / 8] ^= 1 << (bit % 8);
        }
    }
    for plan in samples(&mut random, 4_000) {
        let mut packet = plan.packet();
        for _ in 0..2 {
            let at = random.below(packet.len());
            packet[at] ^= 1 << random.below(8);
        }
        seen.packet(&packet, Some(plan.kind), None);
    }
}

/// Some bytes of a good packet overwritten with bytes of another one.
fn spliced(seen: &mut Comparison) {
    let mut random = Xorshift::new(0x5eed_010a);
    for _ in 0..10_000 {
        let plans = samples(&mut random, 1);
        for (plan, other) in [(&plans[0], &plans[1]), (&plans[1], &plans[0])] {
            let (mut packet, other) = (plan.packet(), other.packet());
            let words = packet.len().min(other.len()) / 4 - 3;
            let from = 3 + random.below(words);
            let to = (from + 1 + random.below(8)).min(3 + words);
            packet[4 * from..4 * to].copy_from_slice(&other[4 * from..4 * to]);
            seen.packet(&packet, Some(plan.kind), None);
        }
    }
}

/// Bytes that nobody meant anything by: alone, behind a right header, and behind a right header and
/// a likely number of pairs.
fn random_bytes(seen: &mut Comparison) {
    let mut random = Xorshift::new(0x5eed_010b);
    for _ in 0..10_000 {
        let size = random.below(packet::MOST + 20);
        seen.packet(&random.bytes(size), None, None);
        let size = random.below(packet::MOST - packet::HEADER + 1);
        let mut message = random.bytes(size);
        seen.packet(&packet::encode(&message), None, None);
        if size >= 4 {
            set_word(&mut message, 0, random.below(12) as u32);
            seen.packet(&packet::encode(&message), None, None);
        }
    }
}

/// The library may read words where the bytes allow it, and a packet may start anywhere.
fn unaligned(seen: &mut Comparison) {
    let mut random = Xorshift::new(0x5eed_010c);
    for start in 1..16 {
        for plan in samples(&mut random, 40) {
            let bytes = [vec![0; start], plan.packet()].concat();
            seen.packet(&bytes[start..], Some(plan.kind), Some(0));
        }
    }
}

/// Packets of one sort, and what they are.
type Group = (&'static str, fn(&mut Comparison));

#[test]
fn both_sides_read_alike() {
    let tally = Tally::new(&[REQUESTS, RESPONSES, DELEGATIONS, TEXTS, PARTS, CROSSED]);
    let mut seen = Comparison { tally, packets: 0, causes: BTreeMap::new() };
    let groups: [Group; 14] = [
        ("good, with every number of pairs, of versions and of siblings", good_packets),
        ("with versions around the right one, and radii of 0, 1 and 2^32 - 1", near_versions),
        ("with fewer pairs, down to none", fewer_pairs),
        ("with around 32 pairs, and more", more_pairs),
        ("with each field in turn absent, or of every length", each_field),
        ("with each word of a message's header changed", header_words),
        ("with the mark or the length field changed", packet_headers),
        ("with two equal offsets", equal_offsets),
        ("cut short at every length, and with nested messages cut short", cut_short),
        ("of the smallest and largest sizes", sizes),
        ("with a bit turned, or two", flipped_bits),
        ("with words of another packet", spliced),
        ("of random bytes, also behind a right header", random_bytes),
        ("at unaligned starts", unaligned),
    ];
    for (name, group) in groups {
        let before = seen.packets;
        group(&mut seen);
        println!("{:>8} packets: {name}", seen.packets - before);
    }
    let before = seen.packets;
    let places = damaged_packets(&mut seen);
    println!("{:>8} packets: damaged in up to six places", seen.packets - before);
    println!(
        "{} packets in all, ours compared with independent; how often each code was given:",
        seen.packets
    );
    println!("{}", seen.tally.table("code"));
    println!(
        "the messages of damaged responses that the codes 4 to 7 were due to:\n{}",
        places.table("code")
    );
    seen.print_causes();
    seen.tally.no_difference();
    enough(&seen, &places);
    counted(seen.packets, "packets");
}

/// A comparison that met a code too seldom says little of it.
fn enough(seen: &Comparison, places: &Tally) {
    assert!(seen.packets >= 200_000, "there were {} packets", seen.packets);
    for column in [REQUESTS, RESPONSES] {
        seen.tally.at_least(100, column, 0..=8);
    }
    for column in [DELEGATIONS, TEXTS, PARTS] {
        seen.tally.at_least(100, column, 0..=7);
    }
    for place in PLACES {
        places.at_least(100, place, 4..=7);
    }
    for kind in KINDS {
        for cause in CAUSES.into_iter().filter(|cause| can_be(kind, *cause)) {
            let count = seen.count(kind, cause);
            assert!(count >= 100, "{kind:?} was bad for {cause:?} only {count} times");
        }
    }
}
