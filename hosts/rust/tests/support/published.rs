//! Piles that are to be written as JSON or cut out of it, of which it is known what must be said of
//! them, and their texts.

use super::json_values::Style;
use super::piles::{self, Truth, Wish, BROKEN};
use super::signing::Servers;
use super::texts::Tree;
use super::Xorshift;
use independent::making::Made;
use independent::pile::{self, RECORD};
use independent::report_text::{self, Entry};

/// A window, so close to others of its kind that many contradict each other and many do not.
fn close(random: &mut Xorshift) -> (u64, u32) {
    (1_000 + random.below(60) as u64, 1 + random.below(12) as u32)
}

/// What is wrong with a pile that is to be written or cut, if anything.
#[derive(Clone, Copy, PartialEq)]
pub enum Fault {
    None,
    Record,
    Tie,
    FirstRand,
    Pile,
}

pub const FAULTS: [Fault; 8] = [
    Fault::None,
    Fault::None,
    Fault::None,
    Fault::Record,
    Fault::Record,
    Fault::Tie,
    Fault::FirstRand,
    Fault::Pile,
];

/// A pile, and what must be said of it, but where it is no pile at all. Where there are servers,
/// they sign.
pub fn pile_with(random: &mut Xorshift, fault: Fault, servers: Option<&Servers>) -> (Made, Truth) {
    let most = if servers.is_some() { 6 } else { 10 };
    let count = [1, 2, 2, 3, 3, 4, 5, 8, 12, 16][random.below(most)];
    let rich = random.once_in(3);
    let wish = |random: &mut Xorshift| Wish { rich, ..Wish::good(close(random)) };
    let mut wishes: Vec<Wish> = (0..count).map(|_| wish(random)).collect();
    let at = random.below(count);
    match fault {
        Fault::Record if servers.is_some() => {
            wishes[at].fault(random.pick(&[12, 13, 12, 13, 9, 14]))
        }
        Fault::Record => wishes[at].spoil(random),
        Fault::Tie => wishes[at].tie = random.pick(&BROKEN),
        _ => (),
    }
    let first_rand_zero = fault != Fault::FirstRand;
    let (mut made, truth) = match servers {
        Some(servers) => piles::build_signed(random, &wishes, first_rand_zero, servers),
        None => piles::build(random, &wishes, first_rand_zero),
    };
    if fault == Fault::Pile {
        spoil_answers(random, &mut made);
    }
    (made, truth)
}

/// Makes them none, or the pile none beside them.
fn spoil_answers(random: &mut Xorshift, made: &mut Made) {
    match random.below(4) {
        0 => made.answers[0] = random.pick(&[2, 255]),
        1 => made.answers.push(1),
        2 => made.answers.truncate(made.answers.len() - 1),
        _ => made.pile.truncate(made.pile.len() - 1),
    }
}

/// A text that was written has no blank and no escape, and the records that it was made of.
pub fn same_records(text: &[u8], pile: &[u8]) {
    assert!(text.iter().all(|byte| byte.is_ascii_graphic() && *byte != b'\\'));
    let mut back = vec![0xee; pile.len() + 1];
    assert_eq!(trawlbeacon::read_report(text, &mut back), Ok(pile.len() / RECORD));
    assert!(back[..pile.len()] == *pile && back[pile.len()] == 0xee, "other records are read");
}

/// The entries of a pile, where its records are laid out as they must be.
pub fn entries_of(pile: &[u8]) -> Option<Vec<Entry>> {
    let answered = pile::read(pile, &vec![1; 2 * (pile.len() / RECORD)]).ok()?;
    let entry = |record: pile::Record| {
        let (request, response) = record.packets().ok()?;
        let (key, rand) = (*record.key(), *record.rand());
        Some(Entry { key, rand, request: request.to_vec(), response: response.to_vec() })
    };
    answered.iter().map(|answered| entry(answered.record)).collect()
}

/// The text of these entries, as it is written or in any other form.
pub fn text_of(random: &mut Xorshift, entries: &[Entry]) -> Vec<u8> {
    if random.once_in(2) {
        return report_text::text(entries).into_bytes();
    }
    let mut tree = Tree::plain(entries);
    tree.enrich(random);
    let style = Style::random(random);
    tree.text(random, style).bytes
}
