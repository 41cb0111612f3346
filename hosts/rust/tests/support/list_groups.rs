//! The groups of texts by which readers of lists of servers are compared.

use super::json_values::Style;
use super::list_parts::Owned;
use super::list_trees::{self as trees, Due, Text, Tree, Wrong, WRONG_SIZE, WRONG_TEXT};
use super::no_json::{self, NoJson, NO_JSON};
use super::Xorshift;
use independent::list_writing;

/// A group: what it is, how many texts of 100,000 it has, and what makes one.
pub type Group = (&'static str, usize, fn(&mut Xorshift) -> Text);

pub const GROUPS: [Group; 10] = [
    ("as they are written", 4_000, as_written),
    ("in every form that is allowed", 18_000, rich),
    ("nested 16 deep", 3_000, deepest),
    ("no list, by one fault", 32_000, wrong_text),
    ("with no server, too many, or too many addresses", 5_000, wrong_size),
    ("with several faults", 5_000, several),
    ("with an address or a URL made of pieces", 12_000, any_words),
    ("no JSON, by one fault", 9_000, not_json),
    ("with some bytes changed, added, left out or moved", 9_000, damaged),
    ("of pieces of lists", 3_000, noise),
];

fn styled(random: &mut Xorshift, tree: &Tree) -> Text {
    let style = Style::random(random);
    tree.text(random, style)
}

/// As the independent side writes them. Versions and keys of another kind are not written.
fn as_written(random: &mut Xorshift) -> Text {
    let mut listed = trees::listed(random);
    for server in &mut listed.servers {
        server.key_type = b"ed25519".to_vec();
        server.key.resize(32, 7);
        let version = String::from_utf8_lossy(&server.version).parse().unwrap_or(1_u32);
        server.version = version.to_string().into_bytes();
    }
    let parts = Owned::of(&listed);
    let bytes = list_writing::list_of(&parts.lent()).expect("it is a list");
    Text { bytes, due: Due::List(listed) }
}

fn rich(random: &mut Xorshift) -> Text {
    let tree = Tree::rich(random);
    styled(random, &tree)
}

fn deepest(random: &mut Xorshift) -> Text {
    let mut tree = Tree::rich(random);
    tree.as_deep_as_may_be(random);
    styled(random, &tree)
}

fn wrong(random: &mut Xorshift, faults: &[Wrong], count: usize) -> Text {
    let mut tree = Tree::rich(random);
    for _ in 0..count {
        let fault = random.pick(faults);
        tree.spoil(random, fault);
    }
    styled(random, &tree)
}

fn wrong_text(random: &mut Xorshift) -> Text {
    wrong(random, &WRONG_TEXT, 1)
}

fn wrong_size(random: &mut Xorshift) -> Text {
    wrong(random, &WRONG_SIZE, 1)
}

/// 24 counts, wherever it stands.
fn several(random: &mut Xorshift) -> Text {
    let count = 2 + random.below(3);
    wrong(random, &[&WRONG_SIZE[..], &WRONG_TEXT, &WRONG_SIZE].concat(), count)
}

fn any_words(random: &mut Xorshift) -> Text {
    let mut tree = Tree::rich(random);
    tree.with_any_words(random);
    let text = styled(random, &tree);
    Text { due: Due::Unknown, ..text }
}

fn not_json(random: &mut Xorshift) -> Text {
    let mut tree = Tree::rich(random);
    let fault = random.pick(&NO_JSON);
    if let Some(node) = no_json::no_value(random, fault) {
        tree.strew(random, node, fault == NoJson::Name);
    }
    let Text { bytes, .. } = styled(random, &tree);
    Text { bytes: no_json::broken(random, fault, bytes), due: Due::Code(24) }
}

fn damaged(random: &mut Xorshift) -> Text {
    let Text { bytes, .. } = if random.once_in(3) { as_written(random) } else { rich(random) };
    Text { bytes: no_json::altered(random, bytes), due: Due::Unknown }
}

fn noise(random: &mut Xorshift) -> Text {
    let bytes = match random.below(10) {
        0 => no_json::nested(random),
        1 => random.bytes(20),
        _ => trees::noise(random),
    };
    Text { bytes, due: Due::Unknown }
}
