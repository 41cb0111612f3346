//! The table of exports: the name of each, the stack that it may take, what it may answer, and how
//! it is called on a case. A test holds the names to those of the header.
//!
//! Why the calls are sound, in whichever file they stand: each pointer leads to a copy that is lent
//! to this call alone, of as many bytes as the length or the array beside it says.

use crate::any_trial::Trial;
use crate::{any_batches, any_clocks, any_hashes, any_header, any_lists, any_packets, any_piles};
use crate::{any_servers, any_signing, any_texts, any_walks};
use std::collections::BTreeSet;

/// Which stack the header says is enough. For those of which it says nothing, the least that it
/// says of any but those that sign is taken.
#[derive(Clone, Copy)]
pub enum Stack {
    Least,
    Tree,
    Verify,
    Sign,
    Batch,
    Text,
}

impl Stack {
    pub fn bytes(self) -> usize {
        any_header::number(match self {
            Stack::Tree => "TB_TREE_STACK",
            Stack::Least | Stack::Verify => "TB_VERIFY_STACK",
            Stack::Sign => "TB_SIGN_STACK",
            Stack::Batch => "TB_BATCH_STACK",
            Stack::Text => "TB_TEXT_STACK",
        })
    }
}

pub struct Export {
    pub name: &'static str,
    pub stack: Stack,
    /// How many cases there are of it in a run of the usual length: the fewer, the longer a call
    /// takes.
    pub cases: usize,
    /// The codes that the header names for it, 0 too; yes and no are 1 and 0. The kept run meets
    /// each of them.
    says: &'static [Codes],
    pub call: fn(&mut Trial),
}

/// From the first of these codes to the last.
pub type Codes = (u32, u32);

pub const fn export(
    name: &'static str,
    stack: Stack,
    cases: usize,
    says: &'static [Codes],
    call: fn(&mut Trial),
) -> Export {
    Export { name, stack, cases, says, call }
}

impl Export {
    pub fn answers(&self) -> BTreeSet<u32> {
        self.says.iter().flat_map(|(first, last)| *first..=*last).collect()
    }
}

/// Of an export that cannot fail and answers nothing, or yes or no.
pub const NOTHING: &[Codes] = &[(0, 0)];
pub const YES_OR_NO: &[Codes] = &[(0, 1)];

pub fn all() -> impl Iterator<Item = &'static Export> {
    let files = [
        any_hashes::EXPORTS,
        any_packets::EXPORTS,
        any_signing::EXPORTS,
        any_servers::EXPORTS,
        any_lists::EXPORTS,
        any_batches::EXPORTS,
        any_piles::EXPORTS,
        any_texts::EXPORTS,
        any_walks::EXPORTS,
        any_clocks::EXPORTS,
    ];
    files.into_iter().flatten()
}
