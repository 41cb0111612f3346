//! The Merkle tree of a batch of requests: its root and its rows, the path of a leaf, and the check
//! of a path.
//!
//! Leaves, siblings and rows are bytes here, one hash of 32 bytes after the other.

// A depth is at most 10, and a length at most that of `out`, so nothing is lost where they become a
// usize.

use crate::raw::{self, size};
use crate::{Hash, Refusal};

/// The most leaves that a tree is built of.
pub const MOST_LEAVES: usize = 1024;

/// Bytes of the rows of the largest tree. A tree of depth d has 2^(d+1) - 1 nodes.
pub const MOST_ROWS_LENGTH: usize = 32 * (2 * MOST_LEAVES - 1);

/// The root of a tree.
#[derive(Clone, Copy, Debug, PartialEq, Eq)]
pub struct Rooted {
    /// How many steps lead from a leaf to the root: the least d with 2^d places for all leaves.
    pub depth: usize,
    /// ROOT.
    pub root: Hash,
}

/// Where a leaf stands.
#[derive(Clone, Copy, Debug, PartialEq, Eq)]
pub struct Placed {
    /// INDX: the leaf's place, counted from 0 at the left.
    pub indx: u32,
    /// How many siblings of 32 bytes were written.
    pub depth: usize,
}

/// What was written of a tree.
#[derive(Clone, Copy, Debug, PartialEq, Eq)]
pub struct Laid {
    /// How many steps lead from a leaf to the root.
    pub depth: usize,
    /// How many bytes the rows are. The last 32 of them are the root.
    pub length: usize,
}

/// Whether the siblings at `path` lead from `leaf` to `root`, and `indx` needs no more bits than
/// there are siblings. Where a bit of `indx` is 0, the hash so far is the left child and the
/// sibling the right one, as in draft 19, 5.3.1. Bytes that are not 0 to 32 whole siblings lead
/// nowhere.
#[must_use]
pub fn leads(leaf: &Hash, indx: u32, path: &[u8], root: &Hash) -> bool {
    // SAFETY: see raw.
    unsafe { raw::tb_leads(leaf, indx, path.as_ptr(), size(path.len()), root) }
}

/// The root of the tree of `leaves`. The only refusal is 20.
pub fn root(leaves: &[u8]) -> Result<Rooted, Refusal> {
    // SAFETY: see raw.
    let rooted = unsafe { raw::tb_root(leaves.as_ptr(), size(leaves.len())) };
    Refusal::check(rooted.code)?;
    Ok(Rooted { depth: rooted.depth as usize, root: rooted.root })
}

/// Writes the siblings of the leaf at `place`, counted from 0 at the left, at the front of `out`,
/// that beside the leaf first. What follows them stays. The refusals are 20 and then 19, and then
/// all of `out` stays.
pub fn path(leaves: &[u8], place: usize, out: &mut [u8]) -> Result<Placed, Refusal> {
    let (from, to) = (leaves.as_ptr(), out.as_mut_ptr());
    // SAFETY: see raw.
    placed(unsafe { raw::tb_path(from, size(leaves.len()), size(place), to, size(out.len())) })
}

/// Writes all rows of the tree of `leaves` at the front of `out` and tells its depth and how many
/// bytes they are: the leaves first, with every empty place filled, and the root last. What follows
/// them stays. The refusals are 20 and then 19, and then all of `out` stays.
///
/// ```
/// let leaves: Vec<u8> = (1..=3).flat_map(|leaf| [leaf; 32]).collect();
/// let mut out = [0; trawlbeacon::MOST_ROWS_LENGTH];
/// let laid = trawlbeacon::rows(&leaves, &mut out)?;
/// // Four places, the two nodes above them, and the root.
/// assert_eq!((laid.depth, laid.length), (2, 7 * 32));
/// assert_eq!(out[laid.length - 32..laid.length], trawlbeacon::root(&leaves)?.root);
/// # Ok::<(), trawlbeacon::Refusal>(())
/// ```
pub fn rows(leaves: &[u8], out: &mut [u8]) -> Result<Laid, Refusal> {
    let (from, to) = (leaves.as_ptr(), out.as_mut_ptr());
    // SAFETY: see raw.
    let laid = unsafe { raw::tb_rows(from, size(leaves.len()), to, size(out.len())) };
    Refusal::check(laid.code)?;
    Ok(Laid { depth: laid.depth as usize, length: laid.length as usize })
}

/// What [`path`] does, without a hash: the siblings are read out of the rows that [`rows`] wrote
/// for `count` leaves. Other rows are taken as they are. The refusals are 20, also where the rows
/// are too short for that many leaves, and then 19.
pub fn path_from(
    rows: &[u8],
    count: usize,
    place: usize,
    out: &mut [u8],
) -> Result<Placed, Refusal> {
    let (from, to) = (rows.as_ptr(), out.as_mut_ptr());
    // SAFETY: see raw.
    placed(unsafe {
        raw::tb_path_from(from, size(rows.len()), size(count), size(place), to, size(out.len()))
    })
}

/// The place, or why there is none.
fn placed(placed: raw::tb_placed) -> Result<Placed, Refusal> {
    Refusal::check(placed.code)?;
    Ok(Placed { indx: placed.indx, depth: placed.depth as usize })
}
