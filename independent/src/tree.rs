//! The Merkle tree of a batch of requests (draft 19, sections 5.3 and 5.3.1): its rows and its
//! root, the path from a leaf to the root, and the check of such a path.
//!
//! Leaves are indexed left to right, beginning with zero, so that INDX of a leaf is its place. From
//! the least significant on, its bits say what the node at each step of the way up is: 0 a left
//! child, whose sibling goes second, and 1 a right child, whose sibling goes first.

use crate::hash::{self, Hash};
use crate::refusal::Refusal;
use crate::value;

/// The most leaves that we build a tree of. The draft sets no limit; this is a house rule.
pub const MOST_LEAVES: usize = 1024;

/// Whether `path` leads from `leaf` to `root`.
///
/// The bytes are siblings, one after the other, and bytes that PATH could not hold lead nowhere.
pub fn leads(leaf: &Hash, indx: u32, path: &[u8], root: &Hash) -> bool {
    value::path(path).map_or(false, |path| reaches(leaf, indx, &path, root))
}

/// The same, of siblings.
pub fn reaches(leaf: &Hash, indx: u32, path: &[Hash], root: &Hash) -> bool {
    // A bit that no sibling takes would let two numbers stand for one leaf.
    let spare_bits = u64::from(indx) >> path.len().min(32);
    spare_bits == 0 && root_of(leaf, indx, path) == *root
}

/// Where `path` leads from `leaf`, by the bits of `indx` from the least significant.
pub fn root_of(leaf: &Hash, indx: u32, path: &[Hash]) -> Hash {
    let (mut node, mut bits) = (*leaf, indx);
    for sibling in path {
        node =
            if bits % 2 == 0 { hash::parent(&node, sibling) } else { hash::parent(sibling, &node) };
        bits /= 2;
    }
    node
}

/// Where a leaf stands: its number, and its siblings, that beside the leaf first.
#[derive(Clone, Debug, PartialEq, Eq)]
pub struct Placed {
    /// INDX.
    pub indx: u32,
    /// PATH.
    pub path: Vec<Hash>,
}

/// A tree, level by level: the leaves first, each empty place filled, and the root last.
#[derive(Clone, Debug, PartialEq, Eq)]
pub struct Tree {
    rows: Vec<Vec<Hash>>,
    /// How many leaves were given.
    count: usize,
}

impl Tree {
    /// The tree of these leaves, which stand one after the other.
    pub fn build(leaves: &[u8]) -> Result<Self, Refusal> {
        let leaves: Result<Vec<Hash>, _> = leaves.chunks(32).map(Hash::try_from).collect();
        let mut row = leaves.map_err(|_| Refusal::Leaves)?;
        let count = row.len();
        row.resize(width(count)?, hash::empty_place());
        let mut rows = vec![row];
        while rows[rows.len() - 1].len() > 1 {
            let below = &rows[rows.len() - 1];
            rows.push(below.chunks(2).map(|pair| hash::parent(&pair[0], &pair[1])).collect());
        }
        Ok(Tree { rows, count })
    }

    /// The tree of `count` leaves that these bytes are said to be. Nothing is hashed, so that a
    /// wrong node stays what it is.
    pub fn read(bytes: &[u8], count: usize) -> Result<Self, Refusal> {
        let nodes: Vec<Hash> =
            bytes.chunks_exact(32).map(|node| node.try_into().expect("it has 32 bytes")).collect();
        let (mut rows, mut rest, mut width) = (vec![], &nodes[..], width(count)?);
        while width > 0 {
            let row = rest.get(..width).ok_or(Refusal::Leaves)?;
            rows.push(row.to_vec());
            rest = &rest[width..];
            width /= 2;
        }
        Ok(Tree { rows, count })
    }

    /// All nodes, in the order of the rows.
    pub fn bytes(&self) -> Vec<u8> {
        self.rows.concat().concat()
    }

    /// How many steps lead from a leaf to the root.
    pub fn depth(&self) -> usize {
        self.rows.len() - 1
    }

    /// ROOT.
    pub fn root(&self) -> Hash {
        self.rows[self.depth()][0]
    }

    /// Where the leaf at `place`, counted from the left, stands.
    pub fn place(&self, place: usize) -> Result<Placed, Refusal> {
        if place >= self.count {
            return Err(Refusal::Leaves);
        }
        // A node and its sibling are two neighbours, of which the left one has an even place.
        let beside = |level: usize| (place >> level) ^ 1;
        let path = (0..self.depth()).map(|level| self.rows[level][beside(level)]).collect();
        Ok(Placed { indx: place as u32, path })
    }
}

/// The places at the leaf end of a tree of `count` leaves: the least power of two that has room for
/// them.
fn width(count: usize) -> Result<usize, Refusal> {
    if (1..=MOST_LEAVES).contains(&count) {
        Ok(count.next_power_of_two())
    } else {
        Err(Refusal::Leaves)
    }
}

#[cfg(test)]
mod tests {
    use super::*;
    use crate::hash::{empty_place, parent};

    const A: Hash = [1; 32];
    const B: Hash = [2; 32];
    const C: Hash = [3; 32];

    /// Leaves of which no two are equal.
    fn leaves(count: usize) -> Vec<u8> {
        (0..count as u16).flat_map(|i| i.to_le_bytes().repeat(16)).collect()
    }

    #[test]
    fn one_leaf_is_the_root() {
        let tree = Tree::build(&A).unwrap();
        assert_eq!((tree.depth(), tree.root()), (0, A));
        assert_eq!(tree.place(0), Ok(Placed { indx: 0, path: vec![] }));
        assert_eq!(tree.bytes(), A);
    }

    /// Written out by hand, with no help of rows.
    #[test]
    fn three_leaves_have_an_empty_place_beside_them() {
        let tree = Tree::build(&[A, B, C].concat()).unwrap();
        let (left, right) = (parent(&A, &B), parent(&C, &empty_place()));
        assert_eq!((tree.depth(), tree.root()), (2, parent(&left, &right)));
        assert_eq!(tree.place(0), Ok(Placed { indx: 0, path: vec![B, right] }));
        assert_eq!(tree.place(1), Ok(Placed { indx: 1, path: vec![A, right] }));
        assert_eq!(tree.place(2), Ok(Placed { indx: 2, path: vec![empty_place(), left] }));
        assert_eq!(tree.place(3), Err(Refusal::Leaves));
        assert_eq!(tree.bytes(), [A, B, C, empty_place(), left, right, tree.root()].concat());
    }

    /// The sentence of draft 19, section 5.3.1, written out by hand: "If the current bit in INDX is
    /// 0 then h = H(0x01 || h || node), else h = H(0x01 || node || h)."
    #[test]
    fn a_bit_of_0_puts_the_hash_so_far_first() {
        let ends = [
            parent(&parent(&A, &B), &C),
            parent(&parent(&B, &A), &C),
            parent(&C, &parent(&A, &B)),
            parent(&C, &parent(&B, &A)),
        ];
        for indx in 0..4 {
            for (due, root) in (0..).zip(&ends) {
                let leads = leads(&A, indx, &[B, C].concat(), root);
                assert_eq!(leads, indx == due, "INDX {indx} and the root of INDX {due}");
            }
        }
    }

    #[test]
    fn a_number_needs_no_more_bits_than_there_are_siblings() {
        assert!(leads(&A, 0, &[], &A));
        assert!(!leads(&A, 1, &[], &A));
        assert!(!leads(&A, u32::MAX, &[], &A));
        assert!(leads(&A, 0, &B, &parent(&A, &B)));
        assert!(!leads(&A, 2, &B, &parent(&A, &B)));
        assert!(!leads(&A, 0x8000_0000, &B, &parent(&A, &B)));
    }

    /// At 32 siblings every number has few enough bits; 33 are no path, though they would lead to
    /// the root.
    #[test]
    fn a_path_has_up_to_32_whole_siblings() {
        let at_32 = (0..32).fold(A, |node, _| parent(&B, &node));
        let at_33 = parent(&at_32, &B);
        assert!(leads(&A, u32::MAX, &B.repeat(32), &at_32));
        assert!(!leads(&A, u32::MAX, &B.repeat(33), &at_33));
        assert!(!leads(&A, u32::MAX, &B.repeat(32)[1..], &at_32));
        assert!(!leads(&A, 0, &[0], &A));
    }

    #[test]
    fn every_path_leads_to_the_root() {
        for count in (1..=65).chain([511, 512, 513, 900, MOST_LEAVES - 1, MOST_LEAVES]) {
            let leaves = leaves(count);
            let tree = Tree::build(&leaves).unwrap();
            assert!(1 << tree.depth() >= count && 1 << tree.depth() < 2 * count, "{count} leaves");
            for place in 0..count {
                let Placed { indx, path } = tree.place(place).unwrap();
                assert_eq!(indx as usize, place);
                let leaf = leaves[32 * place..][..32].try_into().unwrap();
                assert!(
                    leads(leaf, indx, &path.concat(), &tree.root()),
                    "place {place} of {count}"
                );
            }
        }
    }

    #[test]
    fn leaves_are_1_to_1024_and_whole() {
        for length in 0..=1030 * 32 {
            let built = Tree::build(&vec![7; length]);
            assert_eq!(
                built.is_ok(),
                length % 32 == 0 && (1..=1024).contains(&(length / 32)),
                "{length} bytes"
            );
        }
        assert_eq!(Tree::build(&[]), Err(Refusal::Leaves));
    }

    #[test]
    fn rows_that_were_written_are_read_back() {
        for count in 1..=MOST_LEAVES {
            let tree = Tree::build(&leaves(count)).unwrap();
            let bytes = tree.bytes();
            assert_eq!(bytes.len(), 32 * (2 * count.next_power_of_two() - 1));
            assert_eq!(Tree::read(&bytes, count), Ok(tree.clone()));
            assert_eq!(Tree::read(&[&bytes[..], &[9; 40]].concat(), count), Ok(tree));
            assert_eq!(Tree::read(&bytes[1..], count), Err(Refusal::Leaves));
        }
        for count in [0, 1025, usize::MAX] {
            assert_eq!(Tree::read(&[0; 5000 * 32], count), Err(Refusal::Leaves));
        }
    }
}
