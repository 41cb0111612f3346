//! The tree of a batch by halves (draft 19, sections 5.3 and 5.3.1): the left half of the places
//! makes one child of the root, the right half the other, and so on down to the leaves.
//!
//! It is for a server, and made in another way than [`tree`](crate::tree): without rows, and
//! without the bits of an index, so that neither can hide a slip of the other.

use crate::hash::{self, Hash};

/// Where a leaf sits below a node.
#[derive(Clone, Debug, PartialEq, Eq)]
pub struct Seat {
    /// The index of the leaf: how many leaves are on its left.
    pub indx: u32,
    /// The siblings on the way from the leaf to the node, that beside the leaf first.
    pub path: Vec<Hash>,
}

impl Seat {
    /// The seat below the parent of the node, where `before` leaves of the other child are on the
    /// left.
    fn one_up(mut self, before: usize, sibling: Hash) -> Self {
        self.indx += before as u32;
        self.path.push(sibling);
        self
    }
}

/// A node with the seats of all leaves below it, from left to right. An empty place has no seat.
#[derive(Clone, Debug, PartialEq, Eq)]
pub struct Node {
    /// The hash.
    pub value: Hash,
    /// The seats.
    pub seats: Vec<Seat>,
}

/// The root over these leaves, of which there must be some.
pub fn root(leaves: &[Hash]) -> Node {
    assert!(!leaves.is_empty(), "a tree has a leaf");
    let mut places = 1;
    while places < leaves.len() {
        places *= 2;
    }
    node(leaves, places)
}

/// The node over this many places, which the leaves fill from the left.
fn node(leaves: &[Hash], places: usize) -> Node {
    if places == 1 {
        return place(leaves.first());
    }
    let half = places / 2;
    let (left, right) = leaves.split_at(half.min(leaves.len()));
    let (left, right) = (node(left, half), node(right, half));
    let value = hash::parent(&left.value, &right.value);
    // Where the right half has a leaf, the left half is full.
    let on_left = left.seats.into_iter().map(|seat| seat.one_up(0, right.value));
    let on_right = right.seats.into_iter().map(|seat| seat.one_up(half, left.value));
    Node { value, seats: on_left.chain(on_right).collect() }
}

/// A place, which has a leaf or is empty. What an empty one holds is a house rule.
fn place(leaf: Option<&Hash>) -> Node {
    match leaf {
        Some(leaf) => Node { value: *leaf, seats: vec![Seat { indx: 0, path: vec![] }] },
        None => Node { value: hash::empty_place(), seats: vec![] },
    }
}

#[cfg(test)]
mod tests {
    use super::*;
    use crate::hash::{empty_place, parent};
    use crate::tree::{Tree, MOST_LEAVES};

    const A: Hash = [1; 32];
    const B: Hash = [2; 32];
    const C: Hash = [3; 32];

    fn seat(indx: u32, path: &[Hash]) -> Seat {
        Seat { indx, path: path.to_vec() }
    }

    /// Written out by hand.
    #[test]
    fn one_two_and_three_leaves() {
        assert_eq!(root(&[A]), Node { value: A, seats: vec![seat(0, &[])] });
        let two = Node { value: parent(&A, &B), seats: vec![seat(0, &[B]), seat(1, &[A])] };
        assert_eq!(root(&[A, B]), two);
        let (left, right) = (parent(&A, &B), parent(&C, &empty_place()));
        let seats =
            vec![seat(0, &[B, right]), seat(1, &[A, right]), seat(2, &[empty_place(), left])];
        assert_eq!(root(&[A, B, C]), Node { value: parent(&left, &right), seats });
    }

    /// Of nine leaves the last has seven empty places beside it.
    #[test]
    fn a_half_may_be_almost_empty() {
        let leaves: Vec<Hash> = (0..9).map(|i| [i; 32]).collect();
        let Node { value, seats } = root(&leaves);
        let twice = |node: &Hash| parent(node, node);
        let empty = [empty_place(), twice(&empty_place()), twice(&twice(&empty_place()))];
        let left = root(&leaves[..8]).value;
        assert_eq!(seats[8], seat(8, &[empty[0], empty[1], empty[2], left]));
        let right = empty.iter().fold(leaves[8], |node, empty| parent(&node, empty));
        assert_eq!((value, seats.len()), (parent(&left, &right), 9));
    }

    #[test]
    fn halves_and_rows_make_the_same_tree() {
        for count in 1..=MOST_LEAVES {
            let leaf = |i: u16| Hash::try_from(i.to_le_bytes().repeat(16)).unwrap();
            let leaves: Vec<Hash> = (0..count as u16).map(leaf).collect();
            let (Node { value, seats }, tree) =
                (root(&leaves), Tree::build(&leaves.concat()).unwrap());
            assert_eq!((value, seats.len()), (tree.root(), count));
            for (place, Seat { indx, path }) in seats.into_iter().enumerate() {
                let placed = tree.place(place).unwrap();
                assert_eq!((indx, path), (placed.indx, placed.path), "place {place} of {count}");
            }
        }
    }
}
