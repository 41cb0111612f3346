//! Roughtime's hash, and each thing that the protocol makes of it.
//!
//! The protocol calls the first 32 bytes of SHA-512 H. A byte in front keeps the uses apart,
//! so that no leaf of a tree can be taken for a node above it, nor a key's SRV value for either.

use crate::sha512::Sha512;

/// What H gives.
pub type Hash = [u8; 32];

/// In front of what stands at a leaf of the tree.
const LEAF: &[u8] = &[0x00];
/// In front of the two children of a node.
const NODE: &[u8] = &[0x01];
/// In front of a server's public key.
const KEY: &[u8] = &[0xff];

/// H of `parts`, one after the other: the first 32 bytes of their SHA-512.
pub fn h(parts: &[&[u8]]) -> Hash {
    let mut hash = Sha512::new();
    for part in parts {
        hash.update(part);
    }
    let digest = hash.finish();
    digest[..32].try_into().expect("a digest has 64 bytes")
}

/// The leaf of a request packet.
pub fn leaf(packet: &[u8]) -> Hash {
    h(&[LEAF, packet])
}

/// The node above two nodes.
pub fn parent(left: &Hash, right: &Hash) -> Hash {
    h(&[NODE, left, right])
}

/// What stands at a leaf where there is no packet.
pub fn empty_place() -> Hash {
    h(&[LEAF])
}

/// What a request names a server by: the SRV value of its long-term public key.
pub fn srv_value(key: &[u8; 32]) -> Hash {
    h(&[KEY, key])
}

/// The nonce of the request that follows `response` in a chain, with `rand` to blind it.
pub fn link(response: &[u8], rand: &[u8; 32]) -> Hash {
    h(&[response, rand])
}

#[cfg(test)]
mod tests {
    use super::*;
    use crate::sha512::sha512;

    fn joined(parts: &[&[u8]]) -> Hash {
        sha512(&parts.concat())[..32].try_into().unwrap()
    }

    #[test]
    fn each_is_the_cut_digest_of_its_parts_joined() {
        let (a, b, packet) = ([1; 32], [2; 32], [3; 1036]);
        assert_eq!(leaf(&packet), joined(&[&[0], &packet]));
        assert_eq!(parent(&a, &b), joined(&[&[1], &a, &b]));
        assert_eq!(empty_place(), joined(&[&[0]]));
        assert_eq!(srv_value(&a), joined(&[&[255], &a]));
        assert_eq!(link(&packet, &b), joined(&[&packet, &b]));
        println!("the five hashes: each compared with the digest of its joined parts");
    }
}
