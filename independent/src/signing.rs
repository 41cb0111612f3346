//! Servers that sign: responses with both their signatures, and piles of them.

use crate::ed25519::{Ed25519, Secret};
use crate::making::{self, Link};
use crate::message;
use crate::pieces::{put, Pieces};
use crate::tag::{PUBK, SIG};
use crate::text;

/// The two keys of a server.
#[derive(Clone, Debug)]
pub struct Keys {
    /// Signs DELE. Its public key is the server's name.
    pub long_term: Secret,
    /// Signs SREP. Its public key is PUBK.
    pub delegated: Secret,
}

impl Keys {
    /// The keys that these bytes make.
    pub fn new(ed25519: &Ed25519, long_term: [u8; 32], delegated: [u8; 32]) -> Self {
        let [long_term, delegated] = [long_term, delegated].map(|seed| ed25519.secret(&seed));
        Keys { long_term, delegated }
    }

    /// Puts PUBK and both signatures into a response.
    pub fn sign(&self, ed25519: &Ed25519, pieces: &mut Pieces) {
        put(&mut pieces.dele, PUBK, &self.delegated.public);
        let dele = [text::DELEGATION, &message::encode(&pieces.dele)].concat();
        put(&mut pieces.cert, SIG, &ed25519.sign(&self.long_term, &dele));
        let srep = [text::RESPONSE, &message::encode(&pieces.srep)].concat();
        put(&mut pieces.outer, SIG, &ed25519.sign(&self.delegated, &srep));
    }
}

/// The pile of these records, each linked to the one before it, and signed by the keys of its place.
/// The keys that the links name play no part.
pub fn chain<'a>(ed25519: &Ed25519, links: &[Link], keys: impl Fn(usize) -> &'a Keys) -> Vec<u8> {
    let (mut pile, mut before) = (Vec::new(), Vec::new());
    for (place, link) in links.iter().enumerate() {
        let key = keys(place).long_term.public;
        let link = Link { key, ..link.clone() };
        let request = link.request(&before);
        let mut pieces = link.response(&request, &before);
        keys(place).sign(ed25519, &mut pieces);
        let response = pieces.packet();
        pile.extend(making::record(&key, &link.rand, &request, &response));
        before = response;
    }
    pile
}
