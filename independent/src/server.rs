//! A server of draft 19 (sections 5.2 and 5.3): it takes the requests of a batch, and answers each
//! of them with a response of its own, all with one SREP.
//!
//! No key signs anything here: the signatures are any bytes, since the answers about them are the
//! host's. Whether a request names this server, and is no shorter than its response, is for the
//! caller to see to before it goes into a batch.

use crate::halves::{self, Node, Seat};
use crate::hash::{self, Hash};
use crate::pieces::{Pairs, Pieces};
use crate::refusal::Refusal;
use crate::response::TYPE_OF_RESPONSE;
use crate::tag::{
    CERT, DELE, INDX, MAXT, MIDP, MINT, NONC, PATH, PUBK, RADI, ROOT, SIG, SREP, TYPE, VER, VERS,
};
use crate::tree::MOST_LEAVES;
use crate::{request, VERSION};

/// A server at a moment, with the key that was delegated to it.
#[derive(Clone, Debug, PartialEq, Eq)]
pub struct Server {
    /// MIDP: the time that it tells.
    pub midp: u64,
    /// RADI: how far the true time may be from that.
    pub radi: u32,
    /// PUBK: the delegated key.
    pub pubk: [u8; 32],
    /// MINT: the first second of the delegation.
    pub mint: u64,
    /// MAXT: the last second of the delegation.
    pub maxt: u64,
    /// SIG in CERT.
    pub delegation: [u8; 64],
    /// SIG of a response.
    pub signature: [u8; 64],
}

impl Server {
    /// The responses to the request packets of a batch, in their order.
    pub fn answer<P: AsRef<[u8]>>(&self, requests: &[P]) -> Result<Vec<Vec<u8>>, Refusal> {
        Ok(self.pieces(requests)?.into_iter().map(Pieces::packet).collect())
    }

    /// The same in pieces, for who wants to change one.
    pub fn pieces<P: AsRef<[u8]>>(&self, requests: &[P]) -> Result<Vec<Pieces>, Refusal> {
        if !(1..=MOST_LEAVES).contains(&requests.len()) {
            return Err(Refusal::Leaves);
        }
        let nonces: Result<Vec<Hash>, Refusal> =
            requests.iter().map(|packet| nonce(packet.as_ref())).collect();
        let leaves: Vec<Hash> = requests.iter().map(|packet| hash::leaf(packet.as_ref())).collect();
        let Node { value: root, seats } = halves::root(&leaves);
        Ok(nonces?
            .iter()
            .zip(&seats)
            .map(|(nonce, seat)| self.response(nonce, seat, &root))
            .collect())
    }

    /// The response to the request with this nonce, whose leaf has this seat below the root.
    fn response(&self, nonce: &Hash, seat: &Seat, root: &Hash) -> Pieces {
        let outer = vec![
            (SIG, self.signature.to_vec()),
            (NONC, nonce.to_vec()),
            (TYPE, TYPE_OF_RESPONSE.to_le_bytes().to_vec()),
            (PATH, seat.path.concat()),
            (SREP, vec![]),
            (CERT, vec![]),
            (INDX, seat.indx.to_le_bytes().to_vec()),
        ];
        let cert = vec![(SIG, self.delegation.to_vec()), (DELE, vec![])];
        Pieces { outer, srep: self.srep(root), cert, dele: self.dele() }
    }

    fn srep(&self, root: &Hash) -> Pairs {
        vec![
            (VER, VERSION.to_le_bytes().to_vec()),
            (RADI, self.radi.to_le_bytes().to_vec()),
            (MIDP, self.midp.to_le_bytes().to_vec()),
            (VERS, VERSION.to_le_bytes().to_vec()),
            (ROOT, root.to_vec()),
        ]
    }

    fn dele(&self) -> Pairs {
        vec![
            (PUBK, self.pubk.to_vec()),
            (MINT, self.mint.to_le_bytes().to_vec()),
            (MAXT, self.maxt.to_le_bytes().to_vec()),
        ]
    }
}

/// The nonce of a request that a server must not ignore.
fn nonce(packet: &[u8]) -> Result<Hash, Refusal> {
    request::read(packet).map(|request| request.nonc).map_err(|_| Refusal::Request)
}

#[cfg(test)]
mod tests {
    use super::*;
    use crate::check::{check, Valid, Window};
    use crate::hash::{empty_place, leaf, parent};
    use crate::{response, write};

    fn server() -> Server {
        Server {
            midp: 1000,
            radi: 7,
            pubk: [4; 32],
            mint: 900,
            maxt: 1100,
            delegation: [5; 64],
            signature: [6; 64],
        }
    }

    /// Each request has a nonce of its own.
    fn nonce_of(i: u32) -> Hash {
        i.to_le_bytes().repeat(8).try_into().unwrap()
    }

    fn requests(count: usize) -> Vec<Vec<u8>> {
        (0..count as u32).map(|i| write::request(&[1; 32], &nonce_of(i))).collect()
    }

    #[test]
    fn a_response_says_what_the_server_was_told() {
        let packets = server().answer(&requests(1)).unwrap();
        let response = response::read(&packets[0]).unwrap();
        assert_eq!((response.outer.sig, response.cert.sig), ([6; 64], [5; 64]));
        assert_eq!((response.outer.nonc, response.outer.indx), ([0; 32], 0));
        assert_eq!((response.outer.path, response.srep.root), (vec![], leaf(&requests(1)[0])));
        assert_eq!((response.srep.midp, response.srep.radi), (1000, 7));
        assert_eq!((response.srep.version, response.srep.versions), (1, vec![1]));
        assert_eq!(response.dele.pubk, [4; 32]);
        assert_eq!((response.dele.mint, response.dele.maxt), (900, 1100));
    }

    /// Written out by hand.
    #[test]
    fn three_requests_are_indexed_from_the_left() {
        let requests = requests(3);
        let [a, b, c] = [0, 1, 2].map(|i| leaf(&requests[i]));
        let (left, right) = (parent(&a, &b), parent(&c, &empty_place()));
        let due = [(0, vec![b, right]), (1, vec![a, right]), (2, vec![empty_place(), left])];
        for (packet, (indx, path)) in server().answer(&requests).unwrap().iter().zip(due) {
            let response = response::read(packet).unwrap();
            assert_eq!((response.outer.indx, response.outer.path), (indx, path));
            assert_eq!(response.outer.nonc, nonce_of(indx));
            assert_eq!(response.srep.root, parent(&left, &right));
        }
    }

    /// One signature serves them all, since SREP is the same.
    #[test]
    fn every_response_of_a_batch_is_valid() {
        let window = Window { midp: 1000, radi: 7, low: 993, high: 1007, mint: 900, maxt: 1100 };
        let valid = Valid { window, pubk: [4; 32] };
        for count in (1..=65).chain([511, 512, 513, 900, MOST_LEAVES - 1, MOST_LEAVES]) {
            let requests = requests(count);
            let packets = server().answer(&requests).unwrap();
            assert_eq!(packets.len(), count);
            let srep = response::read(&packets[0]).unwrap().outer.srep;
            for (request, packet) in requests.iter().zip(&packets) {
                assert_eq!(check(request, packet, true, true), Ok(valid));
                assert_eq!(response::read(packet).unwrap().outer.srep, srep);
                assert!(packet.len() <= request.len(), "{} bytes", packet.len());
            }
        }
    }

    #[test]
    fn a_batch_has_1_to_1024_good_requests() {
        assert_eq!(server().answer(&requests(0)), Err(Refusal::Leaves));
        assert_eq!(server().answer(&requests(1025)), Err(Refusal::Leaves));
        let mut requests = requests(3);
        requests[1][0] ^= 1;
        assert_eq!(server().answer(&requests), Err(Refusal::Request));
    }
}
