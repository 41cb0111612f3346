//! A response in pieces: the pairs of its four messages, so that any of them can be changed before
//! they are put together.

use crate::message;
use crate::packet;
use crate::tag::{
    Tag, CERT, DELE, INDX, MAXT, MIDP, MINT, NONC, PATH, PUBK, RADI, ROOT, SIG, SREP, TYPE, VER,
    VERS,
};

/// A message as its pairs.
pub type Pairs = Vec<(Tag, Vec<u8>)>;

/// The pairs of the four messages; the values of SREP, CERT and DELE are put in when the packet is
/// made.
#[derive(Clone, Debug)]
pub struct Pieces {
    /// The outermost message.
    pub outer: Pairs,
    /// The message SREP.
    pub srep: Pairs,
    /// The message CERT.
    pub cert: Pairs,
    /// The message DELE.
    pub dele: Pairs,
}

/// Gives `tag`, where it is there, this value.
pub fn put(pairs: &mut Pairs, tag: Tag, value: &[u8]) {
    pairs.iter_mut().filter(|pair| pair.0 == tag).for_each(|pair| pair.1 = value.to_vec());
}

impl Pieces {
    /// A response of the right shape. It answers no request, and nobody signed it.
    pub fn good() -> Self {
        let one = vec![1, 0, 0, 0];
        Pieces {
            outer: vec![
                (SIG, vec![10; 64]),
                (NONC, vec![11; 32]),
                (TYPE, one.clone()),
                (PATH, vec![12; 64]),
                (SREP, vec![]),
                (CERT, vec![]),
                (INDX, vec![3, 0, 0, 0]),
            ],
            srep: vec![
                (VER, one.clone()),
                (RADI, vec![5, 0, 0, 0]),
                (MIDP, vec![0, 1, 0, 0, 0, 0, 0, 0]),
                (VERS, one),
                (ROOT, vec![13; 32]),
            ],
            cert: vec![(SIG, vec![14; 64]), (DELE, vec![])],
            dele: vec![(PUBK, vec![15; 32]), (MINT, vec![0; 8]), (MAXT, vec![255; 8])],
        }
    }

    /// The packet that the pieces make.
    pub fn packet(mut self) -> Vec<u8> {
        put(&mut self.cert, DELE, &message::encode(&self.dele));
        put(&mut self.outer, CERT, &message::encode(&self.cert));
        put(&mut self.outer, SREP, &message::encode(&self.srep));
        packet::encode(&message::encode(&self.outer))
    }
}
