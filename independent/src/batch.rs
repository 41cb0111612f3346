//! A whole batch at a server (draft 19, sections 5.2, 5.2.6 and 5.3): which of the packets that came
//! are answered, and with what, signed once.
//!
//! The tree is made by halves, and not by rows; the answers are put together by
//! [`respond`](crate::respond).

use crate::ed25519::{Ed25519, Secret};
use crate::halves::{self, Node, Seat};
use crate::hash::{self, Hash};
use crate::refusal::Refusal;
use crate::respond::{self, Reply, Unwritten};
use crate::response::{Cert, Dele};
use crate::tree::{Tree, MOST_LEAVES};
use crate::{place, request, text};

/// A server at a moment, with the key that was delegated to it.
#[derive(Clone, Debug)]
pub struct Desk<'a> {
    /// The SRV value of its long-term key.
    pub srv: Hash,
    /// The value of CERT.
    pub cert: &'a [u8],
    /// The delegated key.
    pub secret: &'a Secret,
    /// MIDP.
    pub midp: u64,
    /// RADI.
    pub radi: u32,
}

/// What is lent with a batch.
#[derive(Clone, Debug)]
pub struct Lent<'a> {
    /// Slots of one size, with a packet at the front of each.
    pub packets: &'a [u8],
    /// Bytes of a slot.
    pub slot: usize,
    /// How long each packet is said to be.
    pub lengths: &'a [u32],
    /// Bytes for the rows of the tree.
    pub rows: usize,
    /// Bytes for all answers.
    pub out: usize,
    /// The same for each.
    pub room: usize,
    /// Of how many answers the lengths can be told.
    pub out_lengths: usize,
}

/// What comes of a batch.
#[derive(Clone, Debug, PartialEq, Eq)]
pub struct Answered {
    /// The rows of the tree, none where nobody is answered.
    pub rows: Vec<u8>,
    /// The answer to each packet, or nothing.
    pub answers: Vec<Option<Vec<u8>>>,
}

/// How many steps lead from one of so many leaves to the root.
fn depth(leaves: usize) -> usize {
    (0..).find(|depth| 1 << depth >= leaves).expect("there is a power of two above each number")
}

/// Bytes of an answer with so many siblings and so many bytes of CERT: 12 of the packet's header, 56
/// of the message's, SIG, NONC, TYPE, SREP and INDX; and then PATH and CERT.
fn answer_length(siblings: usize, cert: usize) -> usize {
    12 + 56 + 64 + 32 + 4 + 92 + 4 + 32 * siblings + cert
}

/// The least number of siblings that is enough: those of the packets that are no shorter than an
/// answer with so many make a tree that is no deeper. Who is too short for an answer is not
/// counted, and makes nobody else's longer.
fn siblings(packets: &[Option<&[u8]>], cert: usize) -> usize {
    let no_shorter = |siblings: &usize| {
        let least = answer_length(*siblings, cert);
        packets.iter().flatten().filter(|packet| packet.len() >= least).count()
    };
    (0..)
        .find(|siblings| depth(no_shorter(siblings)) <= *siblings)
        .expect("no tree is deeper than one over all packets")
}

impl Desk<'_> {
    /// The delegation, where all is right with what the server is to say.
    fn delegation(&self) -> Result<Dele<'_>, Unwritten> {
        respond::srep(&[0; 32], self.midp, self.radi)?;
        let delegation = Cert::read(self.cert).and_then(|cert| Dele::read(cert.dele));
        let delegation = delegation.map_err(|refusal| Unwritten {
            refusal,
            at: place::in_cert(self.cert).map(|place| place.at),
        })?;
        if delegation.pubk != self.secret.public {
            return Err(Refusal::OtherKey.into());
        }
        if !(delegation.mint..=delegation.maxt).contains(&self.midp) {
            return Err(Refusal::Time.into());
        }
        Ok(delegation)
    }

    /// Whether a packet is a good request, and asks this server or any (5.2).
    fn is_meant(&self, packet: &[u8]) -> bool {
        match request::read(packet) {
            Ok(asked) => asked.srv.map_or(true, |srv| srv == self.srv),
            Err(_) => false,
        }
    }

    /// What a batch is answered with, or the first reason not to answer it.
    pub fn answer(&self, ed25519: &Ed25519, lent: &Lent) -> Result<Answered, Unwritten> {
        self.delegation()?;
        lent.check(self.cert.len())?;
        let packets: Vec<Option<&[u8]>> = lent.meant(|packet| self.is_meant(packet));
        let longest = answer_length(siblings(&packets, self.cert.len()), self.cert.len());
        let answered: Vec<Option<&[u8]>> = packets
            .into_iter()
            .map(|packet| packet.filter(|packet| packet.len() >= longest))
            .collect();
        let leaves: Vec<Hash> =
            answered.iter().flatten().map(|packet| hash::leaf(packet)).collect();
        if leaves.is_empty() {
            return Ok(Answered { rows: vec![], answers: vec![None; answered.len()] });
        }
        let Node { value: root, seats } = halves::root(&leaves);
        let signature = self.sign(ed25519, &root)?;
        let mut seats = seats.iter();
        let mut next = || seats.next().expect("each leaf has a seat");
        let answers: Result<Vec<Option<Vec<u8>>>, Unwritten> = answered
            .into_iter()
            .map(|packet| packet.map(|packet| self.reply(packet, next(), root, signature)))
            .map(Option::transpose)
            .collect();
        Ok(Answered { rows: Tree::build(&leaves.concat())?.bytes(), answers: answers? })
    }

    /// The signature of what all answers say.
    fn sign(&self, ed25519: &Ed25519, root: &Hash) -> Result<[u8; 64], Refusal> {
        let srep = respond::srep(root, self.midp, self.radi)?;
        Ok(ed25519.sign(self.secret, &[text::RESPONSE, &srep].concat()))
    }

    /// The answer to a request whose leaf has this seat.
    fn reply(
        &self,
        request: &[u8],
        seat: &Seat,
        root: Hash,
        signature: [u8; 64],
    ) -> Result<Vec<u8>, Unwritten> {
        let path = seat.path.concat();
        respond::response(&Reply {
            request,
            indx: seat.indx,
            root,
            path: &path,
            midp: self.midp,
            radi: self.radi,
            cert: self.cert,
            signature,
        })
    }
}

impl<'a> Lent<'a> {
    /// Whether there is a batch, and room for any answers to it.
    fn check(&self, cert: usize) -> Result<(), Refusal> {
        let count = self.lengths.len();
        if count == 0 || count > MOST_LEAVES {
            return Err(Refusal::Leaves);
        }
        let slots = |size: usize| size.saturating_mul(count);
        let nodes: usize = (0..=depth(count)).map(|level| 1 << level).sum();
        let room = slots(self.slot) <= self.packets.len()
            && 32 * nodes <= self.rows
            && slots(self.room) <= self.out
            && count <= self.out_lengths
            && answer_length(depth(count), cert) <= self.room;
        if room {
            Ok(())
        } else {
            Err(Refusal::BufferTooShort)
        }
    }

    /// The packets, in their slots, of which this holds. What is longer than its slot is none.
    fn meant(&self, is_meant: impl Fn(&[u8]) -> bool) -> Vec<Option<&'a [u8]>> {
        let packet = |(place, length): (usize, &u32)| {
            let slot = &self.packets[self.slot * place..][..self.slot];
            slot.get(..*length as usize).filter(|packet| is_meant(packet))
        };
        self.lengths.iter().enumerate().map(packet).collect()
    }
}

#[cfg(test)]
mod tests {
    use super::*;
    use crate::signing::Keys;
    use crate::tag::{NONC, TYPE, VER, ZZZZ};
    use crate::{check, message, packet, write};

    const SLOT: usize = 1100;

    fn keys(ed25519: &Ed25519) -> Keys {
        Keys::new(ed25519, [1; 32], [2; 32])
    }

    fn desk<'a>(keys: &'a Keys, cert: &'a [u8]) -> Desk<'a> {
        let srv = hash::srv_value(&keys.long_term.public);
        Desk { srv, cert, secret: &keys.delegated, midp: 1000, radi: 7 }
    }

    fn slots(packets: &[Vec<u8>]) -> (Vec<u8>, Vec<u32>) {
        let mut bytes = vec![0xee; SLOT * packets.len()];
        for (slot, packet) in bytes.chunks_mut(SLOT).zip(packets) {
            slot[..packet.len()].copy_from_slice(packet);
        }
        (bytes, packets.iter().map(|packet| packet.len() as u32).collect())
    }

    fn lent<'a>(packets: &'a [u8], lengths: &'a [u32]) -> Lent<'a> {
        let count = lengths.len();
        Lent {
            packets,
            slot: SLOT,
            lengths,
            rows: 65_536,
            out: 800 * count,
            room: 800,
            out_lengths: count,
        }
    }

    fn without_srv(padding: usize) -> Vec<u8> {
        let pairs: [(_, Vec<u8>); 4] = [
            (VER, vec![1, 0, 0, 0]),
            (NONC, vec![9; 32]),
            (TYPE, vec![0; 4]),
            (ZZZZ, vec![0; padding]),
        ];
        packet::encode(&message::encode(&pairs))
    }

    /// Of six packets the first, the fourth and the last are answered: one names the server, two
    /// name none.
    #[test]
    fn whoever_asks_this_server_is_answered() {
        let ed25519 = Ed25519::new();
        let keys = keys(&ed25519);
        let cert = respond::cert(&keys.delegated.public, 900, 1100, &[5; 64]);
        let key = keys.long_term.public;
        let mut bad = write::request(&key, &[4; 32]);
        bad[0] = 0;
        let packets = [
            write::request(&key, &[2; 32]),
            write::request(&[3; 32], &[3; 32]),
            bad,
            without_srv(900),
            // Good, and shorter than an answer.
            without_srv(100),
            without_srv(800),
        ];
        let (bytes, lengths) = slots(&packets);
        let answered = desk(&keys, &cert).answer(&ed25519, &lent(&bytes, &lengths)).unwrap();
        let has: Vec<bool> = answered.answers.iter().map(Option::is_some).collect();
        assert_eq!(has, [true, false, false, true, false, true]);
        for (packet, answer) in packets.iter().zip(&answered.answers) {
            let Some(answer) = answer else { continue };
            assert_eq!(check::check(packet, answer, true, true).unwrap().window.midp, 1000);
            assert_eq!(answer.len(), 264 + 64 + 152);
        }
        assert_eq!(answered.rows.len(), 7 * 32);
    }

    /// How many of these packets are answered, by how many bytes each has.
    fn answered(lengths: &[usize]) -> Vec<bool> {
        let ed25519 = Ed25519::new();
        let keys = keys(&ed25519);
        let cert = respond::cert(&keys.delegated.public, 900, 1100, &[5; 64]);
        let packets: Vec<Vec<u8>> = lengths.iter().map(|length| without_srv(length - 84)).collect();
        assert!(packets.iter().map(Vec::len).eq(lengths.iter().copied()));
        let (bytes, lengths) = slots(&packets);
        let told = desk(&keys, &cert).answer(&ed25519, &lent(&bytes, &lengths)).unwrap();
        for (packet, answer) in packets.iter().zip(&told.answers) {
            assert!(answer.as_ref().map_or(true, |answer| answer.len() <= packet.len()));
        }
        told.answers.iter().map(Option::is_some).collect()
    }

    /// An answer with our CERT has 416 bytes, and 32 more for each sibling.
    #[test]
    fn whoever_is_too_short_disturbs_nobody() {
        // One that is too short for any answer, beside one that is just long enough.
        assert_eq!(answered(&[416, 412]), [true, false]);
        assert_eq!(answered(&[412, 412, 412, 416]), [false, false, false, true]);
        // Two have a sibling each, for which one of them has room, or both.
        assert_eq!(answered(&[416, 448]), [false, true]);
        assert_eq!(answered(&[448, 448]), [true, true]);
        assert_eq!(answered(&[416, 416]), [false, false]);
        // Of three two have room for a sibling: no third is counted with them.
        assert_eq!(answered(&[448, 444, 448]), [true, false, true]);
        // Three that have room for one sibling need two, for which one of them has room.
        assert_eq!(answered(&[448, 448, 480]), [false, false, true]);
        assert_eq!(answered(&[480, 448, 480]), [true, false, true]);
        assert_eq!(answered(&[480, 480, 480]), [true, true, true]);
    }

    /// Each reason by itself, and then with all that come after it.
    #[test]
    fn the_first_reason_counts() {
        let ed25519 = Ed25519::new();
        let keys = keys(&ed25519);
        let good = respond::cert(&keys.delegated.public, 900, 1100, &[5; 64]);
        let other = respond::cert(&[4; 32], 900, 1100, &[5; 64]);
        let mut bad = other.clone();
        bad[0] = 0;
        let due = |desk: &Desk, lent: &Lent, code, at| {
            let why = desk.answer(&ed25519, lent).unwrap_err();
            assert_eq!((why.refusal.code(), why.at), (code, at));
        };
        let (bytes, lengths) = slots(&[without_srv(900)]);
        let fits = lent(&bytes, &lengths);
        for short in [
            Lent { packets: &bytes[1..], ..fits.clone() },
            Lent { slot: usize::MAX, ..fits.clone() },
            Lent { rows: 31, ..fits.clone() },
            Lent { out: 799, ..fits.clone() },
            Lent { room: 801, ..fits.clone() },
            Lent { out_lengths: 0, ..fits.clone() },
            Lent { room: 415, out: 415, ..fits.clone() },
        ] {
            due(&desk(&keys, &good), &short, 19, None);
        }
        let exact = Lent { room: 416, out: 416, rows: 32, ..fits.clone() };
        assert!(desk(&keys, &good).answer(&ed25519, &exact).is_ok());
        for count in [0, 1025] {
            let many = vec![0; count];
            due(&desk(&keys, &good), &Lent { lengths: &many, ..fits.clone() }, 20, None);
        }
        let none = Lent { lengths: &[], ..fits };
        let late = Desk { midp: 1101, ..desk(&keys, &good) };
        due(&late, &none, 11, None);
        let strange = Desk { cert: &other, ..late };
        due(&strange, &none, 35, None);
        let uncertain = Desk { cert: &bad, ..strange };
        due(&uncertain, &none, 4, Some(0));
        due(&Desk { radi: 0, ..uncertain }, &none, 7, None);
    }
}
