//! A batch that a server fills and answers, again and again, in the same memory.

use alloc::vec;
use alloc::vec::Vec;
use core::fmt;

use crate::{answer_batch, answer_room, srv_value, Hash, PacketRefusal, Refusal, Sending};
use crate::{SigningKey, Waiting, LONGEST_PACKET, MOST_LEAVES, MOST_ROWS_LENGTH};

/// Bytes of a slot of a [`Batch`]: one more than the longest packet has, so that a longer one is not
/// cut to a good one where it is received.
pub const SLOT: usize = LONGEST_PACKET + 1;

/// Packets that wait for a server's answers, of which there may be [`MOST_LEAVES`], and the answers.
/// All memory is taken at the start: packets are received where they are answered from.
///
/// ```
/// use trawlbeacon::{Batch, SigningKey, CERT_LENGTH, DELE_LENGTH, REQUEST_LENGTH};
///
/// // Once for each delegated key; the long-term key is best kept where no packet ever comes.
/// let (long_term, delegated) = (SigningKey::new(&[1; 32]), SigningKey::new(&[2; 32]));
/// let (key, pubk, now) = (long_term.public_key(), delegated.public_key(), 1_773_685_571);
/// let (mut dele, mut cert) = ([0; DELE_LENGTH], [0; CERT_LENGTH]);
/// trawlbeacon::write_dele(&pubk, now, now + 86_400, &mut dele)?;
/// trawlbeacon::write_cert(&pubk, now, now + 86_400, &long_term.sign_dele(&dele), &mut cert)?;
/// let mut batch = Batch::new(&key, delegated, &cert);
///
/// // Of two packets that came, one is no request.
/// let mut request = [0; REQUEST_LENGTH];
/// trawlbeacon::write_request(&key, &[3; 32], &mut request)?;
/// batch.push(b"no request")?;
/// let slot = batch.slot().expect("there is room for more"); // for a socket's recv_from
/// slot[..REQUEST_LENGTH].copy_from_slice(&request);
/// batch.received(REQUEST_LENGTH);
///
/// // One signature, and an answer for whom it is due.
/// assert_eq!(batch.answer(now, 3), Ok(1));
/// for (place, response) in batch.answers() {
///     assert_eq!(place, 1);
///     assert!(trawlbeacon::check_signed(&key, &request, response).is_ok());
/// }
/// batch.clear();
/// # Ok::<(), trawlbeacon::Refusal>(())
/// ```
pub struct Batch {
    key: SigningKey,
    srv: Hash,
    cert: Vec<u8>,
    /// A slot for each packet, and the lengths of those that came.
    packets: Vec<u8>,
    lengths: Vec<u32>,
    rows: Vec<u8>,
    /// A room for each answer, of so many bytes, and the lengths of the answers that were written.
    out: Vec<u8>,
    room: usize,
    out_lengths: Vec<u32>,
}

impl Batch {
    /// An empty batch at the server with the long-term public key `long_term`, of which `key` is the
    /// delegated key, and `cert` the value of CERT. Whether they belong together is seen where it is
    /// answered.
    #[must_use]
    pub fn new(long_term: &[u8; 32], key: SigningKey, cert: &[u8]) -> Batch {
        let room = answer_room(cert.len());
        Batch {
            key,
            srv: srv_value(long_term),
            cert: cert.to_vec(),
            packets: vec![0; MOST_LEAVES * SLOT],
            lengths: Vec::with_capacity(MOST_LEAVES),
            rows: vec![0; MOST_ROWS_LENGTH],
            out: vec![0; MOST_LEAVES * room],
            room,
            out_lengths: Vec::with_capacity(MOST_LEAVES),
        }
    }

    /// How many packets wait.
    #[must_use]
    pub fn len(&self) -> usize {
        self.lengths.len()
    }

    /// Whether none does.
    #[must_use]
    pub fn is_empty(&self) -> bool {
        self.lengths.is_empty()
    }

    /// Where the next packet is to be received, or nothing where [`MOST_LEAVES`] wait. It counts as
    /// soon as [`received`](Batch::received) is told its length.
    pub fn slot(&mut self) -> Option<&mut [u8; SLOT]> {
        let slot = self.packets.get_mut(SLOT * self.lengths.len()..)?.get_mut(..SLOT)?;
        slot.try_into().ok()
    }

    /// The slots that are left, of [`SLOT`] bytes each, one after the other: for a call of the system
    /// that receives many packets at once. They count as [`received`](Batch::received) is told the
    /// length of each, in their order.
    pub fn slots(&mut self) -> &mut [u8] {
        &mut self.packets[SLOT * self.lengths.len()..]
    }

    /// Counts the packet of so many bytes that stands in the last slot that was asked for. One that
    /// is longer than its slot gets no answer. Where [`MOST_LEAVES`] wait nothing happens.
    pub fn received(&mut self, length: usize) {
        if self.lengths.len() < MOST_LEAVES {
            self.lengths.push(length.try_into().unwrap_or(u32::MAX));
        }
    }

    /// Puts a packet behind the others, by copying it. The only refusal is 20, where
    /// [`MOST_LEAVES`] wait. One that is longer than a slot counts, and gets no answer.
    pub fn push(&mut self, packet: &[u8]) -> Result<(), Refusal> {
        let slot = self.slot().ok_or(Refusal::Leaves)?;
        if let Some(front) = slot.get_mut(..packet.len()) {
            front.copy_from_slice(packet);
        }
        self.received(packet.len());
        Ok(())
    }

    /// The packet at a place, as it was received, or nothing where there is none or it was longer
    /// than its slot.
    #[must_use]
    pub fn packet(&self, place: usize) -> Option<&[u8]> {
        let length = *self.lengths.get(place)? as usize;
        self.packets[SLOT * place..][..SLOT].get(..length)
    }

    /// Answers the packets with the time `midp` and its radius, in seconds, and tells how many have
    /// an answer, as [`answer_batch`] says. The refusals are those of that but 19, and then there are
    /// no answers.
    pub fn answer(&mut self, midp: u64, radi: u32) -> Result<usize, PacketRefusal> {
        self.out_lengths.clear();
        self.out_lengths.resize(self.lengths.len(), 0);
        let waiting = Waiting {
            packets: &self.packets,
            slot: SLOT,
            lengths: &self.lengths,
            srv: &self.srv,
            cert: &self.cert,
            key: &self.key,
            midp,
            radi,
        };
        let (rows, out, lengths) =
            (&mut self.rows[..], &mut self.out[..], &mut self.out_lengths[..]);
        answer_batch(&waiting, Sending { rows, out, room: self.room, lengths })
    }

    /// The answers that were written, each with the place of its packet, from 0 in the order in
    /// which they came.
    pub fn answers(&self) -> impl Iterator<Item = (usize, &[u8])> {
        let answers = self.out.chunks_exact(self.room).zip(&self.out_lengths);
        let written = answers.map(|(room, length)| &room[..*length as usize]);
        written.enumerate().filter(|(_, answer)| !answer.is_empty())
    }

    /// Forgets the packets and the answers.
    pub fn clear(&mut self) {
        self.lengths.clear();
        self.out_lengths.clear();
    }
}

/// How many packets wait, and nothing of the key.
impl fmt::Debug for Batch {
    fn fmt(&self, to: &mut fmt::Formatter<'_>) -> fmt::Result {
        to.debug_struct("Batch").field("waiting", &self.len()).finish_non_exhaustive()
    }
}
