//! A whole batch in one call: the packets that wait, and the answers to those that get one.

use crate::raw::{self, size};
use crate::serving::of_cert;
use crate::{response_length, Hash, PacketRefusal, SigningKey, MOST_LEAVES};

/// Bytes that are room for each answer to a batch of up to [`MOST_LEAVES`] packets, with so many
/// bytes of CERT.
#[must_use]
pub const fn answer_room(cert: usize) -> usize {
    response_length(32 * MOST_LEAVES.trailing_zeros() as usize, cert)
}

/// Packets that wait for their answers, and what these are made of.
#[derive(Clone, Copy, Debug)]
pub struct Waiting<'a> {
    /// The packets, each at the front of its slot, one slot after the other.
    pub packets: &'a [u8],
    /// Bytes of a slot.
    pub slot: usize,
    /// The length of each packet. One that is longer than its slot gets no answer.
    pub lengths: &'a [u32],
    /// [`srv_value`](crate::srv_value) of the long-term key.
    pub srv: &'a Hash,
    /// The value of CERT.
    pub cert: &'a [u8],
    /// The delegated key.
    pub key: &'a SigningKey,
    /// MIDP: the time, in seconds since 1970.
    pub midp: u64,
    /// RADI: how far the true time may be from that, in seconds; not 0.
    pub radi: u32,
}

/// Where the answers go.
#[derive(Debug)]
pub struct Sending<'a> {
    /// Room for the rows of the tree: [`MOST_ROWS_LENGTH`](crate::MOST_ROWS_LENGTH) bytes are for
    /// any.
    pub rows: &'a mut [u8],
    /// The answers, each at the front of its room, one room after the other.
    pub out: &'a mut [u8],
    /// Bytes of a room: [`answer_room`] of CERT is enough for any batch.
    pub room: usize,
    /// The length of each answer, 0 where there is none.
    pub lengths: &'a mut [u32],
}

/// Answers a batch of 1 to [`MOST_LEAVES`] packets, with one signature for all, and tells how many
/// of them have an answer. [`Batch`](crate::Batch) holds all that is lent here.
///
/// A good request is meant for this server if it has no SRV or this one (draft 19, 5.2). It is
/// answered if it has room for an answer with d siblings, where d is the least number for which no
/// more than 2^d have that room. So no answer is longer than its request, and a request that is too
/// short for any answer changes nothing for the others. What does not hold an answer stays, but for
/// the lengths and the rows. It is for a server with one long-term key.
///
/// The refusals are 7, where RADI is 0; 4 to 7 of CERT, then of its DELE; 35, where PUBK there is
/// not the key's public one; 11; 20; 19; and then all stays. A place is one in the value of CERT,
/// counted from its first byte; a RADI of 0 has none.
pub fn answer_batch(waiting: &Waiting, sending: Sending) -> Result<usize, PacketRefusal> {
    let Waiting { packets, slot, lengths, srv, cert, key, midp, radi } = *waiting;
    let Sending { rows, out, room, lengths: out_lengths } = sending;
    // SAFETY: see raw.
    let told = unsafe {
        raw::tb_answer_batch(
            packets.as_ptr(),
            size(packets.len()),
            size(slot),
            lengths.as_ptr(),
            size(lengths.len()),
            srv,
            cert.as_ptr(),
            size(cert.len()),
            key.seed(),
            midp,
            radi,
            rows.as_mut_ptr(),
            size(rows.len()),
            out.as_mut_ptr(),
            size(out.len()),
            size(room),
            out_lengths.as_mut_ptr(),
            size(out_lengths.len()),
        )
    };
    PacketRefusal::check(told.code, told.at).map_err(of_cert)?;
    // It is at most MOST_LEAVES, so that nothing is lost.
    Ok(told.answered as usize)
}
