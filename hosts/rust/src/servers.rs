//! Lists of servers: records of a long-term key and then its SRV value, with nothing around them.

use crate::raw::{self, size};
use crate::{Hash, Refusal};

/// Bytes of a record of a list of servers.
pub const SERVER_LENGTH: usize = 64;

/// The list that a server was found in.
#[derive(Clone, Copy, Debug, PartialEq, Eq)]
pub enum List {
    /// The owner's, which is searched first.
    Owner,
    /// The shipped one.
    Shipped,
}

/// A server that was found.
#[derive(Clone, Copy, Debug, PartialEq, Eq)]
pub struct Found<'a> {
    /// Where it was found.
    pub list: List,
    /// How many bytes of that list stand before its record.
    pub offset: usize,
    /// Its record, which is a part of that list: the key, then its SRV value.
    pub record: &'a [u8],
}

/// The first record with the SRV value `srv`, in the owner's list or else in the shipped one. The
/// refusals are 21 and then 22.
pub fn find_server<'a>(
    owner: &'a [u8],
    shipped: &'a [u8],
    srv: &Hash,
) -> Result<Found<'a>, Refusal> {
    let (first, second) = (owner.as_ptr(), shipped.as_ptr());
    // SAFETY: see raw.
    let found =
        unsafe { raw::tb_find_server(first, size(owner.len()), second, size(shipped.len()), srv) };
    Refusal::check(found.code)?;
    let (list, bytes) =
        if found.list == 0 { (List::Owner, owner) } else { (List::Shipped, shipped) };
    // It is the offset of a part of a slice, so nothing is lost.
    let offset = found.offset as usize;
    Ok(Found { list, offset, record: &bytes[offset..offset + SERVER_LENGTH] })
}
