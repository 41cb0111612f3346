//! Lists of servers as JSON, as they are published (draft 19, section 8.3; RFC 8259): read into the
//! records of a list, asked for what stands at a place, and written.

// How many records or bytes there are is told of what stands in a buffer that was lent, so nothing
// is lost where it becomes a usize.

use crate::raw::{self, size};
use crate::Refusal;

/// The most servers of a list as JSON.
pub const LISTED_SERVERS: usize = 64;

/// The most addresses of a server in such a list.
pub const LISTED_ADDRESSES: usize = 8;

/// What was read of a list.
#[derive(Clone, Copy, Debug, PartialEq, Eq)]
pub struct ReadServers {
    /// How many records were written.
    pub records: usize,
    /// How many servers were passed over, since they cannot be asked.
    pub passed_over: usize,
}

/// How a server is asked.
#[derive(Clone, Copy, Debug, PartialEq, Eq, Hash)]
pub enum Protocol {
    /// A packet in a datagram.
    Udp,
    /// Packets one after the other.
    Tcp,
}

/// An address that was written.
#[derive(Clone, Copy, Debug, PartialEq, Eq)]
pub struct Addressed {
    /// How the server is asked there.
    pub protocol: Protocol,
    /// How many bytes the address has.
    pub length: usize,
}

/// Reads a list of servers into records: they are written at the front of `out`, and may be looked
/// up by [`find_server`](crate::find_server). What follows them stays. `out` must have
/// [`SERVER_LENGTH`](crate::SERVER_LENGTH) bytes a record, and [`LISTED_SERVERS`] times as much is
/// always enough.
///
/// A server can be asked where its `publicKeyType` is `ed25519`, its `version` is 1 and its key has
/// 32 bytes. Others are passed over, and counted.
///
/// The refusals are 24, 25 and 19, and then all of `out` stays.
///
/// ```
/// use trawlbeacon::{read_servers, srv_value, Refusal, LISTED_SERVERS, SERVER_LENGTH};
///
/// # let vectors = concat!(env!("CARGO_MANIFEST_DIR"), "/../../vectors");
/// # let text = std::fs::read(format!("{vectors}/server-list.json")).unwrap();
/// // The list of draft 19, appendix A.
/// let mut records = [0; LISTED_SERVERS * SERVER_LENGTH];
/// let read = read_servers(&text, &mut records)?;
/// assert_eq!((read.records, read.passed_over), (2, 0));
/// let (key, srv) = records[..SERVER_LENGTH].split_at(32);
/// assert_eq!(srv, srv_value(key.try_into().unwrap()));
/// assert_eq!(read_servers(&text, &mut records[..127]), Err(Refusal::Room));
/// # Ok::<(), Refusal>(())
/// ```
pub fn read_servers(text: &[u8], out: &mut [u8]) -> Result<ReadServers, Refusal> {
    let (from, to) = (text.as_ptr(), out.as_mut_ptr());
    // SAFETY: see raw.
    let read = unsafe { raw::tb_read_servers(from, size(text.len()), to, size(out.len())) };
    Refusal::check(read.code)?;
    Ok(ReadServers { records: read.records as usize, passed_over: read.passed_over as usize })
}

/// Writes the name of the server at a place, from 0, among those that can be asked, at the front of
/// `out`, in UTF-8, and tells how many bytes it has: at most as many as the text. What follows it
/// stays.
///
/// The refusals are 24, 25, 36 and 19, and then all of `out` stays; so too below.
pub fn server_name(text: &[u8], place: usize, out: &mut [u8]) -> Result<usize, Refusal> {
    let (from, to) = (text.as_ptr(), out.as_mut_ptr());
    // SAFETY: see raw.
    of_wrote(unsafe {
        raw::tb_server_name(from, size(text.len()), size(place), to, size(out.len()))
    })
}

/// Writes the address at the place `which`, from 0, of the server at a place: a host, a colon and a
/// port.
///
/// ```
/// use trawlbeacon::{server_address, Addressed, Protocol, Refusal};
///
/// # let vectors = concat!(env!("CARGO_MANIFEST_DIR"), "/../../vectors");
/// # let text = std::fs::read(format!("{vectors}/server-list.json")).unwrap();
/// let mut out = [0; 300];
/// let told = server_address(&text, 1, 1, &mut out)?;
/// assert_eq!(told, Addressed { protocol: Protocol::Udp, length: 21 });
/// assert_eq!(&out[..21], b"[2001:db8::2:33]:2002");
/// assert_eq!(server_address(&text, 1, 2, &mut out), Err(Refusal::ListPlace));
/// # Ok::<(), Refusal>(())
/// ```
pub fn server_address(
    text: &[u8],
    place: usize,
    which: usize,
    out: &mut [u8],
) -> Result<Addressed, Refusal> {
    let (from, to) = (text.as_ptr(), out.as_mut_ptr());
    // SAFETY: see raw.
    let told = unsafe {
        raw::tb_server_address(
            from,
            size(text.len()),
            size(place),
            size(which),
            to,
            size(out.len()),
        )
    };
    Refusal::check(told.code)?;
    let protocol = if told.tcp == 1 { Protocol::Tcp } else { Protocol::Udp };
    Ok(Addressed { protocol, length: told.length as usize })
}

/// Writes the URL at a place, from 0, from which newer lists may be had.
pub fn list_source(text: &[u8], place: usize, out: &mut [u8]) -> Result<usize, Refusal> {
    let (from, to) = (text.as_ptr(), out.as_mut_ptr());
    // SAFETY: see raw.
    of_wrote(unsafe {
        raw::tb_list_source(from, size(text.len()), size(place), to, size(out.len()))
    })
}

/// Writes the URL to which reports may be sent. 36 says that the list names none.
pub fn list_reports(text: &[u8], out: &mut [u8]) -> Result<usize, Refusal> {
    let (from, to) = (text.as_ptr(), out.as_mut_ptr());
    // SAFETY: see raw.
    of_wrote(unsafe { raw::tb_list_reports(from, size(text.len()), to, size(out.len())) })
}

/// A server that is to be written into a list.
#[derive(Clone, Copy, Debug, PartialEq, Eq)]
pub struct ServerEntry<'a> {
    /// What people call it, in UTF-8.
    pub name: &'a [u8],
    /// The highest version of Roughtime that it speaks; 1 is that of draft 19.
    pub version: u32,
    /// Its long-term public key.
    pub key: &'a [u8; 32],
    /// A line for each address, with a line feed at its end: `udp` or `tcp`, a blank, a host, a
    /// colon and a port.
    pub addresses: &'a [u8],
}

/// Writes the object of one server at the front of `out`, to be put into a list, and tells how many
/// bytes it has. What follows it stays.
///
/// The refusals are 24, where the name is no UTF-8 or a line is wrong, 25, where there are more than
/// [`LISTED_ADDRESSES`], and 19; then all of `out` stays.
///
/// ```
/// use trawlbeacon::{write_server, ServerEntry};
///
/// let addresses = b"udp a.example:2002\n";
/// let entry = ServerEntry { name: b"alder", version: 1, key: &[1; 32], addresses };
/// let mut out = [0; 300];
/// let length = write_server(&entry, &mut out)?;
/// assert!(out[..length].starts_with(br#"{"name":"alder","version":1,"publicKeyType":"ed25519""#));
/// assert!(out[..length].ends_with(br#":[{"protocol":"udp","address":"a.example:2002"}]}"#));
/// # Ok::<(), trawlbeacon::Refusal>(())
/// ```
pub fn write_server(entry: &ServerEntry, out: &mut [u8]) -> Result<usize, Refusal> {
    let ServerEntry { name, version, key, addresses } = *entry;
    let (lines, to) = (addresses.as_ptr(), out.as_mut_ptr());
    // SAFETY: see raw.
    of_wrote(unsafe {
        raw::tb_write_server(
            name.as_ptr(),
            size(name.len()),
            version,
            key,
            lines,
            size(addresses.len()),
            to,
            size(out.len()),
        )
    })
}

/// What a whole list is written of: as many servers as there are versions, and the parts of all one
/// after the other.
#[derive(Clone, Copy, Debug, PartialEq, Eq)]
pub struct ListParts<'a> {
    /// The long-term public keys, 32 bytes each.
    pub keys: &'a [u8],
    /// The highest version that each speaks.
    pub versions: &'a [u32],
    /// The names, in UTF-8,
    pub names: &'a [u8],
    /// and how many bytes each has.
    pub name_lengths: &'a [u32],
    /// The lines of addresses, as [`ServerEntry`] has them,
    pub addresses: &'a [u8],
    /// and how many bytes those of each server have.
    pub address_lengths: &'a [u32],
    /// A line for each URL from which newer lists may be had, with a line feed at its end.
    pub sources: &'a [u8],
    /// The URL to which reports may be sent, or nothing.
    pub reports: &'a [u8],
}

/// Writes a list at the front of `out`, and tells how many bytes it has. What follows it stays.
///
/// The refusals are 21, where keys and lengths are not those of so many servers, 24, 25 and 19; then
/// all of `out` stays.
pub fn write_servers(parts: &ListParts, out: &mut [u8]) -> Result<usize, Refusal> {
    let to = out.as_mut_ptr();
    // SAFETY: see raw; a slice of numbers has its length in numbers.
    of_wrote(unsafe {
        raw::tb_write_servers(
            parts.keys.as_ptr(),
            size(parts.keys.len()),
            parts.versions.as_ptr(),
            size(parts.versions.len()),
            parts.names.as_ptr(),
            size(parts.names.len()),
            parts.name_lengths.as_ptr(),
            size(parts.name_lengths.len()),
            parts.addresses.as_ptr(),
            size(parts.addresses.len()),
            parts.address_lengths.as_ptr(),
            size(parts.address_lengths.len()),
            parts.sources.as_ptr(),
            size(parts.sources.len()),
            parts.reports.as_ptr(),
            size(parts.reports.len()),
            to,
            size(out.len()),
        )
    })
}

fn of_wrote(wrote: raw::tb_wrote) -> Result<usize, Refusal> {
    Refusal::check(wrote.code)?;
    Ok(wrote.length as usize)
}
