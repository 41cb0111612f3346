//! What a list of servers is written of: the parts of all servers one after the other, with their
//! lengths.

use independent::list_text::{Listed, Server};
use independent::list_writing::Parts;

/// The parts, as they are lent to a writer.
#[derive(Clone, Debug, Default, PartialEq, Eq)]
pub struct Owned {
    pub keys: Vec<u8>,
    pub versions: Vec<u32>,
    pub names: Vec<u8>,
    pub name_lengths: Vec<u32>,
    pub addresses: Vec<u8>,
    pub address_lengths: Vec<u32>,
    pub sources: Vec<u8>,
    pub reports: Vec<u8>,
}

/// A line for each address of a server.
pub fn lines(server: &Server) -> Vec<u8> {
    let line = |tcp: bool, text: &[u8]| [if tcp { b"tcp " } else { b"udp " }, text, b"\n"].concat();
    server.addresses.iter().flat_map(|address| line(address.tcp, &address.text)).collect()
}

impl Owned {
    /// Those of a list. A version that is no number of 32 bits is 1, and keys are as they are.
    pub fn of(listed: &Listed) -> Owned {
        let mut parts = Owned::default();
        for server in &listed.servers {
            let (name, lines) = (&server.name, lines(server));
            let version = String::from_utf8_lossy(&server.version).parse().unwrap_or(1);
            parts.versions.push(version);
            parts.keys.extend(&server.key);
            parts.name_lengths.push(name.len() as u32);
            parts.names.extend(name);
            parts.address_lengths.push(lines.len() as u32);
            parts.addresses.extend(lines);
        }
        parts.sources = listed.sources.iter().flat_map(|url| [&url[..], b"\n"].concat()).collect();
        parts.reports = listed.reports.clone().unwrap_or_default();
        parts
    }

    pub fn lent(&self) -> Parts<'_> {
        Parts {
            keys: &self.keys,
            versions: &self.versions,
            names: &self.names,
            name_lengths: &self.name_lengths,
            addresses: &self.addresses,
            address_lengths: &self.address_lengths,
            sources: &self.sources,
            reports: &self.reports,
        }
    }
}
