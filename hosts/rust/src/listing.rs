//! A list of servers with all that is in it.

use alloc::string::String;
use alloc::vec;
use alloc::vec::Vec;

use crate::server_lists::{self as lists, Addressed, ListParts, Protocol, LISTED_SERVERS};
use crate::{srv_value, Refusal, SERVER_LENGTH};

/// An address of a server.
#[derive(Clone, Debug, PartialEq, Eq, Hash)]
pub struct Address {
    /// How the server is asked there.
    pub protocol: Protocol,
    /// A host, a colon and a port. What resolves names takes it as it is; an IPv6 address stands in
    /// brackets.
    pub host_and_port: String,
}

/// A server of a list.
#[derive(Clone, Debug, PartialEq, Eq, Hash)]
pub struct ListedServer {
    /// What people call it. It may hold any characters, and should not go to a terminal as it is.
    pub name: String,
    /// Its long-term public key.
    pub key: [u8; 32],
    /// Where it is.
    pub addresses: Vec<Address>,
}

/// A list of servers, as it is published (draft 19, section 8.3): those that can be asked, in its
/// order, and what else it says.
///
/// ```
/// use trawlbeacon::{find_server, srv_value, Protocol, ServerList};
///
/// # let vectors = concat!(env!("CARGO_MANIFEST_DIR"), "/../../vectors");
/// # let text = std::fs::read(format!("{vectors}/server-list.json")).unwrap();
/// // The list of draft 19, appendix A.
/// let list = ServerList::read(&text)?;
/// for server in &list.servers {
///     let by_udp = server.addresses.iter().filter(|at| at.protocol == Protocol::Udp);
///     assert!(by_udp.count() > 0, "{} is asked by TCP alone", server.name);
/// }
/// assert_eq!(list.servers[1].addresses[0].host_and_port, "192.0.2.33:2002");
/// assert_eq!(list.reports.as_deref(), Some("https://www.example.net/roughtime/malfeasance"));
///
/// // A server by its SRV value, and the list as text again.
/// let (records, srv) = (list.records(), srv_value(&list.servers[1].key));
/// assert_eq!(find_server(&records, &[], &srv)?.offset, 64);
/// assert_eq!(ServerList::read(list.write()?.as_bytes()), Ok(list));
/// # Ok::<(), trawlbeacon::Refusal>(())
/// ```
#[derive(Clone, Debug, Default, PartialEq, Eq)]
pub struct ServerList {
    /// The servers that can be asked.
    pub servers: Vec<ListedServer>,
    /// The URLs from which newer lists may be had.
    pub sources: Vec<String>,
    /// The URL to which reports may be sent.
    pub reports: Option<String>,
    /// How many servers were passed over, since they speak another version or have a key of another
    /// kind. Nothing is written of them.
    pub passed_over: usize,
}

/// What a call writes into a buffer, as text. It wrote UTF-8.
fn text<T>(
    room: &mut [u8],
    write: impl FnOnce(&mut [u8]) -> Result<T, Refusal>,
    length: impl FnOnce(&T) -> usize,
) -> Result<(T, String), Refusal> {
    let told = write(room)?;
    let written = String::from_utf8_lossy(&room[..length(&told)]).into_owned();
    Ok((told, written))
}

/// What stands at each place, up to the one at which there is nothing.
fn all<T>(mut at: impl FnMut(usize) -> Result<T, Refusal>) -> Result<Vec<T>, Refusal> {
    let mut found = Vec::new();
    loop {
        match at(found.len()) {
            Ok(one) => found.push(one),
            Err(Refusal::ListPlace) => return Ok(found),
            Err(refusal) => return Err(refusal),
        }
    }
}

impl ServerList {
    /// The list that a text is. The refusals are 24 and 25. Its time grows with the length times the
    /// number of sources: bound what you read of others before.
    pub fn read(from: &[u8]) -> Result<ServerList, Refusal> {
        let mut records = [0; LISTED_SERVERS * SERVER_LENGTH];
        let read = lists::read_servers(from, &mut records)?;
        // Nothing that is written is longer than the text.
        let mut room = vec![0; from.len()];
        let mut servers = Vec::with_capacity(read.records);
        for (place, record) in records.chunks(SERVER_LENGTH).take(read.records).enumerate() {
            let mut key = [0; 32];
            key.copy_from_slice(&record[..32]);
            let name = text(&mut room, |out| lists::server_name(from, place, out), |n| *n)?.1;
            let addresses = all(|which| {
                let told = text(
                    &mut room,
                    |out| lists::server_address(from, place, which, out),
                    |told: &Addressed| told.length,
                );
                told.map(|(told, host_and_port)| Address { protocol: told.protocol, host_and_port })
            })?;
            servers.push(ListedServer { name, key, addresses });
        }
        let sources = all(|place| {
            text(&mut room, |out| lists::list_source(from, place, out), |n| *n).map(|told| told.1)
        })?;
        let reports = match text(&mut room, |out| lists::list_reports(from, out), |n| *n) {
            Ok((_, url)) => Some(url),
            Err(Refusal::ListPlace) => None,
            Err(refusal) => return Err(refusal),
        };
        Ok(ServerList { servers, sources, reports, passed_over: read.passed_over })
    }

    /// The records of the servers, in order, as [`find_server`](crate::find_server) takes them.
    #[must_use]
    pub fn records(&self) -> Vec<u8> {
        self.servers
            .iter()
            .flat_map(|server| [server.key, srv_value(&server.key)].concat())
            .collect()
    }

    /// The list as text, with no blanks. Each server's version is 1. The refusals are 21, where a
    /// name or a server's addresses have 2^32 bytes or more, 24, where an address or a URL is none,
    /// and 25.
    pub fn write(&self) -> Result<String, Refusal> {
        if !self.is_lines() {
            return Err(Refusal::ReportText);
        }
        let owned = Owned::of(self);
        let mut out = vec![0; owned.room()];
        let length = lists::write_servers(&owned.parts(), &mut out)?;
        out.truncate(length);
        Ok(String::from_utf8_lossy(&out).into_owned())
    }
}

impl ServerList {
    /// Whether each address and each source is one line, and where reports go is not empty: else the
    /// text would be another list's.
    fn is_lines(&self) -> bool {
        let mut addresses = self.servers.iter().flat_map(|server| &server.addresses);
        addresses.all(|address| !address.host_and_port.contains('\n'))
            && self.sources.iter().all(|url| !url.contains('\n'))
            && self.reports.as_deref() != Some("")
    }
}

/// What a list is written of.
#[derive(Default)]
struct Owned {
    keys: Vec<u8>,
    versions: Vec<u32>,
    names: Vec<u8>,
    name_lengths: Vec<u32>,
    addresses: Vec<u8>,
    address_lengths: Vec<u32>,
    sources: Vec<u8>,
    reports: Vec<u8>,
}

/// The length of a part. What is too long for it is refused with 21, since the sum is another then.
fn length(part: usize) -> u32 {
    u32::try_from(part).unwrap_or(u32::MAX)
}

impl Owned {
    fn of(list: &ServerList) -> Owned {
        let mut owned = Owned::default();
        for server in &list.servers {
            let before = owned.addresses.len();
            for Address { protocol, host_and_port } in &server.addresses {
                let word: &[u8] = match protocol {
                    Protocol::Udp => b"udp ",
                    Protocol::Tcp => b"tcp ",
                };
                owned.addresses.extend([word, host_and_port.as_bytes(), b"\n"].concat());
            }
            owned.address_lengths.push(length(owned.addresses.len() - before));
            owned.names.extend(server.name.as_bytes());
            owned.name_lengths.push(length(server.name.len()));
            owned.keys.extend(server.key);
            owned.versions.push(1);
        }
        for url in &list.sources {
            owned.sources.extend([url.as_bytes(), b"\n"].concat());
        }
        owned.reports.extend(list.reports.iter().flat_map(|url| url.bytes()));
        owned
    }

    /// Room for the text: a byte of a name takes six at the most, and around it stand some 150 for a
    /// server, 40 for a line of an address, which has 8 or more, 2 for one of a source, and 60.
    fn room(&self) -> usize {
        let servers = 200 * self.versions.len() + 6 * self.names.len() + 8 * self.addresses.len();
        servers + 4 * self.sources.len() + self.reports.len() + 100
    }

    fn parts(&self) -> ListParts<'_> {
        ListParts {
            keys: &self.keys,
            versions: &self.versions,
            names: &self.names,
            name_lengths: &self.name_lengths,
            addresses: &self.addresses,
            address_lengths: &self.address_lengths,
            sources: &self.sources,
            reports: &self.reports,
        }
    }
}
