//! Lists of servers, and whom they have.

use crate::evidence::read;
use crate::hints::{self, Held};
use crate::names;
use crate::status::Stop;
use std::path::PathBuf;
use trawlbeacon::{List, Refusal, LISTED_SERVERS, SERVER_LENGTH};

/// The owner's list, and the shipped one.
pub struct Lists {
    owner: Vec<u8>,
    shipped: Vec<u8>,
}

/// Where a server stands.
#[derive(Clone, Copy, Debug, PartialEq, Eq)]
pub struct Place {
    pub list: &'static str,
    pub place: usize,
}

impl Place {
    /// As it is printed, and a picture names the server.
    pub fn words(self) -> String {
        format!("{} {}", self.list, self.place)
    }
}

impl Lists {
    /// The lists in these files, one or two, each of records or in JSON.
    pub fn of(files: &[PathBuf]) -> Result<Lists, Stop> {
        let lists: Vec<Vec<u8>> = files.iter().map(|file| read(file)).collect::<Result<_, _>>()?;
        let held: Vec<Held> =
            files.iter().zip(&lists).map(|(file, list)| -> Held { (file, list) }).collect();
        let records: Vec<Held> = held.iter().copied().filter(|(_, list)| !is_json(list)).collect();
        let broken = hints::on_lists(&records);
        if !broken.is_empty() {
            return Err(Stop::refused(Refusal::Lists, &broken));
        }
        let mut lists =
            held.into_iter().map(records_of).collect::<Result<Vec<_>, _>>()?.into_iter();
        let mut next = || lists.next().unwrap_or_default();
        Ok(Lists { owner: next(), shipped: next() })
    }

    /// The records of one list.
    pub fn checked(held: Held) -> Result<Vec<u8>, Stop> {
        match hints::on_lists(&[held]) {
            broken if broken.is_empty() || is_json(held.1) => records_of(held),
            broken => Err(Stop::refused(Refusal::Lists, &broken)),
        }
    }

    /// Where a server with this long-term key stands.
    pub fn server(&self, key: &[u8; 32]) -> Option<Place> {
        let srv = trawlbeacon::srv_value(key);
        let found = trawlbeacon::find_server(&self.owner, &self.shipped, &srv).ok()?;
        let list = match found.list {
            List::Owner => "owner",
            List::Shipped => "shipped",
        };
        found.record.starts_with(key).then_some(Place { list, place: found.offset / SERVER_LENGTH })
    }
}

/// Whether bytes are a list in JSON, which begins with a bracket, and no records. Whole records could
/// begin so, too, but are hardly ever UTF-8: half of each is a hash.
pub fn is_json(bytes: &[u8]) -> bool {
    let blank = |byte: &&u8| b" \t\r\n".contains(byte);
    let marked = bytes.strip_prefix(b"\xef\xbb\xbf").unwrap_or(bytes);
    let bracket =
        marked.iter().find(|byte| !blank(byte)).map_or(false, |byte| b"{[".contains(byte));
    let whole = bytes.len() % SERVER_LENGTH == 0 && std::str::from_utf8(bytes).is_err();
    bracket && !whole && !bytes.contains(&0)
}

/// The records of a list. Of one in JSON they are those of the servers that can be asked; of one of
/// records, a record whose SRV value is not its key's is refused: such a list was tampered with, or
/// is another thing.
fn records_of((file, list): Held) -> Result<Vec<u8>, Stop> {
    if is_json(list) {
        let mut records = vec![0; LISTED_SERVERS * SERVER_LENGTH];
        let read = trawlbeacon::read_servers(list, &mut records)
            .map_err(|refusal| Stop::refused(refusal, &hints::on_list((file, list))))?;
        records.truncate(read.records * SERVER_LENGTH);
        return Ok(records);
    }
    if let Some(place) = list.chunks(SERVER_LENGTH).position(|record| !belongs(record)) {
        let file = names::file(file);
        let wrong = format!("the SRV value at place {place} is not that of the key there");
        return Err(Stop::Refused(format!("{file}: {wrong}")));
    }
    Ok(list.to_vec())
}

/// Whether the two halves of a record belong together.
fn belongs(record: &[u8]) -> bool {
    let (key, srv) = record.split_at(SERVER_LENGTH / 2);
    key.try_into().map_or(false, |key| trawlbeacon::srv_value(key) == srv)
}
