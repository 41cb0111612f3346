//! A list of servers, of which the few that are asked are looked up: each name and each address is
//! sought from the start of the text.

use crate::evidence::read_up_to;
use crate::hints;
use crate::lists;
use crate::names;
use crate::status::Stop;
use std::path::Path;
use trawlbeacon::{Address, ListedServer, Refusal, LISTED_SERVERS, SERVER_LENGTH};

/// The longest list that is read. One with 64 servers and eight addresses each has some 60 KiB.
const LONGEST: u64 = 1 << 20;

pub struct Listed {
    text: Vec<u8>,
    /// The keys of the servers that can be asked, by their places.
    keys: Vec<[u8; 32]>,
    /// How many others there are.
    pub passed_over: usize,
    /// For what is written of the text, and is no longer than that.
    room: Vec<u8>,
}

impl Listed {
    pub fn read(file: &Path) -> Result<Listed, Stop> {
        let text = read_up_to(file, LONGEST)?;
        if text.contains(&0) && !lists::is_json(&text) {
            let file = names::file(file);
            return Err(Stop::Refused(format!(
                "{file} is no list in JSON; one of records has no addresses to ask at"
            )));
        }
        let mut records = vec![0; LISTED_SERVERS * SERVER_LENGTH];
        let read = trawlbeacon::read_servers(&text, &mut records)
            .map_err(|refusal| Stop::refused(refusal, &hints::on_list((file, &text))))?;
        let records = records.chunks(SERVER_LENGTH).take(read.records);
        let keys = records.filter_map(|record| record[..32].try_into().ok()).collect();
        let room = vec![0; text.len()];
        Ok(Listed { text, keys, passed_over: read.passed_over, room })
    }

    /// The places of each server, however often its key stands there.
    pub fn servers(&self) -> Vec<Vec<usize>> {
        let mut servers: Vec<Vec<usize>> = Vec::new();
        for (place, key) in self.keys.iter().enumerate() {
            match servers.iter_mut().find(|places| self.keys[places[0]] == *key) {
                Some(places) => places.push(place),
                None => servers.push(vec![place]),
            }
        }
        servers
    }

    /// The server at these places, with all its addresses; nothing where it has none.
    pub fn server(&mut self, places: &[usize]) -> Result<Option<ListedServer>, Stop> {
        let mut addresses = Vec::new();
        for place in places {
            addresses.extend(self.addresses(*place)?);
        }
        let Some(first) = places.first().filter(|_| !addresses.is_empty()) else {
            return Ok(None);
        };
        let length = trawlbeacon::server_name(&self.text, *first, &mut self.room)?;
        Ok(Some(ListedServer { name: self.written(length), key: self.keys[*first], addresses }))
    }

    fn addresses(&mut self, place: usize) -> Result<Vec<Address>, Stop> {
        let mut addresses = Vec::new();
        while let Some(address) = self.address(place, addresses.len())? {
            addresses.push(address);
        }
        Ok(addresses)
    }

    fn address(&mut self, place: usize, which: usize) -> Result<Option<Address>, Stop> {
        match trawlbeacon::server_address(&self.text, place, which, &mut self.room) {
            Ok(told) => {
                let host_and_port = self.written(told.length);
                Ok(Some(Address { protocol: told.protocol, host_and_port }))
            }
            Err(Refusal::ListPlace) => Ok(None),
            Err(refusal) => Err(refusal.into()),
        }
    }

    /// Where reports may be sent.
    pub fn reports(&mut self) -> Option<String> {
        let length = trawlbeacon::list_reports(&self.text, &mut self.room).ok()?;
        Some(self.written(length))
    }

    /// What was written last. It is UTF-8.
    fn written(&self, length: usize) -> String {
        String::from_utf8_lossy(&self.room[..length]).into_owned()
    }
}
