//! Questions about lists of servers as JSON, put to both sides.

use super::answers::{self, Both, Said, Written};
use super::Xorshift;
use independent::list_text::{self, Cause, Listed};
use independent::list_writing::{self, Parts};
use independent::write;
use trawlbeacon::{ListParts, Protocol, ServerEntry};

/// How many records were written, and how many servers passed over.
#[derive(Clone, Copy, Debug, PartialEq, Eq)]
pub struct Records(pub usize, pub usize);

impl Said for Records {
    fn say(&self) -> String {
        format!("{} records written, {} servers passed over", self.0, self.1)
    }
}

/// Whether an address is one of TCP, and how many bytes it has.
#[derive(Clone, Copy, Debug, PartialEq, Eq)]
pub struct Addressed(pub bool, pub usize);

impl Said for Addressed {
    fn say(&self) -> String {
        format!("{} bytes of {}", self.1, if self.0 { "TCP" } else { "UDP" })
    }
}

/// A buffer for what needs this much room: it has enough, too little by a byte or more, or more
/// than enough. Of its bytes no two neighbours are equal.
pub fn buffer(random: &mut Xorshift, needed: usize) -> Vec<u8> {
    let (less, more) = (random.below(needed + 1), random.below(100));
    let room = match random.below(12) {
        0 => needed.saturating_sub(1),
        1 => less,
        2 => 0,
        3..=6 => needed,
        _ => needed + more,
    };
    let start = random.below(256);
    (0..room).map(|at| (start + at + at / 64) as u8).collect()
}

/// A text, and what the independent side read of it, so that it does so once.
#[derive(Clone, Copy)]
pub struct Asked<'a> {
    pub text: &'a [u8],
    pub read: &'a Result<Listed, Cause>,
}

impl Asked<'_> {
    pub fn records(self, buffer: &[u8]) -> Both<Written<Records>> {
        answers::write_both(
            buffer,
            None,
            |out| {
                let told = trawlbeacon::read_servers(self.text, out);
                told.map(|told| Records(told.records, told.passed_over))
            },
            |out| list_text::records(self.read, out).map(|(count, over)| Records(count, over)),
        )
    }

    pub fn name(self, place: usize, buffer: &[u8]) -> Both<Written> {
        answers::write_both(
            buffer,
            None,
            |out| trawlbeacon::server_name(self.text, place, out),
            |out| list_text::name(self.read, place, out),
        )
    }

    pub fn address(self, place: usize, which: usize, buffer: &[u8]) -> Both<Written<Addressed>> {
        answers::write_both(
            buffer,
            None,
            |out| {
                let told = trawlbeacon::server_address(self.text, place, which, out);
                told.map(|told| Addressed(told.protocol == Protocol::Tcp, told.length))
            },
            |out| {
                let told = list_text::address_at(self.read, place, which, out);
                told.map(|(tcp, length)| Addressed(tcp, length))
            },
        )
    }

    pub fn source(self, place: usize, buffer: &[u8]) -> Both<Written> {
        answers::write_both(
            buffer,
            None,
            |out| trawlbeacon::list_source(self.text, place, out),
            |out| list_text::source_at(self.read, place, out),
        )
    }

    pub fn reports(self, buffer: &[u8]) -> Both<Written> {
        answers::write_both(
            buffer,
            None,
            |out| trawlbeacon::list_reports(self.text, out),
            |out| list_text::reports(self.read, out),
        )
    }
}

/// One server, written.
pub fn write_server(server: &list_writing::Written, buffer: &[u8]) -> Both<Written> {
    let list_writing::Written { name, version, key, addresses } = *server;
    answers::write_both(
        buffer,
        None,
        |out| trawlbeacon::write_server(&ServerEntry { name, version, key, addresses }, out),
        |out| list_writing::server(server).and_then(|text| write::put(&text, out)),
    )
}

/// A whole list, written.
pub fn write_servers(parts: &Parts, buffer: &[u8]) -> Both<Written> {
    let Parts { keys, versions, names, name_lengths, addresses, address_lengths, sources, reports } =
        *parts;
    let lent = ListParts {
        keys,
        versions,
        names,
        name_lengths,
        addresses,
        address_lengths,
        sources,
        reports,
    };
    answers::write_both(
        buffer,
        None,
        |out| trawlbeacon::write_servers(&lent, out),
        |out| list_writing::list_of(parts).and_then(|text| write::put(&text, out)),
    )
}
