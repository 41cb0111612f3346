//! What a list of servers has, a line for each thing.

use crate::evidence::read;
use crate::flags::Flags;
use crate::hints;
use crate::keys::hex;
use crate::lists::{self, Lists};
use crate::names::plain;
use crate::output;
use crate::status::{Ended, Stop};
use crate::why_list;
use std::path::PathBuf;
use trawlbeacon::{Protocol, ServerList, SERVER_LENGTH};

pub fn run(flags: &Flags) -> Result<Ended, Stop> {
    let file = PathBuf::from(&flags.words[0]);
    let bytes = read(&file)?;
    let lines = if lists::is_json(&bytes) {
        let list = ServerList::read(&bytes)
            .map_err(|refusal| Stop::refused(refusal, &hints::on_list((&file, &bytes))))?;
        of_json(&list, &why_list::passed_over(&bytes))
    } else {
        of_records(&Lists::checked((&file, &bytes))?)
    };
    output::print(lines.concat().as_bytes())
}

/// The key of a server, and its SRV value.
fn keyed(key: &[u8; 32]) -> String {
    format!("key {}\nsrv {}\n", hex(key), hex(&trawlbeacon::srv_value(key)))
}

fn of_records(records: &[u8]) -> Vec<String> {
    let keys = records.chunks(SERVER_LENGTH).filter_map(|record| record[..32].try_into().ok());
    let servers = keys.enumerate().map(|(place, key)| format!("server {place}\n{}", keyed(key)));
    let count = format!("servers {}\n", records.len() / SERVER_LENGTH);
    [count].into_iter().chain(servers).collect()
}

/// Names hold what their list has, which may be anything, and are printed with nothing that steers a
/// terminal. Which servers are passed over the library does not tell but by their number.
fn of_json(list: &ServerList, passed_over: &[String]) -> Vec<String> {
    let mut lines = vec![format!("servers {}\n", list.servers.len())];
    for (place, server) in list.servers.iter().enumerate() {
        let line = format!("server {place} {}", plain(&server.name));
        lines.push(format!("{}\n{}", line.trim_end(), keyed(&server.key)));
        lines.extend(server.addresses.iter().map(|address| {
            let protocol = match address.protocol {
                Protocol::Udp => "udp",
                Protocol::Tcp => "tcp",
            };
            format!("{protocol} {}\n", address.host_and_port)
        }));
    }
    lines.push(format!("passed {}\n", list.passed_over));
    if passed_over.len() == list.passed_over {
        lines.extend(passed_over.iter().map(|server| format!("over {server}\n")));
    }
    lines.extend(list.sources.iter().map(|url| format!("source {url}\n")));
    lines.extend(list.reports.iter().map(|url| format!("reports {url}\n")));
    lines
}
