//! The ways to a server: the addresses that a list has for it, with names resolved.

use crate::names::plain;
use crate::status::reason;
use std::collections::HashMap;
use std::net::{SocketAddr, ToSocketAddrs};
use trawlbeacon::{Address, Protocol};

/// So many addresses of one name are asked at. A name may have more, and not without end.
const MOST_OF_A_NAME: usize = 4;

/// An address, and how the server is asked there.
#[derive(Clone, Copy, Debug, PartialEq, Eq)]
pub struct Way {
    pub protocol: Protocol,
    pub address: SocketAddr,
}

impl Way {
    /// As it is printed.
    pub fn words(&self) -> String {
        let protocol = match self.protocol {
            Protocol::Udp => "udp",
            Protocol::Tcp => "tcp",
        };
        format!("{protocol} {}", self.address)
    }
}

/// The ways to these addresses, in the order in which they are tried, or why there is none. It may
/// take as long as the system takes to resolve a name.
pub fn of(addresses: &[Address]) -> Result<Vec<Way>, String> {
    let (mut ways, mut why) = (Vec::new(), "the list has no address of it".to_string());
    // By UDP and TCP a server has the same name as a rule, and that is looked up once.
    let mut looked_up: HashMap<&str, Result<Vec<SocketAddr>, String>> = HashMap::new();
    for Address { protocol, host_and_port } in addresses {
        let found = looked_up.entry(host_and_port).or_insert_with(|| resolved(host_and_port));
        match found {
            Ok(found) => {
                ways.extend(found.iter().map(|at| Way { protocol: *protocol, address: *at }));
            }
            Err(error) => why = error.clone(),
        }
    }
    if ways.is_empty() {
        return Err(why);
    }
    Ok(in_turn(ways))
}

fn resolved(host_and_port: &str) -> Result<Vec<SocketAddr>, String> {
    let found = host_and_port.to_socket_addrs();
    let found = found.map_err(|error| format!("{}: {}", plain(host_and_port), reason(error)))?;
    Ok(found.take(MOST_OF_A_NAME).collect())
}

/// UDP first, and where no answer comes TCP (section 5): one of each in turn, since whatever keeps
/// large datagrams out keeps them out of a server's next address, too.
fn in_turn(ways: Vec<Way>) -> Vec<Way> {
    let (udp, tcp): (Vec<Way>, Vec<Way>) =
        ways.into_iter().partition(|way| way.protocol == Protocol::Udp);
    let longer = udp.len().max(tcp.len());
    (0..longer).flat_map(|at| [udp.get(at), tcp.get(at)]).flatten().copied().collect()
}

#[cfg(test)]
mod tests {
    use super::*;

    fn address(protocol: Protocol, host_and_port: &str) -> Address {
        Address { protocol, host_and_port: host_and_port.to_string() }
    }

    #[test]
    fn one_of_each_protocol_in_turn() {
        let [udp, tcp] = [Protocol::Udp, Protocol::Tcp];
        let list = [
            address(tcp, "127.0.0.1:1"),
            address(udp, "127.0.0.1:2"),
            address(udp, "[::1]:3"),
            address(udp, "127.0.0.1:4"),
        ];
        let words: Vec<String> = of(&list).unwrap().iter().map(Way::words).collect();
        assert_eq!(words, ["udp 127.0.0.1:2", "tcp 127.0.0.1:1", "udp [::1]:3", "udp 127.0.0.1:4"]);
        let tcp_alone = of(&list[..1]).unwrap();
        assert_eq!(tcp_alone.len(), 1);
    }

    #[test]
    fn no_address_and_none_that_resolves() {
        assert_eq!(of(&[]), Err("the list has no address of it".to_string()));
        let why = of(&[address(Protocol::Udp, "no-such-host.invalid:2002")]).unwrap_err();
        assert!(why.starts_with("no-such-host.invalid:2002: "), "{why}");
    }
}
