//! The sockets that a server listens at: for each address UDP as often as it is told, and TCP.

use crate::sockets;
use crate::stop::{failed, Stop};
use std::io::{self, ErrorKind};
use std::net::{SocketAddr, TcpListener, UdpSocket};
use std::sync::Arc;

/// How often another port is tried, where the system was asked for any and gave one for UDP that is
/// taken for TCP.
const TRIES: usize = 16;

#[derive(Debug)]
pub struct Listening {
    pub address: SocketAddr,
    pub udp: Vec<Arc<UdpSocket>>,
    pub tcp: Option<TcpListener>,
}

fn once(address: SocketAddr, sockets: usize, tcp: bool) -> io::Result<Listening> {
    let first = sockets::udp(&address)?;
    let address = first.local_addr()?;
    let mut udp = vec![Arc::new(first)];
    for _ in 1..sockets {
        udp.push(Arc::new(sockets::udp(&address)?));
    }
    let tcp = if tcp { Some(sockets::tcp(&address)?) } else { None };
    Ok(Listening { address, udp, tcp })
}

pub fn listen(address: SocketAddr, sockets: usize, tcp: bool) -> Result<Listening, Stop> {
    let mut made = once(address, sockets, tcp);
    for _ in 1..TRIES {
        let taken = matches!(&made, Err(error) if error.kind() == ErrorKind::AddrInUse);
        if address.port() != 0 || !taken {
            break;
        }
        made = once(address, sockets, tcp);
    }
    made.or_else(|error| {
        failed(format!(
            "cannot listen at {address}: {error}; --listen names another address or port"
        ))
    })
}
