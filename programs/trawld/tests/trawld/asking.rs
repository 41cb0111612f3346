//! What clients do: ask, and check what they hear by the proved library and by the implementation
//! that shares no code with it.

use crate::random::Random;
use crate::server::PATIENCE;
use independent::ed25519::Ed25519;
use std::io::{ErrorKind, Read, Write};
use std::net::{SocketAddr, TcpStream, UdpSocket};
use std::time::{Duration, Instant};
use trawlbeacon::{Checked, LONGEST_PACKET, REQUEST_LENGTH};

pub fn request(key: &[u8; 32], random: &mut Random) -> Vec<u8> {
    let mut request = vec![0; REQUEST_LENGTH];
    trawlbeacon::write_request(key, &random.array(), &mut request).expect("there is room");
    request
}

pub fn any_request(key: &[u8; 32]) -> Vec<u8> {
    let since = std::time::SystemTime::now().duration_since(std::time::UNIX_EPOCH);
    request(key, &mut Random::new(since.expect("it is after 1970").as_nanos() as u64))
}

/// What a client learns, by both.
pub fn checked(key: &[u8; 32], request: &[u8], response: &[u8]) -> Checked {
    assert!(response.len() <= request.len());
    let checked = trawlbeacon::check_signed(key, request, response).expect("it is valid");
    let other = independent::signed::check(&Ed25519::new(), key, request, response);
    let other = other.expect("it is valid").window;
    let window = checked.window;
    assert_eq!((other.low, other.high, other.maxt), (window.low, window.high, window.maxt));
    checked
}

/// A socket that sends to a server, and hears from that address alone.
pub fn connected(server: SocketAddr) -> UdpSocket {
    connected_from(if server.is_ipv4() { "127.0.0.1:0" } else { "[::1]:0" }, server)
}

/// The same from another address than loopback's.
pub fn connected_from(any: &str, server: SocketAddr) -> UdpSocket {
    let socket = UdpSocket::bind(any).expect("there is a free port");
    socket.connect(server).expect("it is an address");
    socket
}

/// The next packet, if one comes in so long.
pub fn heard(socket: &UdpSocket, patience: Duration) -> Option<Vec<u8>> {
    let mut packet = [0; LONGEST_PACKET + 1];
    socket.set_read_timeout(Some(patience)).expect("it is not zero");
    socket.recv(&mut packet).ok().map(|length| packet[..length].to_vec())
}

/// Asks over UDP, and again each second where a packet is lost, until it is answered.
pub fn ask(server: SocketAddr, key: &[u8; 32]) -> Checked {
    let (socket, request) = (connected(server), any_request(key));
    let end = Instant::now() + PATIENCE;
    while Instant::now() < end {
        let _ = socket.send(&request);
        if let Some(response) = heard(&socket, Duration::from_secs(1)) {
            return checked(key, &request, &response);
        }
    }
    panic!("{server} does not answer");
}

/// Whether nothing is answered in a while.
pub fn is_silent(server: SocketAddr, key: &[u8; 32]) -> bool {
    let socket = connected(server);
    socket.send(&any_request(key)).expect("it is sent");
    heard(&socket, Duration::from_secs(2)).is_none()
}

pub fn stream(server: SocketAddr) -> TcpStream {
    let stream = TcpStream::connect_timeout(&server, PATIENCE).expect("it connects");
    stream.set_read_timeout(Some(PATIENCE)).expect("it is not zero");
    stream.set_write_timeout(Some(PATIENCE)).expect("it is not zero");
    stream
}

/// The next packet of a stream, or nothing where it is closed.
pub fn packet(stream: &mut TcpStream) -> Option<Vec<u8>> {
    let mut packet = vec![0; 12];
    match stream.read_exact(&mut packet) {
        Ok(()) => {}
        Err(error) if error.kind() == ErrorKind::WouldBlock => panic!("nothing came"),
        Err(_) => return None,
    }
    let length = u32::from_le_bytes(packet[8..12].try_into().expect("they are four"));
    packet.resize(12 + length as usize, 0);
    stream.read_exact(&mut packet[12..]).expect("the rest comes, too");
    Some(packet)
}

/// Asks over TCP.
pub fn ask_stream(server: SocketAddr, key: &[u8; 32]) -> Checked {
    let (mut stream, request) = (stream(server), any_request(key));
    stream.write_all(&request).expect("it is sent");
    checked(key, &request, &packet(&mut stream).expect("it is answered"))
}
