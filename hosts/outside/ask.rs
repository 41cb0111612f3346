//! Asks one Roughtime server for the time over UDP, and prints the window of the time.
//!
//!     cargo init --name ask
//!     cargo add --path PREFIX/share/trawlbeacon/rust
//!     cp ask.rs src/main.rs
//!     cargo run KEY HOST:PORT
//!
//! KEY is the server's long-term public key, 64 digits of hex. One server can lie: the program
//! trawl asks several, and tells the time although some of them do.

use std::error::Error;
use std::fs::File;
use std::io::{stdout, Read, Write};
use std::net::{SocketAddr, ToSocketAddrs, UdpSocket};
use std::time::Duration;
use trawlbeacon::{LONGEST_PACKET, REQUEST_LENGTH};

type Failure = Box<dyn Error>;

/// Reads 64 digits of hex.
fn key_of(digits: &str) -> Result<[u8; 32], Failure> {
    let mut key = [0; 32];
    if digits.len() != 64 || !digits.bytes().all(|c| c.is_ascii_hexdigit()) {
        return Err("a key is 64 digits of hex".into());
    }
    for (byte, place) in key.iter_mut().zip((0..64).step_by(2)) {
        *byte = u8::from_str_radix(&digits[place..place + 2], 16)?;
    }
    Ok(key)
}

/// 32 bytes of the system's random source.
fn random() -> Result<[u8; 32], Failure> {
    let mut bytes = [0; 32];
    File::open("/dev/urandom")?.read_exact(&mut bytes)?;
    Ok(bytes)
}

/// A socket for a server, on which a wait ends after a second.
fn open_socket(server: SocketAddr) -> Result<UdpSocket, Failure> {
    let any = if server.is_ipv4() { "0.0.0.0:0" } else { "[::]:0" };
    let udp = UdpSocket::bind(any)?;
    udp.connect(server)?;
    udp.set_read_timeout(Some(Duration::from_secs(1)))?;
    Ok(udp)
}

fn main() -> Result<(), Failure> {
    let words: Vec<String> = std::env::args().skip(1).collect();
    let [key, server] = &words[..] else { return Err("usage: ask KEY HOST:PORT".into()) };
    let key = key_of(key)?;
    let udp = open_socket(server.to_socket_addrs()?.next().ok_or("no such server")?)?;
    let mut request = [0; REQUEST_LENGTH];
    let mut response = [0; LONGEST_PACKET + 1]; // one byte more: what is too long is refused
    trawlbeacon::write_request(&key, &random()?, &mut request)?;
    udp.send(&request)?;
    let length = udp.recv(&mut response)?;
    let said = trawlbeacon::check_signed(&key, &request, &response[..length])?;
    writeln!(stdout(), "the time is from {} to {}", said.window.low, said.window.high)?;
    Ok(stdout().flush()?)
}
