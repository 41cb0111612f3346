//! A request that was sent one way, and the packets that come back that way.

use super::moment::Moment;
use super::ways::Way;
use crate::frame::{frame, Frame};
use crate::poll::{self, Waited, READ};
use crate::status::reason;
use std::io::{self, ErrorKind, Read, Write};
use std::net::{SocketAddr, TcpStream, UdpSocket};
use std::os::unix::io::AsRawFd;
use std::thread;
use std::time::Duration;
use trawlbeacon::{Protocol, LONGEST_PACKET};

/// The shortest time that a connection can be told to wait.
const SHORTEST: Duration = Duration::from_millis(1);

/// So many packets at the most are taken of what waits at a socket: who floods it keeps nobody
/// waiting.
const MOST_WAITING: usize = 64;

pub struct Line {
    pub way: Way,
    end: End,
    /// What went wrong on it.
    pub failure: Option<String>,
}

/// Our end of it.
enum End {
    /// Connected, so that the system drops what comes from another address.
    Udp(UdpSocket),
    /// With what came and is no whole packet yet.
    Tcp(TcpStream, Vec<u8>),
    Closed,
}

impl Line {
    /// Sends a request, from a port of its own. It takes no longer than up to this moment.
    pub fn open(way: Way, request: &[u8], until: Moment) -> io::Result<Line> {
        let end = match way.protocol {
            Protocol::Udp => End::Udp(sent(way.address, request)?),
            Protocol::Tcp => End::Tcp(connected(way.address, request, until)?, Vec::new()),
        };
        Ok(Line { way, end, failure: None })
    }

    pub fn is_open(&self) -> bool {
        !matches!(self.end, End::Closed)
    }

    /// The packets that wait. Where none can come any more, it is closed.
    pub fn waiting(&mut self) -> Vec<Vec<u8>> {
        let mut packets = Vec::new();
        while packets.len() < MOST_WAITING {
            match self.read() {
                Some(packet) => packets.push(packet),
                None => break,
            }
        }
        packets
    }

    fn read(&mut self) -> Option<Vec<u8>> {
        let heard = match &mut self.end {
            End::Udp(socket) => datagram(socket),
            End::Tcp(stream, bytes) => packet(stream, bytes),
            End::Closed => return None,
        };
        let error = match heard {
            Ok(packet) => return packet,
            Err(error) => error,
        };
        self.failure = Some(reason(&error));
        match self.end {
            // Anybody may have told the system that nobody is there: the right answer may come yet.
            End::Udp(_) => thread::sleep(SHORTEST),
            _ => self.end = End::Closed,
        }
        None
    }

    /// What is waited for.
    fn waited(&self) -> Option<Waited> {
        match &self.end {
            End::Udp(socket) => Some(Waited::new(socket.as_raw_fd(), READ)),
            End::Tcp(stream, _) => Some(Waited::new(stream.as_raw_fd(), READ)),
            End::Closed => None,
        }
    }
}

/// Waits until something has come by one of the lines, or for so long.
pub fn wait(lines: &[Line], up_to: Duration) {
    let mut waited: Vec<Waited> = lines.iter().filter_map(Line::waited).collect();
    // Rounded up, so that nobody asks over and over in the last millisecond.
    let millis = u16::try_from(up_to.as_millis() + 1).unwrap_or(u16::MAX);
    poll::wait(&mut waited, millis);
}

fn sent(to: SocketAddr, request: &[u8]) -> io::Result<UdpSocket> {
    let any = if to.is_ipv4() { "0.0.0.0:0" } else { "[::]:0" };
    let socket = UdpSocket::bind(any)?;
    socket.connect(to)?;
    socket.send(request)?;
    socket.set_nonblocking(true)?;
    Ok(socket)
}

fn connected(to: SocketAddr, request: &[u8], until: Moment) -> io::Result<TcpStream> {
    let mut stream = TcpStream::connect_timeout(&to, until.left().max(SHORTEST))?;
    stream.set_nodelay(true)?;
    stream.set_write_timeout(Some(until.left().max(SHORTEST)))?;
    stream.write_all(request)?;
    stream.set_nonblocking(true)?;
    Ok(stream)
}

/// Nothing where none waits.
fn datagram(socket: &UdpSocket) -> io::Result<Option<Vec<u8>>> {
    // One byte more than the longest packet, so that a longer one is not cut to a good one.
    let mut packet = [0; LONGEST_PACKET + 1];
    match socket.recv(&mut packet) {
        Ok(length) => Ok(Some(packet[..length].to_vec())),
        Err(error) if is_empty(&error) => Ok(None),
        Err(error) => Err(error),
    }
}

/// Nothing where what came is no whole packet yet.
fn packet(stream: &mut TcpStream, bytes: &mut Vec<u8>) -> io::Result<Option<Vec<u8>>> {
    loop {
        if let Some(packet) = whole(bytes)? {
            return Ok(Some(packet));
        }
        let mut more = [0; LONGEST_PACKET];
        match stream.read(&mut more) {
            Ok(0) => {
                return Err(io::Error::new(ErrorKind::Other, "the server closed the connection"))
            }
            Ok(length) => bytes.extend_from_slice(&more[..length]),
            Err(error) if is_empty(&error) => return Ok(None),
            Err(error) => return Err(error),
        }
    }
}

/// The first packet of these bytes, which are left without it.
fn whole(bytes: &mut Vec<u8>) -> io::Result<Option<Vec<u8>>> {
    match frame(bytes) {
        Frame::More => Ok(None),
        Frame::Whole(length) => Ok(Some(bytes.drain(..length).collect())),
        Frame::Bad => Err(io::Error::new(ErrorKind::Other, "the server sent what is no packet")),
    }
}

/// Whether nothing waits. A signal that interrupts is no other thing.
fn is_empty(error: &io::Error) -> bool {
    [ErrorKind::WouldBlock, ErrorKind::Interrupted].contains(&error.kind())
}
