//! Sockets with the options that Rust's standard library does not set.

use std::io;
use std::mem;
use std::net::{SocketAddr, TcpListener, UdpSocket};
use std::os::raw::{c_int, c_void};
use std::os::unix::io::{AsRawFd, FromRawFd, OwnedFd, RawFd};

const AF_INET: c_int = 2;
const AF_INET6: c_int = 10;
const SOCK_STREAM: c_int = 1;
const SOCK_DGRAM: c_int = 2;
const SOCK_CLOEXEC: c_int = 0o2_000_000;
const SOL_SOCKET: c_int = 1;
const SO_REUSEADDR: c_int = 2;
const SO_RCVBUF: c_int = 8;
const SO_REUSEPORT: c_int = 15;
const SO_MEMINFO: c_int = 55;
const IPPROTO_IP: c_int = 0;
const IP_PKTINFO: c_int = 8;
const IPPROTO_IPV6: c_int = 41;
const IPV6_V6ONLY: c_int = 26;
const IPV6_RECVPKTINFO: c_int = 49;

/// Where SO_MEMINFO says how many packets the system dropped, and how many numbers it says.
const DROPS: usize = 8;
const MEMINFO: usize = 9;

/// Room that is asked for packets that wait: some two batches. The system gives what it allows.
const WAITING: c_int = 4 << 20;

/// Connections that may wait to be taken.
const BACKLOG: c_int = 1024;

extern "C" {
    fn socket(family: c_int, kind: c_int, protocol: c_int) -> c_int;
    fn bind(socket: c_int, name: *const c_void, length: u32) -> c_int;
    fn listen(socket: c_int, backlog: c_int) -> c_int;
    fn setsockopt(at: c_int, level: c_int, name: c_int, value: *const c_void, of: u32) -> c_int;
    fn getsockopt(at: c_int, level: c_int, name: c_int, value: *mut c_void, of: *mut u32) -> c_int;
}

fn told(result: c_int) -> io::Result<c_int> {
    if result == -1 {
        Err(io::Error::last_os_error())
    } else {
        Ok(result)
    }
}

fn set(socket: &OwnedFd, level: c_int, name: c_int, value: c_int) -> io::Result<()> {
    let (at, of) = (&value as *const c_int, mem::size_of::<c_int>() as u32);
    // SAFETY: the value is lent for the call, with its length.
    told(unsafe { setsockopt(socket.as_raw_fd(), level, name, at.cast(), of) }).map(|_| ())
}

/// The address as the system has it: a family, a port and a host, in 16 bytes or 28.
fn name(address: &SocketAddr) -> Vec<u8> {
    let family = |number: c_int| (number as u16).to_ne_bytes();
    let port = address.port().to_be_bytes();
    match address {
        SocketAddr::V4(four) => {
            [&family(AF_INET)[..], &port, &four.ip().octets(), &[0; 8]].concat()
        }
        SocketAddr::V6(six) => {
            let (flow, scope) = (six.flowinfo().to_be_bytes(), six.scope_id().to_ne_bytes());
            [&family(AF_INET6)[..], &port, &flow, &six.ip().octets(), &scope].concat()
        }
    }
}

/// A socket of this kind for the address's family, that takes no IPv4 where it takes IPv6: so both
/// can be had at one port.
fn made(address: &SocketAddr, kind: c_int) -> io::Result<OwnedFd> {
    let family = if address.is_ipv4() { AF_INET } else { AF_INET6 };
    // SAFETY: no pointer is passed, and the descriptor is nobody else's.
    let made = unsafe { OwnedFd::from_raw_fd(told(socket(family, kind | SOCK_CLOEXEC, 0))?) };
    if address.is_ipv6() {
        set(&made, IPPROTO_IPV6, IPV6_V6ONLY, 1)?;
    }
    Ok(made)
}

fn bound(socket: OwnedFd, address: &SocketAddr) -> io::Result<OwnedFd> {
    let name = name(address);
    // SAFETY: the name is lent for the call, with its length.
    told(unsafe { bind(socket.as_raw_fd(), name.as_ptr().cast(), name.len() as u32) })?;
    Ok(socket)
}

/// A UDP socket among which and others of its address the system shares out what comes. Where it is
/// one of all addresses, it says of each packet to which of them it was sent.
pub fn udp(address: &SocketAddr) -> io::Result<UdpSocket> {
    let socket = made(address, SOCK_DGRAM)?;
    set(&socket, SOL_SOCKET, SO_REUSEPORT, 1)?;
    // Where less is allowed, less is what there is.
    let _ = set(&socket, SOL_SOCKET, SO_RCVBUF, WAITING);
    match address {
        _ if !address.ip().is_unspecified() => {}
        SocketAddr::V4(_) => set(&socket, IPPROTO_IP, IP_PKTINFO, 1)?,
        SocketAddr::V6(_) => set(&socket, IPPROTO_IPV6, IPV6_RECVPKTINFO, 1)?,
    }
    bound(socket, address).map(UdpSocket::from)
}

/// A TCP socket that takes connections, and waits for none. No other server may have its port: so a
/// second one that is started by mistake says so.
pub fn tcp(address: &SocketAddr) -> io::Result<TcpListener> {
    let socket = made(address, SOCK_STREAM)?;
    set(&socket, SOL_SOCKET, SO_REUSEADDR, 1)?;
    let socket = bound(socket, address)?;
    // SAFETY: no pointer is passed.
    told(unsafe { listen(socket.as_raw_fd(), BACKLOG) })?;
    let listener = TcpListener::from(socket);
    listener.set_nonblocking(true)?;
    Ok(listener)
}

/// How many packets the system dropped at a socket since it was made, or 0 where it does not say.
pub fn dropped(socket: RawFd) -> u64 {
    let (mut numbers, mut length) = ([0u32; MEMINFO], (4 * MEMINFO) as u32);
    let at = numbers.as_mut_ptr().cast();
    // SAFETY: both are lent for the call, and the length is that of the numbers.
    unsafe { getsockopt(socket, SOL_SOCKET, SO_MEMINFO, at, &mut length) };
    u64::from(numbers[DROPS])
}
