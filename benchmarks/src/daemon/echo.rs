//! The bare echo: this program once more, in a process of its own.

use super::ANSWER;
use crate::sockets;
use std::net::SocketAddr;
use std::thread;

/// The word by which this program is asked to be one; a number of sockets follows it.
pub const ECHO: &str = "--echo";

/// Answers until it is ended, a thread for each socket and a packet at a time.
pub fn echo(sockets: &str) {
    let any = SocketAddr::from(([127, 0, 0, 1], 0));
    let first = sockets::udp(&any).expect("there is a free port");
    let address = first.local_addr().expect("it is bound");
    let mut all = vec![first];
    for _ in 1..sockets.parse().unwrap_or(1) {
        all.push(sockets::udp(&address).expect("it is shared"));
    }
    println!("{address}");
    let running = all.into_iter().map(|socket| {
        thread::spawn(move || {
            let mut packet = [0; 2048];
            while let Ok((_, from)) = socket.recv_from(&mut packet) {
                // A client that is gone is not missed.
                let _ = socket.send_to(&packet[..ANSWER], from);
            }
        })
    });
    running.collect::<Vec<_>>().into_iter().for_each(|one| drop(one.join()));
}
