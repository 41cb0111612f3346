//! UDP over IPv4 and IPv6, and from which address answers come.

use crate::asking::{ask, ask_stream, checked, connected, heard, request};
use crate::folder::Folder;
use crate::random::Random;
use crate::server::{Server, PATIENCE, SIGTERM};
use std::net::SocketAddr;
use std::time::{Duration, SystemTime, UNIX_EPOCH};

#[test]
fn both_protocols_at_one_port_of_both_families() {
    let folder = Folder::with_delegation(3);
    let listen = ["--listen", "127.0.0.1:0", "--listen", "[::1]:0", "--sockets", "2"];
    let server = Server::trusting(&folder, &listen);
    let now = || SystemTime::now().duration_since(UNIX_EPOCH).expect("it is after 1970").as_secs();
    for address in server.addresses.clone() {
        let before = now();
        for answer in [ask(address, &server.key), ask_stream(address, &server.key)] {
            let window = answer.window;
            assert_eq!(window.radi, 3);
            assert!(window.low <= before && now() <= window.high);
            assert_eq!(window.maxt - window.mint, 3 * 86_400);
        }
    }
    assert!(server.end(SIGTERM).success());
}

/// A client takes no answer from another address than it asked.
#[test]
fn answers_come_from_the_address_that_was_asked() {
    let folder = Folder::with_delegation(3);
    let server = Server::trusting(&folder, &["--listen", "0.0.0.0:0", "--no-tcp"]);
    for host in ["127.0.0.1", "127.0.0.2", "127.3.2.1"] {
        let address = SocketAddr::new(host.parse().unwrap(), server.address().port());
        ask(address, &server.key);
    }
}

/// Who deserves no answer has none, and is counted by why.
#[test]
fn what_is_not_answered_is_counted() {
    let folder = Folder::with_delegation(3);
    let words = ["--sockets", "1", "--line", "1", "--metrics", "figures"];
    let mut server = Server::trusting(&folder, &words);
    let (socket, mut random) = (connected(server.address()), Random::new(1));
    let good = request(&server.key, &mut random);
    let elsewhere = request(&[9; 32], &mut random);
    let short = independent::write::padded_request(&server.key, &[5; 32], 0);
    let longer = [&good[..], b"x"].concat();
    for packet in [&elsewhere[..], &short, b"", b"no", &longer, &[b'x'; 1500], &good] {
        socket.send(packet).expect("it is sent");
    }
    let answer = heard(&socket, PATIENCE).expect("it is answered");
    checked(&server.key, &good, &answer);
    assert!(heard(&socket, Duration::from_millis(100)).is_none());
    server.line(" asked ");
    assert!(server.end(SIGTERM).success());
    let figures = folder.read("figures");
    for (name, count) in [
        ("asked_total{transport=\"udp\"}", 7),
        ("answered_total{transport=\"udp\"}", 1),
        ("elsewhere_total{transport=\"udp\"}", 1),
        ("short_total{transport=\"udp\"}", 1),
        ("refused_total{transport=\"udp\",code=\"1\"}", 2),
        ("refused_total{transport=\"udp\",code=\"2\"}", 1),
        ("refused_total{transport=\"udp\",code=\"3\"}", 1),
        ("asked_total{transport=\"tcp\"}", 0),
    ] {
        assert!(figures.contains(&format!("\ntrawld_{name} {count}\n")), "{name}: {figures}");
    }
}
