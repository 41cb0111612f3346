//! TCP: packets one after the other (draft 19, section 5), and what ends a connection.

use crate::asking::{any_request, ask_stream, checked, packet, request, stream};
use crate::folder::Folder;
use crate::random::Random;
use crate::server::{Server, SIGTERM};
use std::io::{Read, Write};
use std::net::Shutdown;
use std::time::Duration;

#[test]
fn many_requests_over_one_connection() {
    let folder = Folder::with_delegation(3);
    let server = Server::trusting(&folder, &[]);
    let (mut stream, mut random) = (stream(server.address()), Random::new(3));
    let requests: Vec<Vec<u8>> = (0..40).map(|_| request(&server.key, &mut random)).collect();
    // Some are to another server and have no answer, and the others are answered all the same.
    let mut sent = Vec::new();
    for request in &requests {
        sent.extend_from_slice(request);
        sent.extend(crate::asking::request(&[9; 32], &mut random));
    }
    // In pieces that end anywhere.
    for piece in sent.chunks(1500) {
        stream.write_all(piece).expect("it is sent");
    }
    // What was sent is answered though nothing more is to come.
    stream.shutdown(Shutdown::Write).expect("it is ours");
    for request in &requests {
        checked(&server.key, request, &packet(&mut stream).expect("it is answered"));
    }
    assert_eq!(packet(&mut stream), None);
    assert!(server.end(SIGTERM).success());
}

#[test]
fn what_is_no_request_ends_a_connection() {
    let folder = Folder::with_delegation(3);
    let server = Server::trusting(&folder, &["--metrics", "figures"]);
    let good = any_request(&server.key);
    let no_nonce = [&b"ROUGHTIM"[..], &4u32.to_le_bytes(), &[0; 4]].concat();
    let long = [&b"ROUGHTIM"[..], &2000u32.to_le_bytes()].concat();
    for bad in [&b"GET / HTTP/1.1\r\n\r\n"[..], &no_nonce, &long] {
        let mut stream = stream(server.address());
        // What comes before it is answered.
        stream.write_all(&[&good, bad].concat()).expect("it is sent");
        checked(&server.key, &good, &packet(&mut stream).expect("it is answered"));
        assert_eq!(packet(&mut stream), None);
    }
    assert!(server.end(SIGTERM).success());
    assert!(folder.read("figures").contains("\ntrawld_closed_total{why=\"broken\"} 3\n"));
}

#[test]
fn time_and_bytes_of_a_connection_are_limited() {
    let folder = Folder::with_delegation(3);
    let limits = ["--tcp-idle", "3", "--tcp-bytes", "5000", "--metrics", "figures"];
    let server = Server::trusting(&folder, &limits);
    let mut quiet = stream(server.address());
    quiet.write_all(&any_request(&server.key)[..500]).expect("it is sent");
    // It is closed, and not by us.
    assert_eq!(quiet.read(&mut [0; 1]).unwrap_or(0), 0);
    let mut long = stream(server.address());
    long.set_write_timeout(Some(Duration::from_secs(1))).expect("it is not zero");
    let mut answers = 0;
    for _ in 0..100 {
        let request = any_request(&server.key);
        if long.write_all(&request).is_err() {
            break;
        }
        let Some(answer) = packet(&mut long) else { break };
        checked(&server.key, &request, &answer);
        answers += 1;
    }
    assert_eq!(answers, 5);
    ask_stream(server.address(), &server.key);
    assert!(server.end(SIGTERM).success());
    let figures = folder.read("figures");
    assert!(figures.contains("\ntrawld_closed_total{why=\"long\"} 1\n"), "{figures}");
    assert!(figures.contains("\ntrawld_closed_total{why=\"late\"} 1\n"), "{figures}");
}
