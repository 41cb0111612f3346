//! Clocks that nobody keeps, that are far off, and that jump.

use crate::asking::{any_request, ask, connected, heard, is_silent};
use crate::folder::Folder;
use crate::server::{Server, SIGTERM};
use std::time::Duration;

#[test]
fn a_clock_that_nobody_keeps_is_not_signed() {
    let folder = Folder::with_delegation(3);
    folder.write("clock", "0 0 no");
    let mut server = Server::start(&folder, &["--test-clock", "clock"]);
    server.line("silent: the kernel says that nobody keeps its clock right");
    assert!(is_silent(server.address(), &server.key));
    // The kernel's bound, up to a whole second, one second for the fraction of MIDP, and a margin.
    for (bound, radius) in [(1000, 3), (1_000_001, 4), (5_000_000, 7)] {
        folder.write("clock", &format!("0 0 {bound}"));
        assert_eq!(ask(server.address(), &server.key).window.radi, radius);
    }
    server.line("answering, with a radius of");
    folder.write("clock", "0 0 no");
    assert!(is_silent(server.address(), &server.key));
    assert!(server.end(SIGTERM).success());
}

#[test]
fn after_a_jump_nothing_is_signed_for_a_minute() {
    let folder = Folder::with_delegation(3);
    folder.write("clock", "0 0 1000");
    let mut server = Server::start(&folder, &["--test-clock", "clock", "--sockets", "1"]);
    // Every thread has seen the clock before it is turned.
    server.line("answering, with a radius of 3 seconds");
    let before = ask(server.address(), &server.key).window;
    folder.write("clock", "500 0 1000");
    assert!(is_silent(server.address(), &server.key));
    server.line("silent for 60 seconds: the clock jumped");
    folder.write("clock", "530 30 1000");
    assert!(is_silent(server.address(), &server.key));
    // Each minute that passes is one for both clocks.
    let after = (1..20).find_map(|minutes| {
        let passed = 61 * minutes;
        folder.write("clock", &format!("{} {passed} 1000", 500 + passed));
        let (socket, request) = (connected(server.address()), any_request(&server.key));
        socket.send(&request).expect("it is sent");
        let answer = heard(&socket, Duration::from_secs(2))?;
        Some(trawlbeacon::check_signed(&server.key, &request, &answer).expect("it is valid"))
    });
    assert!(after.expect("it answers again").window.low > before.high + 500);
    assert!(server.end(SIGTERM).success());
}

#[test]
fn a_radius_that_is_told_is_signed() {
    let folder = Folder::with_delegation(3);
    let server = Server::trusting(&folder, &["--radius", "17"]);
    assert_eq!(ask(server.address(), &server.key).window.radi, 17);
    folder.write("clock", "0 0 2500000");
    let server = Server::start(&folder, &["--test-clock", "clock", "--margin", "10"]);
    assert_eq!(ask(server.address(), &server.key).window.radi, 14);
}
