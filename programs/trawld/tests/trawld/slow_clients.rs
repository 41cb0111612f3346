//! Clients that take their time keep nobody else waiting.

use crate::asking::{any_request, ask, ask_stream, stream};
use crate::folder::Folder;
use crate::server::{Server, SIGTERM};
use std::io::Write;
use std::time::{Duration, Instant};

/// As long as anybody else waits for an answer, and a busy machine for its turn.
const SOON: Duration = Duration::from_secs(5);

fn soon(server: &Server) {
    let start = Instant::now();
    ask(server.address(), &server.key);
    ask_stream(server.address(), &server.key);
    assert!(start.elapsed() < SOON, "{:?}", start.elapsed());
}

#[test]
fn a_byte_a_second_half_a_packet_and_a_thousand_connections() {
    let folder = Folder::with_delegation(3);
    let server = Server::trusting(&folder, &["--tcp-idle", "3600", "--metrics", "figures"]);
    let request = any_request(&server.key);
    // A byte now and then.
    let mut slow = stream(server.address());
    // Half a packet, and nothing more.
    let mut half = stream(server.address());
    half.write_all(&request[..600]).expect("it is sent");
    for byte in 0..3 {
        slow.write_all(&request[byte..=byte]).expect("it is sent");
        soon(&server);
        std::thread::sleep(Duration::from_millis(500));
    }
    // More connections than there may be: the quietest go.
    let mut crowd = Vec::new();
    for number in 0..1000 {
        let mut stream = stream(server.address());
        let _ = stream.write_all(&request[..number % 20]);
        crowd.push(stream);
        if number % 250 == 249 {
            soon(&server);
        }
    }
    // Clients that ask, and take no answer.
    let many: Vec<u8> = (0..200).flat_map(|_| request.clone()).collect();
    for stream in crowd.iter_mut().rev().take(20) {
        stream.set_write_timeout(Some(Duration::from_millis(50))).expect("it is not zero");
        let _ = stream.write_all(&many);
    }
    soon(&server);
    drop(crowd);
    soon(&server);
    assert!(server.end(SIGTERM).success());
    let figures = folder.read("figures");
    let crowded = figures.lines().find_map(|line| {
        line.strip_prefix("trawld_closed_total{why=\"crowded\"} ")?.parse::<u64>().ok()
    });
    assert!(crowded.expect("it is told") >= 500, "{figures}");
}
