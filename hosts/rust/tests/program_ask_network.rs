//! `trawl --ask` where the network is not as it should be: slow, lossy, damaging, with answers from
//! another port; and by TCP alone, by names, and over IPv6.

#[path = "support/asked.rs"]
mod asked;
#[path = "support/room.rs"]
mod room;
#[path = "support/time_servers.rs"]
mod time_servers;

use asked::{ask, ask_json};
use room::Room;
use std::net::{Ipv6Addr, ToSocketAddrs, UdpSocket};
use std::time::Duration;
use time_servers::{honest, lent, list, list_of, Plan, Server};
use trawlbeacon::Protocol;

#[test]
fn one_answers_by_tcp_alone() {
    let (room, [a, b]) = (Room::new("tcp"), honest(["alder", "birch"]));
    let c = Plan { udp: false, ..Plan::new("cedar") }.start();
    let (json, told) = ask_json(&room, &list(&[&a, &b, &c]), &[]);
    assert_eq!(told.status, Some(0), "{}", told.said);
    assert!(json.holds_now() && json.is_true("exact"));
    assert_eq!(json.text("walk.outcome"), "consistent");
    assert_eq!(json.server("cedar").text("by"), format!("tcp {}", c.address));
    // Once UDP has failed, it is asked at once by what it answers.
    assert_eq!((c.asked(Protocol::Udp), c.asked(Protocol::Tcp)), (1, 3));
    // One that a list has with UDP alone is asked by nothing else.
    let udp = [&a, &b, &c].map(|one| one.listed_by(Protocol::Udp)).to_vec();
    let (json, _) = ask_json(&room, &list_of(udp), &["--within", "3"]);
    assert!(json.server("cedar").is_null("by"));
    assert_eq!(c.asked(Protocol::Tcp), 3);
    // And one with TCP alone by that.
    let tcp = [&a, &b, &c].map(|one| one.listed_by(Protocol::Tcp)).to_vec();
    let (json, told) = ask_json(&room, &list_of(tcp), &[]);
    assert_eq!(told.status, Some(0), "{}", told.said);
    assert!(json.server("alder").text("by").starts_with("tcp "));
}

#[test]
fn what_is_no_packet_over_tcp_is_no_answer() {
    let (room, [a, b, d]) = (Room::new("nonsense"), honest(["alder", "birch", "dogwood"]));
    let c = Plan { udp: false, tcp: false, nonsense: b"HTTP/1.1 400\r\n", ..Plan::new("cedar") };
    let c = c.start();
    let (json, told) = ask_json(&room, &list(&[&a, &b, &c, &d]), &["--within", "10"]);
    assert_eq!(told.status, Some(0), "{}", told.said);
    let failure = json.server("cedar").text("failure");
    assert!(
        failure.starts_with("tcp ") && failure.ends_with("sent what is no packet"),
        "{failure}"
    );
}

/// Each loses the first request, and the second is a second later.
#[test]
fn what_is_lost_is_sent_again() {
    let room = Room::new("lossy");
    let servers =
        ["alder", "birch", "cedar"].map(|name| Plan { loses: 1, ..Plan::new(name) }.start());
    let udp = lent(&servers).map(|one| one.listed_by(Protocol::Udp)).to_vec();
    let (json, told) = ask_json(&room, &list_of(udp), &[]);
    assert_eq!(told.status, Some(0), "{}", told.said);
    assert!(json.holds_now());
    assert_eq!(json.text("walk.outcome"), "consistent");
    assert!(json.number("thereAfter") >= 1_000_000);
}

/// Whoever can send packets does not shut out the right one, and gains no haste by it.
#[test]
fn damaged_packets_are_counted_and_waited_past() {
    let room = Room::new("damaged");
    let servers =
        ["alder", "birch", "cedar"].map(|name| Plan { damages: 20, ..Plan::new(name) }.start());
    let (json, told) = ask_json(&room, &list(&lent(&servers)), &[]);
    assert_eq!(told.status, Some(0), "{}", told.said);
    assert!(json.holds_now());
    for name in ["alder", "birch", "cedar"] {
        let server = json.server(name);
        // 20 of each of three exchanges.
        assert_eq!((server.number("refused"), server.number("sent")), (60, 3), "{server:?}");
        assert!(server.number("refusal.code") > 0);
    }
    let told = ask(&room, &list(&lent(&servers)), &[]);
    assert!(
        told.out.contains("\nrefused  60 packets of alder, the last with code "),
        "{}",
        told.out
    );
}

/// It takes as long as an answer took, and the time is wider by that.
#[test]
fn slow_answers_widen_the_time() {
    let room = Room::new("slow");
    let late =
        |name, millis| Plan { delay: Duration::from_millis(millis), ..Plan::new(name) }.start();
    let servers = [late("alder", 300), late("birch", 300), late("cedar", 300)];
    let (json, told) = ask_json(&room, &list(&lent(&servers)), &[]);
    assert_eq!(told.status, Some(0), "{}", told.said);
    assert!(json.holds_now());
    assert!(json.number("took") >= 7 * 300_000, "{json:?}");
    assert_eq!(json.text("walk.outcome"), "consistent");
    // What comes after the next try is taken, too: it answers the first one.
    let servers = [late("alder", 1_300), late("birch", 1_300)];
    let udp = lent(&servers).map(|one| one.listed_by(Protocol::Udp)).to_vec();
    let (json, told) = ask_json(&room, &list_of(udp), &["--within", "6"]);
    assert_eq!(told.status, Some(0), "{}", told.said);
    assert!(json.holds_now());
    assert!(json.number("time.high") - json.number("time.low") >= 6_000_000 + 1_300_000);
}

#[test]
fn what_comes_from_another_address_is_dropped() {
    let (room, [a, b, d]) = (Room::new("elsewhere"), honest(["alder", "birch", "dogwood"]));
    let c = Plan { elsewhere: true, tcp: false, ahead: 9, ..Plan::new("cedar") }.start();
    let (json, told) = ask_json(&room, &list(&[&a, &b, &c, &d]), &["--within", "4"]);
    assert_eq!(told.status, Some(0), "{}", told.said);
    assert_eq!(json.names("uncounted"), ["cedar"]);
    assert_eq!((c.asked(Protocol::Udp) > 0, json.server("cedar").number("refused")), (true, 0));
}

#[test]
fn names_are_resolved_and_one_that_is_not_is_told() {
    let (room, [a, b, c]) = (Room::new("resolved"), honest(["alder", "birch", "cedar"]));
    let named = |server: &Server| server.listed_at(&format!("localhost:{}", server.address.port()));
    let (json, told) = ask_json(&room, &list_of([&a, &b, &c].map(named).to_vec()), &[]);
    assert_eq!(told.status, Some(0), "{}", told.said);
    assert!(json.holds_now());
    let d = Plan::new("dogwood").start();
    let lost = d.listed_at("no-such-host.invalid:2002");
    let servers = vec![a.listed(), b.listed(), c.listed(), lost];
    let (json, told) = ask_json(&room, &list_of(servers), &["--within", "4"]);
    assert_eq!(told.status, Some(0), "{}", told.said);
    let failure = json.server("dogwood").at("failure");
    // A resolver that is slow has told nothing yet.
    if !json.server("dogwood").is_null("failure") {
        let failure = json.server("dogwood").text("failure");
        assert!(failure.starts_with("no-such-host.invalid:2002: "), "{failure}");
    }
    assert_eq!(json.names("uncounted"), ["dogwood"], "{failure:?}");
}

#[test]
fn servers_of_both_families() {
    let Ok(probe) = UdpSocket::bind((Ipv6Addr::LOCALHOST, 0)) else {
        println!("LEFT OUT: IPv6, which this machine does not have");
        return;
    };
    drop(probe);
    let room = Room::new("families");
    let six = |name| Plan { host: Ipv6Addr::LOCALHOST.into(), ..Plan::new(name) }.start();
    let servers = [six("alder"), Plan::new("birch").start(), six("cedar")];
    let (json, told) = ask_json(&room, &list(&lent(&servers)), &[]);
    assert_eq!(told.status, Some(0), "{}", told.said);
    assert!(json.holds_now());
    assert!(json.server("alder").text("by").starts_with("udp [::1]:"));
    assert!(json.server("birch").text("by").starts_with("udp 127.0.0.1:"));
    // A name stands for addresses of both; where nobody is at the first, the next one is tried.
    let both = ("localhost", 0).to_socket_addrs().expect("it has an address");
    if both.filter(|address| address.is_ipv6()).count() == 0 {
        println!("LEFT OUT: a name of both families, since localhost has none of IPv6 here");
        return;
    }
    let named = |server: &Server| server.listed_at(&format!("localhost:{}", server.address.port()));
    let (json, told) = ask_json(&room, &list_of(lent(&servers).map(named).to_vec()), &[]);
    assert_eq!(told.status, Some(0), "{}", told.said);
    assert!(json.holds_now());
}
