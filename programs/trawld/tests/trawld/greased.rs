//! Answers that are spoilt on purpose (draft 19, section 7), as clients see them.

use crate::asking::{checked, connected, heard, request};
use crate::folder::Folder;
use crate::random::Random;
use crate::server::{Server, PATIENCE, SIGTERM};
use independent::ed25519::Ed25519;
use std::time::{SystemTime, UNIX_EPOCH};

/// How often each server is asked.
const ASKED: u64 = 70;

fn now() -> u64 {
    SystemTime::now().duration_since(UNIX_EPOCH).expect("it is after 1970").as_secs()
}

/// The code by which both refuse an answer, or 0. A time that they take is the true one.
fn code(key: &[u8; 32], request: &[u8], answer: &[u8]) -> u32 {
    let other = independent::signed::check(&Ed25519::new(), key, request, answer);
    match trawlbeacon::check_signed(key, request, answer) {
        Ok(_) => {
            let window = checked(key, request, answer).window;
            assert!(window.low <= now() && now() <= window.high);
            0
        }
        Err(why) => {
            assert!(other.is_err());
            why.code()
        }
    }
}

/// How many answers a server that spoils one in so many was asked for, by the code.
fn codes(words: &[&str]) -> [u64; 14] {
    let folder = Folder::with_delegation(3);
    let server = Server::trusting(&folder, &[words, &["--metrics", "figures"]].concat());
    let (socket, mut random) = (connected(server.address()), Random::new(2));
    let mut codes = [0; 14];
    for _ in 0..ASKED {
        let request = request(&server.key, &mut random);
        socket.send(&request).expect("it is sent");
        let answer = heard(&socket, PATIENCE).expect("it is answered");
        assert!(answer.len() <= request.len());
        codes[code(&server.key, &request, &answer) as usize] += 1;
    }
    assert!(server.end(SIGTERM).success());
    let figures = folder.read("figures");
    let greased = figures.lines().find_map(|line| {
        line.strip_prefix("trawld_greased_total{transport=\"udp\"} ")?.parse::<u64>().ok()
    });
    // An undefined tag is ignored, so that it is told of and not seen.
    assert!(greased.expect("it is told") >= codes[1..].iter().sum());
    codes
}

/// A right client refuses each form by its own code, and takes the one that it must ignore.
#[test]
fn a_form_by_itself() {
    let forms =
        [("time", 13), ("delegation", 12), ("missing", 6), ("version", 8), ("undefined", 0)];
    for (form, code) in forms {
        let codes = codes(&["--grease", "1", "--grease-form", form]);
        assert_eq!(codes[code], ASKED, "{form}: {codes:?}");
    }
}

#[test]
fn all_forms_in_turn() {
    let codes = codes(&["--grease", "1", "--sockets", "1"]);
    for code in [0, 6, 8, 12, 13] {
        assert_eq!(codes[code], ASKED / 5, "{codes:?}");
    }
}

#[test]
fn one_answer_in_so_many() {
    let codes = codes(&["--grease", "3", "--grease-form", "time", "--grease-form", "version"]);
    assert_eq!(codes[0] + codes[8] + codes[13], ASKED, "{codes:?}");
    assert!((20..65).contains(&codes[0]), "{codes:?}");
}
