//! The command `trawl` and lists of servers: whose keys a run convicts by, and a status of its own
//! where nobody knows; and that a list in which a key and a value do not belong together is refused.

#[path = "support/room.rs"]
mod room;
mod support;

use independent::ed25519::Ed25519;
use independent::making::Link;
use independent::signing::{self, Keys};
use independent::{appendix, base64};
use room::{Room, ROOT};
use support::hex;

/// The record of a server in a list.
fn server(key: [u8; 32]) -> Vec<u8> {
    [key, trawlbeacon::srv_value(&key)].concat()
}

/// The keys of draft 19's report, whose first two records convict.
fn keys() -> Vec<[u8; 32]> {
    appendix::entries().iter().map(|entry| entry.key).collect()
}

fn report() -> String {
    format!("{ROOT}/vectors/malfeasance-report.json")
}

const UNKNOWN: &str = "is in no list: anybody may have it\n";

#[test]
fn each_key_is_named_by_its_place_in_a_list() {
    let (room, report, keys) = (Room::new("named"), report(), keys());
    let owner = room.put("owner", &[server([7; 32]), server(keys[1])].concat());
    let shipped =
        room.put("shipped", &[server(keys[1]), server(keys[2]), server(keys[0])].concat());
    let lists = ["--servers", owner, "--servers", shipped];
    let told = room.run(&[&["--judge", &report[..]], &lists[..]].concat());
    assert_eq!((told.status, &told.said[..]), (Some(0), ""));
    let ends: Vec<&str> =
        told.out.lines().map(|line| line.rsplitn(3, ' ').nth(1).unwrap()).collect();
    assert_eq!(ends[1..4], ["shipped", "owner", "shipped"]);
    for (line, due) in told.out.lines().skip(1).zip([" shipped 2", " owner 1", " shipped 1", ""]) {
        assert!(line.ends_with(due), "{line}");
    }
    let json = room.run(&[&["--json", &report[..]], &lists[..]].concat());
    assert_eq!((json.status, &json.said[..]), (Some(0), ""));
    let due = format!(
        "{{\"publicKey\":\"{}\",\"server\":{{\"list\":\"owner\",\"place\":1}},\"linked\":true",
        base64::encode(&keys[1])
    );
    assert!(json.out.contains(&due), "{}", json.out);
    assert!(independent::json::read(json.out.as_bytes(), 16).is_ok());
    for action in ["--cut", "--draw"] {
        let told =
            room.run(&[&[action, &report[..], "--out=/dev/null", "--force"], &lists[..]].concat());
        assert_eq!(told.status, Some(0), "{}", told.said);
        assert!(!told.said.contains("list"), "{}", told.said);
    }
    let drawn = room.run(&[&["--draw", &report[..]], &lists[..]].concat()).out;
    for due in ["> 0 A shipped 2 ", "> 1 B owner 1 ", "Record 0 (shipped 2) says that it was "] {
        assert!(drawn.contains(due), "{drawn}");
    }
    assert_eq!(drawn.lines().find(|line| line.chars().count() > 80), None);
}

/// Whoever signs a report with keys of his own convicts nobody.
#[test]
fn a_key_in_no_list_has_a_status_of_its_own() {
    let (room, report, keys) = (Room::new("unknown"), report(), keys());
    let first = room.put("first", &server(keys[0]));
    let none = room.put("none", b"");
    for (list, strangers) in [(first, &[1][..]), (none, &[0, 1])] {
        let due: String = strangers
            .iter()
            .map(|place| format!("trawl: the key of record {place} {UNKNOWN}"))
            .collect();
        for words in [
            &["--judge", &report[..]][..],
            &["--judge", &report, "--status"],
            &["--json", &report],
            &["--cut", &report],
            &["--cut", &report, "--json"],
            &["--draw", &report],
            &["--draw", &report, "--svg", "--status"],
        ] {
            let told = room.output(&[words, &["--servers", list]].concat());
            let said = String::from_utf8(told.stderr).expect("it is text");
            assert_eq!(told.status.code(), Some(5), "{words:?}: {said}");
            assert!(said.ends_with(&due), "{words:?}: {said}");
            // What was asked for is there all the same.
            assert!(!told.stdout.is_empty(), "{words:?}");
        }
    }
    let told = room.run(&["--judge", &report, "--servers", first]).out;
    let ends: Vec<&str> = told.lines().map(|line| line.rsplit(' ').next().unwrap()).collect();
    assert_eq!(ends, ["3", "0", "unlisted", "unlisted", "1"]);
    let told = room.run(&["--json", &report, "--servers", first]).out;
    assert_eq!(told.matches("\"server\":null").count(), 2);
    let drawn = room.run(&["--draw", &report, "--servers", first]).out;
    assert!(
        drawn.contains(" in no list\n") && drawn.contains("made it: the key B, C.\n"),
        "{drawn}"
    );
    // The last record plays no part in the run.
    let both = room.put("both", &[server(keys[1]), server(keys[0])].concat());
    assert_eq!(room.run(&["--judge", &report, "--servers", both, "--status"]).status, Some(0));
    // Where nobody gives a list, that is said.
    let told = room.run(&["--judge", &report, "--status"]);
    assert_eq!(told.status, Some(0));
    assert!(told.said.contains("nobody has looked up; --servers LIST does"), "{}", told.said);
}

/// The proved program takes no list, and what it prints names no key: that is said beside it, where
/// a run convicts and nowhere else.
#[test]
fn of_files_alone_it_is_said_that_nobody_looked() {
    let room = Room::new("alone");
    let said =
        "trawl: whose keys these are nobody has looked up; --judge PILE --servers LIST does\n";
    let whole = appendix::pile().pile;
    let (pile, one) = (room.put("pile", &whole), room.put("one", &whole[..4096]));
    let answers = room.put("answers", &[1; 6]);
    for words in [&[pile][..], &[pile, "--status"], &[pile, answers, "--status"]] {
        let told = room.run(words);
        assert_eq!((told.status, &told.said[..]), (Some(0), said), "{words:?}");
    }
    for (words, due) in [(&[one][..], 0), (&[one, "--status"][..], 3)] {
        let told = room.run(words);
        assert_eq!((told.status, &told.said[..]), (Some(due), ""), "{words:?}");
    }
}

/// Such a report as an attacker makes: everything in it verifies, under keys that he made.
#[test]
fn a_forged_report_convicts_by_its_keys_alone() {
    let room = Room::new("forged");
    let ed25519 = Ed25519::new();
    let keys = Keys::new(&ed25519, [1; 32], [2; 32]);
    let links = [Link::new(0, 2000, 10), Link::new(1, 1000, 10)];
    let pile = signing::chain(&ed25519, &links, |_| &keys);
    let (pile, list) = (room.put("pile", &pile), room.put("list", &server([7; 32])));
    assert_eq!(room.run(&["--judge", pile, "--status"]).status, Some(0));
    assert_eq!(room.run(&["--judge", pile, "--status", "--servers", list]).status, Some(5));
}

/// Where nothing convicts there is nobody to name.
#[test]
fn other_verdicts_keep_their_status() {
    let (room, keys) = (Room::new("others"), keys());
    let list = room.put("list", &server(keys[0]));
    let one = room.put("one", &appendix::pile().pile[..4096]);
    for (flags, due) in [(&[][..], 0), (&["--status"][..], 3)] {
        let words = [&["--judge", one, "--servers", list][..], flags].concat();
        assert_eq!(room.run(&words).status, Some(due));
    }
    assert_eq!(room.run(&["--cut", one, "--servers", list]).status, Some(3));
    assert_eq!(room.run(&["--cut", list, "--servers", list]).status, Some(4));
    assert_eq!(room.run(&["--judge", one, "--servers", "missing"]).status, Some(1));
}

#[test]
fn a_server_is_looked_up_by_its_key() {
    let room = Room::new("look_up");
    let owner = room.put("owner", &[server([1; 32]), server([2; 32])].concat());
    let shipped = room.put("shipped", &server([3; 32]));
    let line = |list: &str, key: [u8; 32]| {
        format!("{list} {} {}\n", hex(&key), hex(&trawlbeacon::srv_value(&key)))
    };
    for word in [hex(&[2; 32]), base64::encode(&[2; 32])] {
        let found = room.run(&["--look-up", &word, owner, shipped]);
        assert_eq!((found.out, &found.said[..]), (line("owner 1", [2; 32]), ""));
        assert_eq!(found.status, Some(0));
    }
    let found = room.run(&["--look-up", &hex(&[3; 32]).to_uppercase(), owner, shipped]);
    assert_eq!((found.out, found.status), (line("shipped 0", [3; 32]), Some(0)));
    assert_eq!(room.run(&["--look-up", &hex(&[4; 32]), owner]).status, Some(3));
    let bad = room.put("bad", &[0; 63]);
    let refused = room.run(&["--look-up", &hex(&[4; 32]), owner, bad]);
    assert_eq!((refused.out.as_str(), refused.status), ("", Some(4)));
    let hint =
        "a list of servers is not whole records\ntrawl: 'bad' has 63 bytes, and a server has 64\n";
    assert!(refused.said.ends_with(hint), "{}", refused.said);
    assert_eq!(room.run(&["--look-up", &hex(&[4; 32]), "missing"]).status, Some(1));
    let no_key = room.run(&["--look-up", "4", owner]);
    let due = "trawl: \"4\" is not 64 digits of hex, or 44 letters of base64\n";
    assert_eq!((no_key.said.as_str(), no_key.status), (due, Some(2)));
}

/// A list that gives somebody else's key for a server is no list, wherever one is taken.
#[test]
fn a_list_with_another_key_is_refused() {
    let (room, report) = (Room::new("altered"), report());
    let forged = [[9; 32], trawlbeacon::srv_value(&[4; 32])].concat();
    let altered = room.put("altered", &[server([1; 32]), forged].concat());
    let good = room.put("good", &server([4; 32]));
    let four = hex(&[4; 32]);
    let said = "trawl: 'altered': the SRV value at place 1 is not that of the key there\n";
    for words in [
        &["--look-up", &four[..], altered][..],
        &["--look-up", &four, good, altered],
        &["--look-up", &hex(&[1; 32]), altered],
        &["--judge", &report, "--servers", altered],
        &["--cut", &report, "--servers", good, "--servers", altered],
        &["--draw", &report, "--servers", altered],
    ] {
        let told = room.run(words);
        assert_eq!((&told.out[..], &told.said[..], told.status), ("", said, Some(4)), "{words:?}");
    }
}
