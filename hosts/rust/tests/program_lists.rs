//! The command `trawl` and lists of servers in JSON, as they are published: what `--list` prints, and
//! that such a list may stand wherever one of records may.

#[path = "support/room.rs"]
mod room;
mod support;

use independent::{appendix, base64};
use room::{Room, ROOT};
use support::hex;

const LIST: &str = "/vectors/server-list.json";

fn draft_list() -> String {
    format!("{ROOT}{LIST}")
}

/// The record of a server in a list.
fn server(key: [u8; 32]) -> Vec<u8> {
    [key, trawlbeacon::srv_value(&key)].concat()
}

/// A list in JSON of servers with these keys, each with one address.
fn json_list(servers: &[(&str, [u8; 32])]) -> Vec<u8> {
    let server = |(name, key): &(&str, [u8; 32])| {
        let key = base64::encode(key);
        format!(
            r#"{{"name":"{name}","version":1,"publicKeyType":"ed25519","publicKey":"{key}","addresses":[{{"protocol":"udp","address":"a.example:2002"}}]}}"#
        )
    };
    let servers: Vec<String> = servers.iter().map(server).collect();
    format!("{{\"servers\":[{}]}}\n", servers.join(",")).into_bytes()
}

#[test]
fn the_draft_s_own_list_is_printed() {
    let room = Room::new("draft");
    let told = room.run(&["--list", &draft_list()]);
    let due = "servers 2
server 0 example.com Roughtime server
key d8ede692485e0c4c42ba11be64d2285a63bf21d09d2f30038149fc4a70b884c1
srv 2769d71885ed89320e6a815b47b67bcfc942c085902ee8c242fa1cd2e22cc616
udp roughtime.example.com:2002
tcp roughtime.example.com:2002
server 1 A UDP-only server specified with IP addresses
key 6587de19af7862e1b5219ad5de447dfbcfe7999da55f65f21e68926fec08d0e6
srv cfd6aaddb99d9b6bfb46a0584bb7e186f0f2d633d31e9cec4c1efb682d559db3
udp 192.0.2.33:2002
udp [2001:db8::2:33]:2002
passed 0
source https://www.example.net/roughtime/ecosystem.json
source https://www.example.org/roughtime/ecosystem.json
reports https://www.example.net/roughtime/malfeasance
";
    assert_eq!((&told.out[..], &told.said[..], told.status), (due, "", Some(0)));
    let key = "6587de19af7862e1b5219ad5de447dfbcfe7999da55f65f21e68926fec08d0e6";
    let found = room.run(&["--look-up", key, &draft_list()]);
    let due = format!(
        "owner 1 {key} {}\n",
        "cfd6aaddb99d9b6bfb46a0584bb7e186f0f2d633d31e9cec4c1efb682d559db3"
    );
    assert_eq!((found.out, found.status), (due, Some(0)));
    assert_eq!(room.run(&["--look-up", &hex(&[1; 32]), &draft_list()]).status, Some(3));
}

#[test]
fn a_list_of_records_is_printed_too() {
    let room = Room::new("records");
    let list = room.put("list", &[server([1; 32]), server([2; 32])].concat());
    let line = |place: usize, key: [u8; 32]| {
        format!("server {place}\nkey {}\nsrv {}\n", hex(&key), hex(&trawlbeacon::srv_value(&key)))
    };
    let due = format!("servers 2\n{}{}", line(0, [1; 32]), line(1, [2; 32]));
    let told = room.run(&["--list", list]);
    assert_eq!((told.out, &told.said[..], told.status), (due, "", Some(0)));
    let none = room.run(&["--list", room.put("none", b"")]);
    assert_eq!((&none.out[..], none.status), ("servers 0\n", Some(0)));
    // Keys that begin with a bracket make no text of records.
    let bracket = room.put("bracket", &server([b'{'; 32]));
    assert!(room.run(&["--list", bracket]).out.starts_with("servers 1\nserver 0\nkey 7b7b"));
}

#[test]
fn names_steer_no_terminal_and_who_is_passed_over_is_named() {
    let room = Room::new("passed");
    let text = String::from_utf8(json_list(&[("a\\u001b[2J\\u202eb\\n", [3; 32]), ("", [4; 32])]));
    let text = text.expect("it is text");
    let over = [
        text.replacen("\"version\":1", "\"version\":2147483660", 1),
        text.replacen("ed25519", "ed448\\u0007", 1),
        text.replacen(&base64::encode(&[3; 32]), "AAAA", 1),
    ];
    let due = ["version 2147483660", "publicKeyType \"ed448\\u{7}\"", "a key of 3 bytes"];
    for (text, due) in over.iter().zip(due) {
        let told = room.run(&["--list", room.put("list", text.as_bytes())]);
        let srv = hex(&trawlbeacon::srv_value(&[4; 32]));
        let due = format!(
            "servers 1\nserver 0\nkey {}\nsrv {srv}\nudp a.example:2002\npassed 1\nover 0 a\\u{{1b}}[2J\\u{{202e}}b\\n: {due}\n",
            hex(&[4; 32])
        );
        assert_eq!((told.out, told.status), (due, Some(0)));
    }
    let told = room.run(&["--list", room.put("list", text.as_bytes())]);
    assert!(told.out.contains("server 0 a\\u{1b}[2J\\u{202e}b\\n\n"), "{}", told.out);
}

/// Whose keys a run convicts by may be looked up in it.
#[test]
fn it_stands_where_a_list_of_records_may() {
    let room = Room::new("instead");
    let report = format!("{ROOT}/vectors/malfeasance-report.json");
    let keys: Vec<[u8; 32]> = appendix::entries().iter().map(|entry| entry.key).collect();
    let owner = room.put("owner", &json_list(&[("x", [7; 32]), ("y", keys[1])]));
    let shipped = room.put("shipped", &[server(keys[2]), server(keys[0])].concat());
    let lists = ["--servers", owner, "--servers", shipped];
    let told = room.run(&[&["--judge", &report[..]], &lists[..]].concat());
    assert_eq!((told.status, &told.said[..]), (Some(0), ""));
    for (line, due) in told.out.lines().skip(1).zip([" shipped 1", " owner 1", " shipped 0", ""]) {
        assert!(line.ends_with(due), "{line}");
    }
    let only = room.run(&["--judge", &report, "--servers", owner]);
    assert_eq!(only.status, Some(5));
}

#[test]
fn what_is_wrong_with_one_is_told() {
    let room = Room::new("wrong");
    let good = String::from_utf8(json_list(&[("x", [7; 32])])).expect("it is text");
    let many = json_list(&[("x", [7; 32]); 65]);
    let texts: [(&[u8], u32, &str); 6] = [
        (b"{\"servers\":[", 24, "no JSON at byte 12: the text ends within its value"),
        (b"{\"responses\":[]}", 24, "\"servers\" of the list is missing"),
        (
            &good.replace("2002", "65536").into_bytes(),
            24,
            "\"address\" of address 0 of server 0 is no host, colon and port: \"a.example:65536\"",
        ),
        (
            &good.replace("]}\n", "],\"reports\":\"http://a\"}\n").into_bytes(),
            24,
            "\"reports\" is no URL of https: \"http://a\"",
        ),
        (b"{\"servers\":[]}", 25, "it has 0 servers, and a list has 1 to 64"),
        (&many, 25, "it has 65 servers, and a list has 1 to 64"),
    ];
    for (text, code, due) in texts {
        let list = room.put("list", text);
        for words in [&["--list", list][..], &["--look-up", &hex(&[7; 32]), list]] {
            let told = room.run(words);
            let said = format!("trawl: refused with code {code}: ");
            let due = format!("\ntrawl: 'list': {due}\n");
            assert_eq!((&told.out[..], told.status), ("", Some(4)), "{words:?}");
            assert!(told.said.starts_with(&said) && told.said.ends_with(&due), "{}", told.said);
        }
    }
    let bad = room.put("bad", &[0; 63]);
    let told = room.run(&["--list", bad]);
    assert!(told.said.ends_with("'bad' has 63 bytes, and a server has 64\n"), "{}", told.said);
    assert_eq!((told.status, room.run(&["--list", "missing"]).status), (Some(4), Some(1)));
}
