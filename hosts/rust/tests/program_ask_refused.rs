//! What `trawl --ask` cannot do, it says in one line with what may help: of its arguments, its
//! list, its reports and its output. And its help, manual page and completions have the same flags.

#[path = "support/asked.rs"]
mod asked;
#[path = "support/room.rs"]
mod room;
#[path = "support/time_servers.rs"]
mod time_servers;

use asked::{ask, finished};
use room::{Ran, Room, ROOT};
use std::collections::BTreeSet;
use std::fs::{self, OpenOptions};
use std::io::{BufRead, BufReader};
use std::process::{Command, Stdio};
use time_servers::{honest, list, list_of, Plan, Server};
use trawlbeacon::ListedServer;

#[test]
fn arguments_that_are_wrong() {
    let room = Room::new("usage");
    let usage = "usage: trawl --ask LIST [--of N] [--all] [--within S] [--watch S] \
                 [--reports FOLDER] [--json]\n";
    let wrong: [(&[&str], &str); 16] = [
        (&[], "--ask takes a list of servers, and 0 words are given"),
        (&["a", "b"], "--ask takes a list of servers, and 2 words are given"),
        (&["a", "--of", "2"], "--of takes 3 to 8, and not 2"),
        (&["a", "--of", "9"], "--of takes 3 to 8, and not 9"),
        (&["a", "--of=many\u{1b}"], "--of takes 3 to 8, and not many\\u{1b}"),
        (&["a", "--of=3.0"], "--of takes 3 to 8, and not 3.0"),
        (&["a", "--all", "--of", "3"], "--all and --of cannot be asked for at once"),
        (&["a", "--within", "0"], "--within takes 0.1 to 3600 seconds, and not 0"),
        (&["a", "--within", "1h"], "--within takes 0.1 to 3600 seconds, and not 1h"),
        (&["a", "--watch", "0.5"], "--watch takes 1 to 86400 seconds, and not 0.5"),
        (&["a", "--watch", "90000"], "--watch takes 1 to 86400 seconds, and not 90000"),
        (&["a", "--within=1", "--within=2"], "--within stands there twice"),
        (&["a", "--dates"], "--dates goes with --judge"),
        (&["a", "--out", "b"], "--out goes with --cut, --draw and --make"),
        (&["a", "--status"], "--status goes with files alone, --judge and --draw"),
        (&["a", "--servers", "b"], "--servers goes with --judge, --cut and --draw"),
    ];
    for (words, due) in wrong {
        let told = room.run(&[&["--ask"], words].concat());
        let due = format!("trawl: {due}\n{usage}");
        assert_eq!((told.status, &told.said[..], &told.out[..]), (Some(2), &due[..], ""));
    }
    let nothing: [(&[&str], &str); 4] = [
        (&["a", "--of"], "--of names no number"),
        (&["a", "--within="], "--within names no number"),
        (&["a", "--reports"], "--reports names no folder"),
        (&["a", "--all=3"], "--all takes nothing behind a sign of equality"),
    ];
    for (words, due) in nothing {
        let told = room.run(&[&["--ask"], words].concat());
        assert_eq!((told.status, told.said), (Some(2), format!("trawl: {due}\n")));
    }
    let told = room.run(&["--list", "a", "--within", "3"]);
    assert!(told.said.starts_with("trawl: --within goes with --ask\n"), "{}", told.said);
}

fn entry(name: &str, key: u8) -> ListedServer {
    ListedServer { name: name.to_string(), key: [key; 32], addresses: vec![] }
}

#[test]
fn lists_that_are_none() {
    let room = Room::new("lists");
    let _ = fs::create_dir(room.folder.join("folder"));
    let missing = room.run(&["--ask", "missing"]);
    let due = "trawl: 'missing': No such file or directory\n";
    assert_eq!((missing.status, &missing.said[..]), (Some(1), due));
    let folder = room.run(&["--ask", "folder"]);
    assert_eq!((folder.status, &folder.said[..]), (Some(1), "trawl: 'folder': Is a directory\n"));
    room.put("long", &vec![b' '; (1 << 20) + 1]);
    let long = room.run(&["--ask", "long"]);
    assert_eq!((long.status, &long.said[..]), (Some(1), "trawl: 'long': it has more than 1 MiB\n"));
    let endless = room.run(&["--ask", "/dev/zero"]);
    assert_eq!(endless.said, "trawl: '/dev/zero': it has more than 1 MiB\n");
    let empty = ask(&room, b"", &[]);
    assert_eq!(empty.status, Some(4));
    assert!(empty.said.starts_with("trawl: refused with code 24: "), "{}", empty.said);
    let broken = ask(&room, b"{\"servers\":[", &[]);
    assert_eq!(broken.status, Some(4));
    assert!(broken.said.ends_with("'list': no JSON at byte 12: the text ends within its value\n"));
    let many: Vec<ListedServer> = (1..=64).map(|key| entry("x", key)).collect();
    let text = String::from_utf8(list_of(many)).expect("it is text");
    let entries = text.strip_prefix("{\"servers\":[").and_then(|text| text.strip_suffix("]}"));
    let entries = entries.expect("it has nothing else");
    let more = format!("{{\"servers\":[{entries},{entries}]}}");
    let more = ask(&room, more.as_bytes(), &[]);
    assert_eq!(more.status, Some(4));
    assert!(more.said.ends_with("'list': it has 128 servers, and a list has 1 to 64\n"));
    let records = [[7; 32], trawlbeacon::srv_value(&[7; 32])].concat();
    let told = ask(&room, &[&records[..], &[0; 64]].concat(), &[]);
    let due = "trawl: 'list' is no list in JSON; one of records has no addresses to ask at\n";
    assert_eq!((told.status, &told.said[..]), (Some(4), due));
}

#[test]
fn lists_with_nobody_to_ask() {
    let room = Room::new("nobody");
    let text = list_of(vec![entry("x", 7), entry("y", 8), entry("z", 9)]);
    let told = ask(&room, &text, &[]);
    let due = "trawl: no server of 'list' has an address; a list with addresses is needed\n";
    assert_eq!((told.status, &told.said[..], &told.out[..]), (Some(7), due, ""));
    let text = String::from_utf8(text).expect("it is text");
    let old = text.replace("\"version\":1", "\"version\":2147483660");
    let told = ask(&room, old.as_bytes(), &[]);
    let due =
        "trawl: no server of 'list' can be asked, and 3 are passed over; trawl --list says why\n";
    assert_eq!((told.status, &told.said[..], &told.out[..]), (Some(7), due, ""));
}

fn with_a_liar() -> ([Server; 2], Server) {
    (honest(["alder", "birch"]), Plan { ahead: 9, ..Plan::new("cedar") }.start())
}

/// Nobody lacks the time since a report cannot be written; and there is no half of one.
#[test]
fn reports_that_cannot_be_written() {
    let (room, ([a, b], c)) = (Room::new("unwritten"), with_a_liar());
    let list = list(&[&a, &b, &c]);
    let told = ask(&room, &list, &["--reports", "nowhere"]);
    let due = "trawl: 'nowhere': it is no folder, and --reports takes one\n";
    assert_eq!((told.status, &told.said[..]), (Some(1), due));
    for json in [false, true] {
        let words = ["--ask", "list", "--json"];
        let words = if json { &words[..] } else { &words[..2] };
        let told = room.by_shell("trap '' XFSZ; ulimit -f 1;", words).output().map(Ran::of);
        let told = told.expect("sh runs");
        let due = "trawl: the report is not written: 'malfeasance-1.json': File too large; \
                   --reports names another folder\n";
        assert_eq!(told.status, Some(1));
        assert!(told.said.ends_with(due), "{}", told.said);
        let time = if json { "{\"status\":1,\"time\":{\"low\":" } else { "time     20" };
        assert!(told.out.starts_with(time), "{}", told.out);
        assert!(!told.out.contains("malfeasance-1"));
        let files: Vec<_> = fs::read_dir(&room.folder).expect("it is there").collect();
        assert_eq!(files.len(), 1, "{files:?}");
    }
}

/// A watch does not end by it, and tells the time on.
#[test]
fn a_watch_without_room_for_reports() {
    let (room, ([a, b], c)) = (Room::new("no room"), with_a_liar());
    room.put("list", &list(&[&a, &b, &c]));
    let words = ["--ask", "list", "--json", "--watch", "1"];
    let mut command = room.by_shell("trap '' XFSZ; ulimit -f 1;", &words);
    let child = command.stdout(Stdio::piped()).stderr(Stdio::piped()).spawn();
    let mut child = child.expect("sh runs");
    let mut lines = BufReader::new(child.stdout.take().expect("it is piped")).lines();
    for _ in 0..2 {
        let line = lines.next().expect("there is more").expect("it is text");
        assert!(line.starts_with("{\"status\":1,\"time\":{"), "{line}");
    }
    // SAFETY: no pointer is passed, and the process is ours and not waited for yet.
    assert_eq!(unsafe { kill(child.id() as i32, SIGTERM) }, 0);
    let told = finished(child);
    assert_eq!((told.status, told.said.lines().count()), (Some(1), 2), "{}", told.said);
}

extern "C" {
    fn kill(process: i32, signal: i32) -> i32;
}

const SIGTERM: i32 = 15;

/// What cannot be printed is no success, and the evidence is kept all the same.
#[test]
fn output_that_cannot_be_written() {
    let (room, ([a, b], c)) = (Room::new("unprinted"), with_a_liar());
    let _ = fs::remove_file(room.folder.join("malfeasance-1.json"));
    let _ = fs::remove_file(room.folder.join("malfeasance-2.json"));
    room.put("list", &list(&[&a, &b, &c]));
    let full = OpenOptions::new().write(true).open("/dev/full").expect("Linux has it");
    let mut command = room.command(&["--ask", "list", "--json"]);
    command.stdin(Stdio::null()).stdout(full).stderr(Stdio::piped());
    let told = finished(command.spawn().expect("it can be run"));
    let due = "trawl: standard output: No space left on device\n";
    assert_eq!((told.status, &told.said[..]), (Some(1), due));
    assert!(!room.bytes("malfeasance-1.json").is_empty());
    // A watch ends where nobody reads it.
    let words = ["--ask", "list", "--json", "--watch", "1"];
    let told = room.by_shell("exec >&-;", &words).output().map(Ran::of).expect("sh runs");
    assert_eq!((told.status, &told.said[..]), (Some(1), "trawl: standard output: it is closed\n"));
    assert!(!room.bytes("malfeasance-2.json").is_empty());
}

/// The words that begin with two dashes.
fn flags(text: &str) -> BTreeSet<String> {
    let text = text.replace("\\-", "-");
    let inside = |letter: char| letter.is_ascii_lowercase() || letter == '-';
    let words = text.split(|letter| !inside(letter)).filter(|word| word.len() > 2);
    words.filter(|word| word.starts_with("--")).map(str::to_string).collect()
}

const COMPLETION: &str = "hosts/rust/src/bin/trawl/completion";

fn kept(file: &str) -> String {
    fs::read_to_string(format!("{ROOT}/{file}")).unwrap_or_else(|error| panic!("{file}: {error}"))
}

#[test]
fn all_papers_have_the_same_flags() {
    let due = flags(&kept("hosts/rust/src/bin/trawl/help.txt"));
    assert!(due.len() > 20);
    assert_eq!(flags(&kept("man/trawl.1")), due);
    assert_eq!(flags(&kept(&format!("{COMPLETION}/trawl.bash"))), due);
    assert_eq!(flags(&kept(&format!("{COMPLETION}/_trawl"))), due);
}

/// What bash offers where the last word is being typed.
fn offered(room: &Room, words: &[&str]) -> Vec<String> {
    let script = r#". "$0"; COMP_WORDS=(trawl "$@"); COMP_CWORD=$#; compopt() { :; }
        _trawl; printf '%s\n' "${COMPREPLY[@]}""#;
    let mut bash = Command::new("bash");
    bash.arg("-c").arg(script).arg(format!("{ROOT}/{COMPLETION}/trawl.bash")).args(words);
    let ran = Ran::of(bash.current_dir(&room.folder).output().expect("bash runs"));
    assert_eq!(ran.said, "");
    ran.out.lines().filter(|line| !line.is_empty()).map(str::to_string).collect()
}

#[test]
fn bash_offers_what_goes_together() {
    let room = Room::new("completion");
    room.put("a list", b"");
    let _ = fs::create_dir(room.folder.join("kept"));
    let ask = ["--of", "--all", "--within", "--watch", "--reports", "--json"];
    assert_eq!(offered(&room, &["--ask", "a list", "--"]), ask);
    assert_eq!(offered(&room, &["--a"]), ["--ask"]);
    assert_eq!(offered(&room, &["--ask", "a"]), ["a list"]);
    assert_eq!(offered(&room, &["--ask", "x", "--reports", ""]), ["kept"]);
    assert_eq!(offered(&room, &["--ask", "x", "--within", ""]), [""; 0]);
    assert_eq!(offered(&room, &["--ask", "x", "--of", ""]), ["3", "4", "5", "6", "7", "8"]);
    let judge = ["--servers", "--json", "--dates", "--status"];
    assert_eq!(offered(&room, &["--judge", "x", "--"]), judge);
    assert_eq!(offered(&room, &["--list", "x", "--"]), [""; 0]);
}
