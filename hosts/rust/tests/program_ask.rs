//! `trawl --ask` against servers on loopback: the time, who lies, the report, who is chosen, and
//! measuring over and over.

#[path = "support/asked.rs"]
mod asked;
#[path = "support/room.rs"]
mod room;
#[path = "support/time_servers.rs"]
mod time_servers;

use asked::{ask, ask_json, finished, Json};
use room::Room;
use std::collections::BTreeSet;
use std::fs::{self, File};
use std::io::{BufRead, BufReader};
use std::process::Stdio;
use std::time::{Duration, Instant};
use time_servers::{honest, list, list_of, Plan, Server};
use trawlbeacon::{ListedServer, Protocol, ServerList};

const NAMES: [&str; 3] = ["alder", "birch", "cedar"];

/// An empty folder of this name.
fn room(name: &str) -> Room {
    let room = Room::new(name);
    fs::remove_dir_all(&room.folder).expect("it is there");
    Room::new(name)
}

fn liar(name: &'static str) -> Server {
    Plan { ahead: 9, ..Plan::new(name) }.start()
}

/// The line of an output that begins with this word, without it.
fn line<'a>(out: &'a str, word: &str) -> &'a str {
    let mut lines = out.lines().filter(|line| line.split(' ').next() == Some(word));
    lines.next().unwrap_or_else(|| panic!("there is no {word}: {out}"))[9..].trim_end()
}

#[test]
fn three_honest_servers() {
    let (room, [a, b, c]) = (room("honest"), honest(NAMES));
    let told = ask(&room, &list(&[&a, &b, &c]), &[]);
    assert_eq!(told.status, Some(0), "{}", told.said);
    for word in ["time", "from", "to", "machine"] {
        assert!(line(&told.out, word).contains(" UTC"), "{}", told.out);
    }
    let mut agree: Vec<&str> = line(&told.out, "agree").split(", ").collect();
    agree.sort_unstable();
    assert_eq!(agree, NAMES);
    assert_eq!(line(&told.out, "suspect"), "none");
    assert_eq!(line(&told.out, "counted"), "3 of 3, of which 1 may lie");
    assert!(line(&told.out, "walk").starts_with("consistent: 6 answers of 3 servers, in 0."));
    // The time is told as soon as it is there.
    assert!(told.said.starts_with("trawl: after 0.") && told.said.contains(" s it is 20"));
    assert_eq!(told.said.lines().count(), 1, "{}", told.said);
    let (json, told) = ask_json(&room, &list(&[&a, &b, &c]), &[]);
    assert_eq!((told.status, &told.said[..]), (Some(0), ""));
    assert!(json.holds_now() && json.is_true("exact"));
    assert_eq!(json.names("agrees"), NAMES);
    assert_eq!(json.text("walk.outcome"), "consistent");
    assert!(json.number("thereAfter") <= json.number("took"));
    assert_eq!(json.list("contradictions").len(), 0);
    // Each was asked once with the others, and twice in the walk.
    assert_eq!([&a, &b, &c].map(|server| server.asked(Protocol::Udp)), [6; 3]);
    assert_eq!(fs::read_dir(&room.folder).expect("it is there").count(), 1);
}

#[test]
fn one_is_nine_seconds_ahead() {
    let (room, [a, b], c) = (room("ahead"), honest(["alder", "birch"]), liar("cedar"));
    let list = list(&[&a, &b, &c]);
    let told = ask(&room, &list, &[]);
    assert_eq!(told.status, Some(6), "{}", told.said);
    assert_eq!(line(&told.out, "suspect"), "cedar");
    assert!(line(&told.out, "said").starts_with("cedar: from 20"), "{}", told.out);
    assert!(line(&told.out, "walk").starts_with("malfeasance: 6 answers of 3 servers"));
    assert!(line(&told.out, "lie").starts_with("cedar said that it was 20"));
    assert!(told.out.contains(", asked after that, said that it was 20"));
    assert_eq!(line(&told.out, "report"), "'malfeasance-1.json'");
    // Who reads the report finds that they contradict each other, and knows their keys.
    let report = room.bytes("malfeasance-1.json");
    let words = ["--judge", "malfeasance-1.json", "--servers", "list", "--status"];
    let judged = room.run(&words);
    assert_eq!((judged.status, &judged.said[..]), (Some(0), ""), "{}", judged.out);
    // Another one is put beside it.
    let (json, told) = ask_json(&room, &list, &[]);
    assert_eq!(told.status, Some(6));
    assert!(json.holds_now());
    assert_eq!((json.names("agrees").len(), json.names("suspect")), (2, vec!["cedar".to_string()]));
    assert_eq!(json.text("contradictions.0.report"), "malfeasance-2.json");
    let [first, second] = ["first", "second"].map(|one| {
        let place = json.number(&format!("contradictions.0.{one}.server"));
        let name = json.text(&format!("servers.{place}.name"));
        (name, json.at(&format!("contradictions.0.{one}.window")))
    });
    assert_eq!(first.0, "cedar");
    assert!(first.1.number("low") > second.1.number("high"));
    assert_eq!(room.bytes("malfeasance-1.json"), report);
    assert_ne!(room.bytes("malfeasance-2.json"), report);
}

#[test]
fn reports_go_to_a_folder_and_their_place_is_told() {
    let (room, [a, b], c) = (room("folder"), honest(["alder", "birch"]), liar("cedar"));
    fs::create_dir_all(room.folder.join("kept")).expect("a folder can be made");
    room.put("kept/malfeasance-1.json", b"another");
    let servers = [&a, &b, &c].map(Server::listed).to_vec();
    let reports = Some("https://www.example.net/roughtime/malfeasance".to_string());
    let list = ServerList { servers, reports, ..ServerList::default() };
    let list = list.write().expect("it is one").into_bytes();
    let told = ask(&room, &list, &["--reports", "kept"]);
    assert_eq!(told.status, Some(6), "{}", told.said);
    assert_eq!(line(&told.out, "report"), "'kept/malfeasance-2.json'");
    let due = "it to https://www.example.net/roughtime/malfeasance, by HTTP POST; nothing was sent";
    assert_eq!(line(&told.out, "send"), due);
    assert_eq!(room.bytes("kept/malfeasance-1.json"), b"another");
    assert_eq!(room.run(&["--judge", "kept/malfeasance-2.json", "--status"]).status, Some(0));
}

/// More lie than may: two of three do not agree with the third, nor with each other.
#[test]
fn a_lying_majority_leaves_no_time() {
    let (room, a) = (room("majority"), Plan::new("alder").start());
    let b = liar("birch");
    let c = Plan { ahead: 90, ..Plan::new("cedar") }.start();
    let told = ask(&room, &list(&[&a, &b, &c]), &[]);
    assert_eq!(told.status, Some(7));
    assert_eq!(line(&told.out, "time"), "none: no time lies in the windows of enough servers");
    assert!(told.said.contains("trawl: no time: more than 1 of 3 servers lie"), "{}", told.said);
    // What each of them said is there.
    assert_eq!(told.out.matches("\nsaid     ").count(), 3, "{}", told.out);
    // What it shows is kept all the same.
    assert_eq!(line(&told.out, "report"), "'malfeasance-1.json'");
}

/// Any minority may lie: two of five, and of four that answer one.
#[test]
fn a_lying_minority_does_not_keep_it_from_the_time() {
    let (room, [a, b, c]) = (room("minority"), honest(NAMES));
    let (d, e) = (liar("dogwood"), Plan { ahead: 90, ..Plan::new("elm") }.start());
    let (json, told) = ask_json(&room, &list(&[&a, &b, &c, &d, &e]), &[]);
    assert_eq!(told.status, Some(6), "{}", told.said);
    assert!(json.holds_now() && json.is_true("exact"));
    assert_eq!(
        (json.names("agrees"), json.names("suspect")),
        (names(&NAMES), names(&["dogwood", "elm"]))
    );
    let silent = Plan::silent("fir").start();
    let (json, told) = ask_json(&room, &list(&[&a, &b, &c, &d, &silent]), &["--within", "4"]);
    assert_eq!(told.status, Some(6), "{}", told.said);
    assert!(json.holds_now());
    assert_eq!((json.names("agrees"), json.names("suspect")), (names(&NAMES), names(&["dogwood"])));
    assert_eq!(json.text("walk.outcome"), "malfeasance");
}

fn names(names: &[&str]) -> Vec<String> {
    names.iter().map(|name| name.to_string()).collect()
}

#[test]
fn who_is_chosen() {
    let room = room("chosen");
    let many: Vec<Server> = ["a", "b", "c", "d", "e", "f", "g", "h", "i"]
        .into_iter()
        .map(|name| Plan::new(name).start())
        .collect();
    let many: Vec<&Server> = many.iter().collect();
    let list = list(&many);
    let asked = |words: &[&str]| {
        let (json, told) = ask_json(&room, &list, words);
        assert_eq!(told.status, Some(0), "{}", told.said);
        (
            json.list("servers").iter().map(|one| one.text("name")).collect::<Vec<String>>(),
            told.said,
        )
    };
    assert_eq!((asked(&[]).0.len(), asked(&["--of", "3"]).0.len()), (5, 3));
    let (eight, said) = asked(&["--of=8"]);
    assert_eq!((eight.len(), &said[..]), (8, ""));
    let (all, said) = asked(&["--all"]);
    assert_eq!(all.len(), 8);
    assert!(said.starts_with("trawl: 8 of 9 servers are asked, by chance"), "{said}");
    // Twelve choices of 3 of 9, in any order, of 504: that all are the same cannot be.
    let choices: BTreeSet<Vec<String>> = (0..12).map(|_| asked(&["--of", "3"]).0).collect();
    assert!(choices.len() > 3, "{choices:?}");
}

/// With fewer than three there is a time, but nobody may lie, and nothing can be shown.
#[test]
fn fewer_than_three_servers() {
    let (room, [a, b]) = (room("few"), honest(["alder", "birch"]));
    for servers in [&[&a][..], &[&a, &b]] {
        let told = ask(&room, &list(servers), &[]);
        assert_eq!(told.status, Some(0), "{}", told.said);
        let count = servers.len();
        assert_eq!(line(&told.out, "counted"), format!("{count} of {count}, of which 0 may lie"));
        assert!(line(&told.out, "walk").starts_with("none: "), "{}", told.out);
        assert!(told.said.contains("to ask: none may lie, and nothing can be shown"));
        assert!(told.said.contains("a list of 3 or more is needed"), "{}", told.said);
    }
    let c = liar("cedar");
    let told = ask(&room, &list(&[&a, &c]), &[]);
    assert_eq!(told.status, Some(7));
    assert!(told.said.contains("no time: more than 0 of 2 servers lie"), "{}", told.said);
    // Where more are wanted than there are, that is said.
    let d = Plan::new("dogwood").start();
    let told = ask(&room, &list(&[&a, &b, &d]), &["--of", "4"]);
    assert_eq!(told.status, Some(0));
    assert!(told.said.starts_with("trawl: 3 servers are asked, and not 4: "), "{}", told.said);
}

/// A name that is too long to be told is cut, and what a list has beside its servers costs no time.
#[test]
fn lists_that_are_made_to_take_long() {
    let (room, [a, b, c]) = (room("long"), honest(NAMES));
    let mut servers = [&a, &b, &c].map(Server::listed).to_vec();
    servers[0].name = "é".repeat(100_000);
    let sources = vec!["https://a".to_string(); 30_000];
    let list = ServerList { servers, sources, ..ServerList::default() };
    let list = list.write().expect("it is one").into_bytes();
    let start = Instant::now();
    let (json, told) = ask_json(&room, &list, &[]);
    assert_eq!(told.status, Some(0), "{}", told.said);
    assert_eq!(json.server(&("é".repeat(60) + "..")).text("state"), "agrees");
    assert!(start.elapsed() < Duration::from_secs(5));
}

/// A server is one however often its key stands in a list, and no name steers a terminal.
#[test]
fn keys_that_stand_there_twice_and_names_of_any_kind() {
    let room = room("names");
    let [a, b, c, d] = honest(["same", "same", "\u{1b}[2J\u{202e}x", " "]);
    let mut servers = [&a, &b, &c, &d].map(Server::listed).to_vec();
    // One that has no address is not chosen.
    servers.push(ListedServer { name: "nowhere".into(), key: [5; 32], addresses: vec![] });
    servers.push(Server::listed(&a));
    let list = list_of(servers);
    let (json, told) = ask_json(&room, &list, &["--all"]);
    assert_eq!(told.status, Some(0), "{}", told.said);
    assert_eq!(json.list("servers").len(), 4);
    let hex = |server: &Server| -> String {
        server.key[..4].iter().map(|byte| format!("{byte:02x}")).collect()
    };
    for server in [&a, &b] {
        json.server(&format!("same (key {})", hex(server)));
    }
    json.server(&format!("key {}", hex(&d)));
    json.server("\\u{1b}[2J\\u{202e}x");
    let told = ask(&room, &list, &[]);
    let plain = |out: &str| out.chars().all(|one| !one.is_control() || one == '\n');
    assert!(plain(&told.out) && plain(&told.said) && !told.out.contains('\u{202e}'));
}

#[test]
fn the_list_may_come_by_standard_input() {
    let (room, [a, b, c]) = (room("stdin"), honest(NAMES));
    room.put("list", &list(&[&a, &b, &c]));
    let mut command = room.command(&["--ask", "-", "--json"]);
    command.stdin(File::open(room.folder.join("list")).expect("it is there"));
    command.stdout(Stdio::piped()).stderr(Stdio::piped());
    let told = finished(command.spawn().expect("it can be run"));
    assert_eq!(told.status, Some(0), "{}", told.said);
    assert!(Json::of(told.out.trim_end()).holds_now());
}

extern "C" {
    fn kill(process: i32, signal: i32) -> i32;
}

const SIGINT: i32 = 2;

/// What a server said before still counts where it is silent then; and a signal ends it, with the
/// status of the last measurement.
#[test]
fn measuring_over_and_over() {
    let (room, [a, b], c) = (room("watch"), honest(["alder", "birch"]), liar("cedar"));
    room.put("list", &list(&[&a, &b, &c]));
    let words = ["--ask", "list", "--watch", "1", "--within", "1.5", "--json"];
    let mut command = room.command(&words);
    command.stdin(Stdio::null()).stdout(Stdio::piped()).stderr(Stdio::piped());
    let mut child = command.spawn().expect("it can be run");
    let mut lines = BufReader::new(child.stdout.take().expect("it is piped")).lines();
    let mut next = || Json::of(&lines.next().expect("there is more").expect("it is text"));
    let first = next();
    assert!(first.holds_now());
    assert_eq!(first.text("walk.outcome"), "malfeasance");
    b.switch_off();
    let second = next();
    assert!(second.holds_now() && second.is_true("exact"));
    assert_eq!(second.names("agrees"), ["alder", "birch"]);
    assert_eq!(second.names("suspect"), ["cedar"]);
    assert_eq!(
        [second.server("birch"), second.server("alder")].map(|one| one.is_true("answered")),
        [false, true]
    );
    assert_eq!(second.text("walk.outcome"), "none");
    // What is counted is of this measurement.
    assert!(second.server("birch").number("sent") <= 2, "{second:?}");
    // SAFETY: no pointer is passed, and the process is ours and not waited for yet.
    assert_eq!(unsafe { kill(child.id() as i32, SIGINT) }, 0);
    let told = finished(child);
    assert_eq!((told.status, &told.said[..]), (Some(6), ""));
}

/// About the same two servers one report is enough, however often they are asked.
#[test]
fn a_watch_does_not_fill_the_folder() {
    let (room, [a, b], c) = (room("once"), honest(["alder", "birch"]), liar("cedar"));
    room.put("list", &list(&[&a, &b, &c]));
    let mut command = room.command(&["--ask", "list", "--watch", "1", "--json"]);
    command.stdin(Stdio::null()).stdout(Stdio::piped()).stderr(Stdio::piped());
    let mut child = command.spawn().expect("it can be run");
    let mut lines = BufReader::new(child.stdout.take().expect("it is piped")).lines();
    for _ in 0..4 {
        let json = Json::of(&lines.next().expect("there is more").expect("it is text"));
        assert!(json.holds_now() && !json.is_null("contradictions.0.report"));
    }
    // SAFETY: as above.
    assert_eq!(unsafe { kill(child.id() as i32, SIGINT) }, 0);
    assert_eq!(finished(child).status, Some(6));
    // The liar is shown by the one or by the other of two.
    let reports = fs::read_dir(&room.folder).expect("it is there").count() - 1;
    assert!((1..=2).contains(&reports), "{reports}");
}
