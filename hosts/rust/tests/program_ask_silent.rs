//! `trawl --ask` where servers are silent: the time without them, the walk without them, how often
//! they are asked, and that it never takes longer than it may.

#[path = "support/asked.rs"]
mod asked;
#[path = "support/room.rs"]
mod room;
#[path = "support/time_servers.rs"]
mod time_servers;

use asked::{ask, ask_json};
use room::{installed, Ran, Room};
use std::net::{TcpListener, TcpStream, UdpSocket};
use std::os::unix::io::AsRawFd;
use std::process::Command;
use std::time::{Duration, Instant};
use time_servers::{honest, list, list_of, Plan};
use trawlbeacon::{Address, ListedServer, Protocol};

/// How much longer than it may it is seen to take, on a machine that does other things, too.
const SLACK: Duration = Duration::from_secs(2);

/// The same by its own clock, in microseconds.
const OWN_SLACK: u64 = 500_000;

#[test]
fn one_of_three_is_silent() {
    let (room, [a, b]) = (Room::new("silent"), honest(["alder", "birch"]));
    let c = Plan::silent("cedar").start();
    let (json, told) = ask_json(&room, &list(&[&a, &b, &c]), &["--within", "3"]);
    assert_eq!(told.status, Some(0), "{}", told.said);
    assert!(json.holds_now());
    // Two are counted, of which one may lie: an end may be its.
    assert_eq!((json.number("counted"), json.is_true("exact")), (2, false));
    assert_eq!((json.names("agrees").len(), json.names("uncounted")), (2, vec!["cedar".into()]));
    assert_eq!(json.text("walk.outcome"), "none");
    // It was tried by UDP and by TCP.
    assert!(c.asked(Protocol::Udp) >= 1 && !json.server("cedar").is_null("failure"), "{json:?}");
    let told = ask(&room, &list(&[&a, &b, &c]), &["--within", "1"]);
    for due in [
        "\nsilent   cedar: ",
        "\nwalk     none: 2 servers answer, and it takes 3\n",
        "2 of 3, of which 1 may lie: it is between the ends, but an end may be a liar's\n",
    ] {
        assert!(told.out.contains(due), "{}", told.out);
    }
    // What there is is told before the wait is over.
    assert!(told.said.starts_with("trawl: after ") && told.said.contains(", by 2 of 3\n"));
}

#[test]
fn the_walk_goes_on_without_the_silent() {
    let (room, [a, b, d]) = (Room::new("without"), honest(["alder", "birch", "dogwood"]));
    let c = Plan::silent("cedar").start();
    let start = Instant::now();
    let (json, told) = ask_json(&room, &list(&[&a, &b, &c, &d]), &["--within", "10"]);
    assert_eq!(told.status, Some(0), "{}", told.said);
    assert!(json.holds_now() && json.is_true("exact"));
    assert_eq!((json.text("walk.outcome"), json.number("walk.answers")), ("consistent".into(), 6));
    // The time was there at once, and nobody waits to the end for one that is silent.
    assert!(json.number("thereAfter") < 1_000_000, "{json:?}");
    assert!(start.elapsed() < Duration::from_secs(3) + SLACK);
}

/// It answers at first, and no more in the walk: as a liar might who wants to leave no evidence.
#[test]
fn one_that_falls_silent_is_left_out() {
    let (room, [a, b, d]) = (Room::new("left out"), honest(["alder", "birch", "dogwood"]));
    let quits = || Plan { answers: 1, ..Plan::new("cedar") }.start();
    let c = quits();
    let (json, told) = ask_json(&room, &list(&[&a, &b, &c, &d]), &["--within", "4"]);
    assert_eq!(told.status, Some(0), "{}", told.said);
    let left = json.number("walk.leftOut.0");
    assert_eq!(json.text(&format!("servers.{left}.name")), "cedar");
    assert_eq!((json.text("walk.outcome"), json.number("walk.answers")), ("consistent".into(), 6));
    assert_eq!(json.names("agrees").len(), 4);
    let c = quits();
    let told = ask(&room, &list(&[&a, &b, &c]), &["--within", "3"]);
    assert_eq!(told.status, Some(0), "{}", told.said);
    let due = "\nwalk     none: 2 servers answer, and it takes 3; left out: cedar\n";
    assert!(told.out.contains(due), "{}", told.out);
}

/// A liar that falls silent in the second round is convicted by what it said in the first.
#[test]
fn silence_does_not_hide_a_lie() {
    let (room, [a, b, d]) = (Room::new("hides"), honest(["alder", "birch", "dogwood"]));
    let c = Plan { ahead: 9, answers: 2, ..Plan::new("cedar") }.start();
    let (json, told) = ask_json(&room, &list(&[&a, &b, &c, &d]), &["--within", "4"]);
    assert_eq!(told.status, Some(6), "{}", told.said);
    assert_eq!(json.text("walk.outcome"), "consistent");
    let first = json.number("contradictions.0.first.server");
    assert_eq!(json.text(&format!("servers.{first}.name")), "cedar");
    assert_eq!(json.names("suspect"), ["cedar"]);
}

#[test]
fn two_of_three_are_silent() {
    let (room, [a]) = (Room::new("two silent"), honest(["alder"]));
    let (b, c) = (Plan::silent("birch").start(), Plan::silent("cedar").start());
    let (json, told) = ask_json(&room, &list(&[&a, &b, &c]), &["--within", "0.5"]);
    assert_eq!(told.status, Some(7));
    assert!(json.is_null("time") && json.number("refused.code") == 33);
    let due = "trawl: no time: 1 of 3 servers answered, and 1 may lie; --within waits longer, and";
    assert_eq!(told.said, format!("{due} a longer list has others\n"));
    let d = Plan::silent("dogwood").start();
    let told = ask(&room, &list(&[&b, &c, &d, &a]), &["--of", "3", "--within", "0.3"]);
    let others = format!("{due} --all asks more of the list\n");
    let none = "trawl: no time: no server answers";
    assert!(told.said.ends_with(&others) || told.said.starts_with(none), "{}", told.said);
    let told = ask(&room, &list(&[&b, &c]), &["--within", "0.3"]);
    assert_eq!(told.status, Some(7));
    assert!(told.said.ends_with("is there a network, and is the list a new one?\n"));
    assert!(told.out.starts_with("time     none: no more servers are counted than may lie\n"));
}

/// min(1.5^(n-1), 86400) seconds after n failures (draft 19, section 5), and packets that are no
/// answers change nothing.
#[test]
fn a_silent_server_is_asked_less_and_less() {
    let room = Room::new("backoff");
    let silent = Plan::silent("alder").start();
    // It answers no request of this key, and what it sends is refused.
    let noisy = UdpSocket::bind("127.0.0.1:0").expect("there is a free port");
    let address = noisy.local_addr().expect("it has one");
    noisy.set_read_timeout(Some(Duration::from_secs(2))).expect("it is not zero");
    let noise = std::thread::spawn(move || {
        let (mut packet, mut times) = ([0; 2_000], vec![]);
        while let Ok((_, from)) = noisy.recv_from(&mut packet) {
            times.push(Instant::now());
            for _ in 0..5 {
                let _ = noisy.send_to(b"ROUGHTIM and no more", from);
            }
        }
        times
    });
    let at = Address { protocol: Protocol::Udp, host_and_port: address.to_string() };
    let birch = ListedServer { name: "birch".into(), key: [3; 32], addresses: vec![at] };
    let list = list_of(vec![silent.listed_by(Protocol::Udp), birch]);
    let (json, told) = ask_json(&room, &list, &["--within", "3"]);
    assert_eq!(told.status, Some(7));
    assert_eq!([json.server("alder"), json.server("birch")].map(|one| one.number("sent")), [3; 2]);
    assert_eq!(json.server("birch").number("refused"), 15);
    let times = noise.join().expect("it ends");
    let noisy: Vec<f64> = times.windows(2).map(|two| (two[1] - two[0]).as_secs_f64()).collect();
    for intervals in [silent.intervals(), noisy] {
        assert_eq!(intervals.len(), 2);
        for (seen, due) in intervals.into_iter().zip([1.0, 1.5]) {
            assert!(seen > due - 0.2, "{seen} and not {due}");
        }
    }
}

extern "C" {
    fn listen(socket: i32, waiting: i32) -> i32;
}

/// One whose queue is full, so that whoever connects waits without end.
fn full_queue() -> (TcpListener, Vec<TcpStream>) {
    let listener = TcpListener::bind("127.0.0.1:0").expect("there is a free port");
    // SAFETY: no pointer is passed, and the socket is ours.
    assert_eq!(unsafe { listen(listener.as_raw_fd(), 0) }, 0);
    let at = listener.local_addr().expect("it has one");
    let connect = |_| TcpStream::connect_timeout(&at, Duration::from_millis(100)).ok();
    let waiting = (0..8).map_while(connect).collect();
    (listener, waiting)
}

#[test]
fn it_never_takes_longer_than_it_may() {
    let room = Room::new("within");
    let [a] = honest(["alder"]);
    // It takes connections, and says nothing.
    let quiet = TcpListener::bind("127.0.0.1:0").expect("there is a free port");
    let (full, _waiting) = full_queue();
    let tcp = |name: &str, key, at: String| {
        let at = Address { protocol: Protocol::Tcp, host_and_port: at };
        ListedServer { name: name.into(), key: [key; 32], addresses: vec![at] }
    };
    let at = |listener: &TcpListener| listener.local_addr().expect("it has one").to_string();
    let servers = vec![
        a.listed(),
        tcp("quiet", 1, at(&quiet)),
        tcp("full", 2, at(&full)),
        // No such name resolves (RFC 6761).
        tcp("nameless", 3, "no-such-host.invalid:2002".to_string()),
    ];
    for within in ["0.1", "0.7", "1.6"] {
        let start = Instant::now();
        let (json, told) = ask_json(&room, &list_of(servers.clone()), &["--within", within]);
        let seconds: f64 = within.parse().expect("it is a number");
        assert_eq!(told.status, Some(7), "{}", told.said);
        assert!(start.elapsed() < Duration::from_secs_f64(seconds) + SLACK);
        let took = json.number("took");
        assert!(took < (seconds * 1e6) as u64 + OWN_SLACK, "{took} within {within}");
    }
}

/// Where there is no network at all, that is what it says.
#[test]
fn without_a_network() {
    let (room, [a, b, c]) = (Room::new("offline"), honest(["alder", "birch", "cedar"]));
    let alone = |program: &str| {
        let mut command = Command::new("unshare");
        command.args(["--map-root-user", "--net", program]);
        command
    };
    if !alone("true").output().map_or(false, |ran| ran.status.success()) {
        println!("LEFT OUT: no network, since none can be taken away here");
        return;
    }
    room.put("list", &list(&[&a, &b, &c]));
    let program = installed().join("bin/trawl");
    let mut command = alone(program.to_str().expect("it is text"));
    command.args(["--ask", "list", "--within", "0.3"]).current_dir(&room.folder);
    let told = Ran::of(command.output().expect("it can be run"));
    assert_eq!(told.status, Some(7));
    let due = "Network is unreachable); is there a network, and is the list a new one?\n";
    assert!(told.said.ends_with(due), "{}", told.said);
    assert!(told.out.contains(": 0 requests, and no answer; "), "{}", told.out);
}
