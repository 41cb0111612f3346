//! The command `trawl` and what it reads and writes: a file is written whole or not at all, what
//! cannot be written is never status 0, `-` is standard input, and no name steers a terminal.

#[path = "support/room.rs"]
mod room;

use independent::{appendix, making};
use room::{Ran, Room, ROOT};
use std::fs::{self, File, OpenOptions};
use std::os::unix::fs::{symlink, PermissionsExt};
use std::process::Stdio;
use trawlbeacon::RECORD_LENGTH;

fn report() -> String {
    format!("{ROOT}/vectors/malfeasance-report.json")
}

/// A call of each action that prints something, on files that are there.
fn calls() -> Vec<Vec<String>> {
    let report = report();
    let pile = format!("{ROOT}/crates/trawl_alone/data/appendix.pile");
    let calls: [&[&str]; 11] = [
        &[],
        &[&pile],
        &["--judge", &report],
        &["--json", &report],
        &["--cut", &report],
        &["--cut", &report, "--json"],
        &["--draw", &report],
        &["--draw", &report, "--svg"],
        &["--help"],
        &["-h"],
        &["--version"],
    ];
    calls.iter().map(|words| words.iter().map(|word| word.to_string()).collect()).collect()
}

fn words(call: &[String]) -> Vec<&str> {
    call.iter().map(String::as_str).collect()
}

fn full() -> File {
    OpenOptions::new().write(true).open("/dev/full").expect("Linux has it")
}

#[test]
fn no_file_is_written_over_unless_that_is_wanted() {
    let room = Room::new("force");
    let pile = room.put("pile", &appendix::pile().pile);
    room.put("there", b"kept");
    let refused = room.run(&["--cut", pile, "--out", "there"]);
    assert_eq!((refused.out.as_str(), refused.status), ("", Some(1)));
    assert_eq!(refused.said, "trawl: 'there': it exists, and --force is not given\n");
    assert_eq!(room.bytes("there"), b"kept");
    assert_eq!(room.run(&["--cut", pile, "--out", "there", "--force"]).status, Some(0));
    assert_eq!(room.bytes("there").len(), 2 * RECORD_LENGTH);
    // A sign of equality does as well, and so does a name that a link has taken already.
    assert_eq!(room.run(&["--cut", pile, "--out=new"]).status, Some(0));
    assert_eq!(room.bytes("new"), room.bytes("there"));
    let _ = symlink("nowhere", room.folder.join("link"));
    assert_eq!(room.run(&["--cut", pile, "--out=link"]).status, Some(1));
    // It stands below build/, and rt ci refuses a clone that has a link in it.
    fs::remove_file(room.folder.join("link")).expect("it is ours");
}

/// A limit on the length of files stands in for a disk that is full.
#[test]
fn on_a_full_disk_the_old_file_stays_whole() {
    let pile = appendix::pile().pile;
    let actions: [&[&str]; 3] = [&["--cut"], &["--cut", "--json"], &["--draw", "--svg"]];
    for (place, action) in actions.into_iter().enumerate() {
        let room = Room::new(&format!("full disk {place}"));
        room.put("pile", &pile);
        room.put("out", b"the old evidence");
        let words = [action, &["pile", "--out", "out", "--force"]].concat();
        let told = room.by_shell("trap '' XFSZ; ulimit -f 1;", &words).output().map(Ran::of);
        let told = told.expect("sh runs");
        assert_eq!((told.status, &told.said[..]), (Some(1), "trawl: 'out': File too large\n"));
        assert_eq!(room.bytes("out"), b"the old evidence", "{action:?}");
        assert_eq!(fs::read_dir(&room.folder).expect("it is there").count(), 2, "{action:?}");
        // Where the system ends it on the way the old one is there, too.
        let status = room.by_shell("ulimit -c 0; ulimit -f 1;", &words).status().expect("sh runs");
        assert_eq!(status.code(), None, "{action:?}");
        assert_eq!(room.bytes("out"), b"the old evidence", "{action:?}");
        // And with room it is replaced.
        assert_eq!(room.run(&words).status, Some(0));
        assert!(room.bytes("out").len() > 1024);
    }
}

#[test]
fn what_is_replaced_keeps_its_kind() {
    let room = Room::new("kinds");
    let pile = room.put("pile", &appendix::pile().pile);
    let file = room.folder.join(room.put("private", b"old"));
    fs::set_permissions(&file, fs::Permissions::from_mode(0o600)).expect("it is ours");
    let _ = fs::remove_file(room.folder.join("link"));
    symlink("private", room.folder.join("link")).expect("a link can be made");
    assert_eq!(room.run(&["--cut", pile, "--out", "link", "--force"]).status, Some(0));
    assert_eq!(room.bytes("private").len(), 2 * RECORD_LENGTH);
    let mode = fs::metadata(&file).expect("it is there").permissions().mode();
    assert_eq!(mode & 0o777, 0o600);
    assert!(fs::symlink_metadata(room.folder.join("link")).expect("it is there").is_symlink());
    fs::remove_file(room.folder.join("link")).expect("it is ours");
    // What is no file is written to, and nothing takes its name.
    assert_eq!(room.run(&["--cut", pile, "--out", "/dev/null", "--force"]).status, Some(0));
    let told = room.run(&["--cut", pile, "--out", "/dev/full", "--force"]);
    assert_eq!(
        (told.status, &told.said[..]),
        (Some(1), "trawl: '/dev/full': No space left on device\n")
    );
}

#[test]
fn what_cannot_be_printed_is_no_success() {
    let room = Room::new("unprinted");
    for call in calls() {
        let words = words(&call);
        let told = room.command(&words).stdout(full()).stderr(Stdio::piped()).output().map(Ran::of);
        let told = told.expect("it can be run");
        assert_eq!(told.status, Some(1), "{words:?}");
        assert_eq!(told.said, "trawl: standard output: No space left on device\n", "{words:?}");
        let told = room.by_shell("exec >&-;", &words).output().map(Ran::of).expect("sh runs");
        assert_eq!(told.status, Some(1), "{words:?}");
        assert_eq!(told.said, "trawl: standard output: it is closed\n", "{words:?}");
    }
    // A closed standard output is no harm where nothing is printed there.
    room.put("pile", &appendix::pile().pile);
    let words = ["--cut", "pile", "--out", "run", "--force"];
    assert_eq!(room.by_shell("exec >&-;", &words).status().expect("sh runs").code(), Some(0));
}

#[test]
fn a_dash_is_standard_input() {
    let room = Room::new("stdin");
    let made = making::pile_of(&[(1000, 10), (1500, 10), (1495, 1), (1400, 10)]);
    let (pile, answers) = (room.put("pile", &made.pile), room.put("answers", &made.answers));
    // A file of that name is another thing.
    room.put("-", b"no pile");
    let from = |name: &str, words: &[&str]| {
        let file = File::open(room.folder.join(name)).expect("it is there");
        Ran::of(room.command(words).stdin(file).output().expect("it can be run"))
    };
    for action in [&["--judge"][..], &["--json"], &["--draw"], &[]] {
        let due = room.run(&[action, &[pile, answers]].concat());
        assert_eq!(from(pile, &[action, &["-", answers]].concat()), due, "{action:?}");
        assert_eq!(from(answers, &[action, &[pile, "-"]].concat()), due, "{action:?}");
        assert_eq!(from(answers, &[action, &["--", pile, "-"]].concat()), due, "{action:?}");
    }
    let report = report();
    assert_eq!(
        Ran::of(
            room.command(&["--judge", "-"]).stdin(File::open(&report).unwrap()).output().unwrap()
        ),
        room.run(&["--judge", &report])
    );
    assert!(room.run(&["--judge", "./-"]).said.contains("'./-': no JSON at byte 0"));
    assert!(from("-", &["--judge", "-"]).said.contains("standard input: no JSON at byte 0"));
}

#[test]
fn no_name_steers_a_terminal() {
    let room = Room::new("names");
    let name = "a\u{1b}]0;b\u{7}\r\n\u{202e}c";
    let spelled = "a\\u{1b}]0;b\\u{7}\\r\\n\\u{202e}c";
    let calls: [&[&str]; 6] = [
        &[name],
        &["--judge", name],
        &["--cut", name],
        &["--look-up", &"00".repeat(32), name],
        &["--look-up", name, "list"],
        &["--judge", name, "--servers", name],
    ];
    for there in [false, true] {
        for words in calls {
            let told = room.run(words);
            assert!(told.said.contains(spelled), "{words:?}: {:?}", told.said);
            let plain = |said: &str| said.chars().all(|one| !one.is_control() || one == '\n');
            assert!(plain(&told.said) && plain(&told.out), "{words:?}: {:?}", told.said);
            assert_eq!(told.said.contains("'list'"), false);
        }
        if !there {
            room.put(name, b"[");
        }
    }
    // What is no UTF-8 is no harm either.
    use std::ffi::OsStr;
    use std::os::unix::ffi::OsStrExt;
    let told = room.run(&[OsStr::new("--judge"), OsStr::from_bytes(b"\xff\x1b")]);
    assert_eq!(told.said, "trawl: '\u{fffd}\\u{1b}': No such file or directory\n");
}

#[test]
fn a_picture_for_a_browser_by_its_name() {
    let room = Room::new("svg");
    let report = report();
    let svg = room.run(&["--draw", &report, "--svg"]).out;
    for name in ["picture.svg", "PICTURE.SVG"] {
        assert_eq!(room.run(&["--draw", &report, "--out", name, "--force"]).status, Some(0));
        assert_eq!(room.bytes(name), svg.as_bytes(), "{name}");
    }
    assert_eq!(room.run(&["--draw", &report, "--out", "svg", "--force"]).status, Some(0));
    assert!(!room.bytes("svg").starts_with(b"<svg"));
}
