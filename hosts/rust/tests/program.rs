//! The command `trawl` as people type it: the front end beside the proved program, as both are
//! installed. What it prints, what it says beside that, its status, and the files that it writes.

#[path = "support/room.rs"]
mod room;
mod support;

use independent::appendix::{self, Entry};
use independent::{base64, making};
use room::{installed, Ran, Room, ROOT};
use std::ffi::OsStr;
use std::fs;
use std::os::unix::ffi::OsStrExt;
use std::path::Path;
use std::process::{Command, Stdio};
use support::hex;
use trawlbeacon::picture::Picture;
use trawlbeacon::Refusal;

fn kept(file: &str) -> Vec<u8> {
    fs::read(Path::new(ROOT).join(file)).unwrap_or_else(|error| panic!("{file}: {error}"))
}

/// The words of a program's file `args`, which name files of its folder `data`, as whole paths.
fn arguments(program: &str) -> Vec<String> {
    let words = String::from_utf8(kept(&format!("crates/{program}/args"))).expect("they are text");
    words.lines().map(|word| format!("{ROOT}/crates/{program}/data/{word}")).collect()
}

/// What a program must print.
fn due(program: &str) -> String {
    String::from_utf8(kept(&format!("crates/{program}/stdout"))).expect("it is text")
}

/// What the command prints of these files, so many at a time.
fn printed(room: &Room, flags: &[&str], files: &[String], each: usize) -> String {
    let words = |files: &[String]| {
        let words: Vec<&str> = files.iter().map(String::as_str).collect();
        let ran = room.run(&[flags, &words].concat());
        assert_eq!(ran.status, Some(0), "{words:?}: {}", ran.said);
        ran.out
    };
    files.chunks(each).map(words).collect()
}

#[test]
fn files_alone_are_told_of_by_the_proved_program() {
    let room = Room::new("plain");
    assert_eq!(printed(&room, &[], &arguments("trawl_cases"), 2), due("trawl_cases"));
    assert_eq!(printed(&room, &[], &arguments("trawl_alone"), 1), due("trawl_alone"));
    assert_eq!(printed(&room, &["--"], &arguments("trawl"), 2), due("trawl"));
    let sample = room.run::<&str>(&[]);
    assert_eq!((sample.out, sample.status), (due("trawl"), Some(0)));
    assert!(sample.said.starts_with("trawl: no pile is named"), "{}", sample.said);
    let files = arguments("trawl_cases").len() / 2 + arguments("trawl_alone").len();
    println!("the command: {files} sets of files, by the proved program as it is installed");
}

#[test]
fn judging_prints_the_same_lines() {
    let room = Room::new("judge");
    // Of what cannot be read the proved program says what it says of an empty one; judging does not.
    let there = |program, each| {
        let files = arguments(program);
        let sets =
            files.chunks(each).filter(|set| set.iter().all(|file| Path::new(file).is_file()));
        sets.flatten().cloned().collect::<Vec<String>>()
    };
    for (files, each) in [(there("trawl_alone", 1), 1), (there("trawl_cases", 2), 2)] {
        let ours = printed(&room, &["--judge"], &files, each);
        assert_eq!(ours, printed(&room, &[], &files, each));
        println!("judging: {} sets of files as the proved program", files.len() / each);
    }
}

#[test]
fn a_report_in_json_is_judged_too() {
    let room = Room::new("json");
    let report = format!("{ROOT}/vectors/malfeasance-report.json");
    let pile = room.put("pile", &appendix::pile().pile);
    let told = room.run(&["--judge", &report]);
    assert_eq!(told, room.run(&["--judge", pile]));
    assert!(told.out.starts_with("records 3\n0 ok 1773685568 1773685574 "), "{}", told.out);
    assert_eq!(
        told.said,
        "trawl: whose keys these are nobody has looked up; --servers LIST does\n"
    );
    let dated = room.run(&["--dates", &report]).out;
    let line = dated.lines().nth(1).expect("there is a record");
    let words: Vec<&str> = line.split(' ').collect();
    assert_eq!(words[..4], ["0", "ok", "1773685568", "1773685574"]);
    assert_eq!(words[6..8], ["2026-03-16T18:26:08Z", "2026-03-16T18:26:14Z"]);
    let bad = room.put("bad", b"{\"responses\": 1}");
    let refused = room.run(&["--judge", bad]);
    assert_eq!((refused.out.as_str(), refused.status), ("refused 24\n", Some(0)));
    assert!(refused.said.starts_with("trawl: the text is no report"));
    assert!(refused.said.ends_with("\ntrawl: 'bad': \"responses\" is no list\n"));
}

#[test]
fn a_verdict_as_json() {
    let room = Room::new("as_json");
    let mut made = making::pile_of(&[(1000, 10), (1500, 10), (1495, 1), (1400, 10)]);
    made.answers[1] = 0;
    made.pile[4096 + 2096 + 12] = 0;
    let (pile, answers) = (room.put("pile", &made.pile), room.put("answers", &made.answers));
    let told = room.run(&["--json", "--dates", pile, answers]).out;
    // A key is spelled as in a report.
    let key = base64::encode(&[0x55; 32]);
    let first = format!(
        "{{\"records\":[{{\"publicKey\":\"{key}\",\"linked\":false,\"refused\":{{\"code\":13,\
         \"words\":\"the response's signature does not verify\"}}}},"
    );
    assert!(told.starts_with(&first), "{told}");
    assert!(told.contains("or offset is wrong\",\"at\":12}}"), "{told}");
    // What not every reader has exactly is a string, and past 9999 there is no date.
    let last = "\"linked\":true,\"midp\":1400,\"radi\":10,\"low\":1390,\"high\":1410,\"mint\":0,\
                \"maxt\":\"18446744073709551615\",\"pubk\":\"Dw8P";
    assert!(told.contains(last), "{told}");
    assert!(told.contains("\"dates\":{\"low\":\"1970-01-01T00:24:54Z\""), "{told}");
    assert!(told.contains("\"mint\":\"1970-01-01T00:00:00Z\",\"maxt\":null}"), "{told}");
    let lines = room.run(&["--dates", pile, answers]).out;
    assert!(lines.contains("1970-01-01T00:23:30Z 1970-01-01T00:00:00Z -\n"), "{lines}");
    assert!(told.ends_with("],\"run\":{\"first\":2,\"last\":3}}\n"), "{told}");
    let short = room.put("short", &made.pile[1..]);
    let refused = room.run(&["--json", short]).out;
    assert!(refused.starts_with("{\"refused\":{\"code\":15,\"words\":\""), "{refused}");
    for text in [told, refused] {
        assert!(independent::json::read(text.as_bytes(), 16).is_ok(), "{text}");
    }
}

#[test]
fn a_status_by_the_verdict_is_for_who_asks_for_it() {
    let room = Room::new("status");
    let made = making::pile_of(&[(1000, 10), (1500, 10), (1495, 1), (1400, 10)]);
    let (pile, answers) = (room.put("pile", &made.pile), room.put("answers", &made.answers));
    let (no, short) = (room.put("no", &[0; 8]), room.put("short", &[1; 7]));
    for (answers, due) in [(answers, 0), (no, 3), (short, 4)] {
        for action in [&["--judge"][..], &["--draw"], &[]] {
            // A picture of what is refused cannot be drawn.
            let without = if action == ["--draw"] && due == 4 { 4 } else { 0 };
            let words = [action, &[pile, answers]].concat();
            assert_eq!(room.run(&words).status, Some(without), "{words:?}");
            let words = [action, &["--status", pile, answers]].concat();
            assert_eq!(room.run(&words).status, Some(due), "{words:?}");
        }
    }
    assert_eq!(room.run(&["--status"]).status, Some(0));
}

#[test]
fn wrong_files_get_a_hint_and_the_verdict_stays() {
    let room = Room::new("hints");
    let made = making::pile_of(&[(1000, 10), (1500, 10)]);
    let pile = room.put("a pile", &made.pile);
    let hinted = |words: &[&str], hint: &str| {
        let ran = room.run(words);
        let due = format!("trawl: {hint}\n");
        assert_eq!((ran.out.as_str(), ran.said, ran.status), ("refused 15\n", due, Some(0)));
    };
    hinted(
        &[pile, room.put("odd", &[1; 3])],
        "'odd' has 3 bytes, and there are two answers a record",
    );
    hinted(&[pile, room.put("few", &[1; 2])], "'few' has 2 bytes; 2 records have 4 answers");
    let digits = room.put("digits", b"1111\n");
    hinted(&[pile, digits], "byte 0 of 'digits' is 49; an answer is the byte 1 or 0, and no digit");
    let line = room.put("line", b"\x01\x01\x01\x01\n");
    hinted(&[pile, line], "byte 4 of 'line' is 10; an answer is the byte 1 or 0");
    let short = room.put("short", &made.pile[1..]);
    hinted(&[short], "'short' has 8191 bytes, and a record has 4096");
    hinted(
        &[room.put("long", &[0; 17 * 4096])],
        "'long' has 17 records, and a pile has at most 16",
    );
    hinted(&[room.put("empty", b"")], "'empty' is empty");
    let text = room.put("text", b"{}");
    hinted(&[text], "'text' is a text; --judge, --cut and --draw take reports in JSON");
    let missing = "'missing' cannot be read, and counts as empty: No such file or directory";
    hinted(&["missing"], missing);
    hinted(&["."], "'.' cannot be read, and counts as empty: it is a folder");
    let wide: Vec<u8> = "{\"responses\": []}".bytes().flat_map(|byte| [byte, 0]).collect();
    let utf16 = "is a text in UTF-16; a report in JSON is UTF-8";
    hinted(&[room.put("wide", &wide)], &format!("'wide' {utf16}"));
    let marked = [&[0xff, 0xfe], &wide[..]].concat();
    hinted(&[room.put("marked", &marked)], &format!("'marked' {utf16}"));
    let right = room.put("right", &[1; 4]);
    assert_eq!(room.run(&[pile, right]).said, "");
}

/// The proved program opens files by text alone.
#[test]
fn a_file_whose_name_is_no_utf_8_counts_as_missing() {
    let room = Room::new("names");
    let made = making::pile_of(&[(1000, 10), (1500, 10)]);
    let (pile, answers) = (OsStr::from_bytes(b"pile \xff"), room.put("answers", &made.answers));
    fs::write(room.folder.join(pile), &made.pile).expect("a file can be written");
    let ran = room.run(&[pile, OsStr::new(answers)]);
    let due = "trawl: 'pile \u{fffd}' cannot be read, and counts as empty: its name is no UTF-8\n";
    assert_eq!((ran.out.as_str(), ran.said.as_str(), ran.status), ("refused 15\n", due, Some(0)));
    // An action takes any name.
    let judged = |pile: &OsStr| room.run(&["--judge".as_ref(), pile, OsStr::new(answers)]).out;
    assert_eq!(judged(pile), judged(OsStr::new(room.put("pile", &made.pile))));
}

/// Wherever answers are taken, what is wrong with them is said, also of a pipe, and also where the
/// records come from a report in JSON.
#[test]
fn every_action_gives_the_same_hint() {
    let room = Room::new("same_hints");
    let made = making::pile_of(&[(1000, 10), (1500, 10)]);
    let (pile, short) = (room.put("pile", &made.pile), room.put("short", &made.pile[1..]));
    let report = format!("{ROOT}/vectors/malfeasance-report.json");
    let (digits, few) = (room.put("digits", b"1111"), room.put("few", &[1; 2]));
    let digit = "byte 0 of 'digits' is 49; an answer is the byte 1 or 0, and no digit";
    let wrong: [(&[&str], &str); 4] = [
        (&[pile, digits], digit),
        (&[pile, few], "'few' has 2 bytes; 2 records have 4 answers"),
        (&[&report, few], "'few' has 2 bytes; 3 records have 6 answers"),
        (&[short], "'short' has 8191 bytes, and a record has 4096"),
    ];
    let words = Refusal::Pile.to_string();
    for (files, hint) in wrong {
        for action in ["--judge", "--json", "--cut", "--draw"] {
            let ran = room.run(&[&[action], files].concat());
            let due = format!("{words}\ntrawl: {hint}\n");
            assert!(ran.said.starts_with("trawl: ") && ran.said.ends_with(&due), "{}", ran.said);
            let judged = action.starts_with("--j");
            assert_eq!(
                (ran.status, ran.out.is_empty()),
                (Some(4 - 4 * i32::from(judged)), !judged)
            );
        }
    }
    // Of one record it is said in the singular.
    let (one, empty) = (room.put("one", &made.pile[..4096]), room.put("empty", b""));
    let ran = room.run(&["--judge", one, empty]);
    assert!(ran.said.ends_with("'empty' has 0 bytes; 1 record has 2 answers\n"), "{}", ran.said);
}

#[test]
fn a_run_is_cut() {
    let room = Room::new("cut");
    let report = format!("{ROOT}/vectors/malfeasance-report.json");
    let Entry { key, .. } = appendix::entries().swap_remove(0);
    let pile = appendix::pile().pile;
    let cut = room.output(&["--cut", &report]);
    assert_eq!((cut.stdout == pile[..2 * 4096], cut.status.code()), (true, Some(0)));
    assert!(cut.stderr.starts_with(b"trawl: run 0 1\n"));
    assert_eq!(room.run(&["--cut", room.put("pile", &pile), "--out", "run"]).out, "");
    assert_eq!(room.bytes("run")[..32], key);
    // As JSON it is what the library writes of it.
    let mut text = vec![0; trawlbeacon::LONGEST_REPORT];
    let length = trawlbeacon::cut_signed_text(&kept("vectors/malfeasance-report.json"), &mut text);
    text.truncate(length.expect("it is a report").length);
    assert_eq!(room.output(&["--json", "--cut", "run"]).stdout, text);
    // With answers, and a run that does not start the pile.
    let made = making::pile_of(&[(1000, 10), (1500, 10), (1495, 1), (1400, 10)]);
    let (pile, answers) = (room.put("made", &made.pile), room.put("answers", &made.answers));
    let written = room.run(&["--cut", pile, answers, "--json", "--out", "text"]);
    // The answers do not go with a report in JSON, and who reads it sees that nothing is signed.
    let warned = "trawl: by its own signatures this is no report: record 0: the delegation's \
                  signature does not verify\ntrawl: the answers do not go with it, and who reads \
                  it will refuse it\n";
    assert!(written.status == Some(0) && written.said.starts_with(warned), "{}", written.said);
    let signed = room.run(&["--cut", "run", room.put("yes", &[1; 4]), "--json"]).said;
    assert!(!signed.contains("no report"), "{signed}");
    room.put("two", &[1; 4]);
    assert!(room.run(&["--judge", "text", "two"]).out.ends_with("\nrun 0 1\n"));
    // Unsigned as it is, no run convicts by itself.
    let none = room.run(&["--cut", pile]);
    assert_eq!((none.out.as_str(), none.status), ("", Some(3)));
    assert_eq!(room.run(&["--cut", answers]).status, Some(4));
    assert_eq!(room.run(&["--cut", "missing"]).status, Some(1));
}

#[test]
fn a_pile_is_made_of_captured_packets() {
    let room = Room::new("make");
    let mut words = vec!["--make".to_string(), "--out".to_string(), "made".to_string()];
    for (place, Entry { key, rand, request, response }) in appendix::entries().iter().enumerate() {
        let (asked, told) = (format!("request {place}"), format!("response {place}"));
        room.put(&asked, request);
        room.put(&told, response);
        words.extend([hex(key), rand.map_or("-".to_string(), |rand| hex(&rand)), asked, told]);
    }
    let words: Vec<&str> = words.iter().map(String::as_str).collect();
    assert_eq!(room.run(&words).status, Some(0));
    assert_eq!(room.bytes("made"), appendix::pile().pile);
    let long = room.put("long", &[0; 2001]);
    let key = "00".repeat(32);
    assert_eq!(room.run(&["--make", &key, "-", long, long]).status, Some(4));
    assert_eq!(room.run(&["--make", &key[1..], "-", long, long]).status, Some(2));
    assert_eq!(room.run(&["--make", &key, "-", long]).status, Some(2));
    let short = room.put("short", &[7; 12]);
    let many = [&["--make"][..], &[&key[..], "-", short, short].repeat(17)].concat();
    assert_eq!(room.run(&many).status, Some(4));
}

#[test]
fn a_picture_is_the_librarys() {
    let room = Room::new("draw");
    let made = making::pile_of(&[(1000, 10), (1500, 10), (1495, 1), (1400, 10)]);
    let (pile, answers) = (room.put("pile", &made.pile), room.put("answers", &made.answers));
    let due = Picture::with_answers(&made.pile, &made.answers).expect("it is a pile");
    assert_eq!(room.run(&["--draw", pile, answers]).out, due.text());
    assert_eq!(room.run(&["--draw", pile, answers, "--svg", "--out", "svg"]).status, Some(0));
    assert_eq!(room.bytes("svg"), due.svg().as_bytes());
    let report = format!("{ROOT}/vectors/malfeasance-report.json");
    let due = Picture::of_pile(&appendix::pile().pile).expect("it is a pile");
    assert_eq!(room.run(&["--draw", &report]).out, due.text());
}

#[test]
fn what_follows_two_dashes_are_files() {
    let room = Room::new("dashes");
    let pile = appendix::pile().pile;
    let due = room.run(&["--judge", room.put("pile", &pile)]).out;
    for name in ["--judge", "--", "-h", "--out", "cut"] {
        room.put(name, &pile);
        assert_eq!(room.run(&["--", name]).out, due, "{name}");
        assert_eq!(room.run(&["--judge", "--", name]).out, due, "{name}");
        assert_eq!(room.run(&[format!("./{name}")]).out, due, "{name}");
    }
    // No name without a dash is taken for a flag.
    assert_eq!(room.run(&["cut"]).out, due);
}

#[test]
fn a_pipe_is_read_once() {
    let room = Room::new("pipe");
    let pile = fs::File::open(format!("{ROOT}/crates/trawl_alone/data/appendix.pile"))
        .expect("it is kept");
    let mut cat = Command::new("cat").stdin(pile).stdout(Stdio::piped()).spawn().expect("cat runs");
    let mut command = room.command(&["/dev/stdin"]);
    let ran = command.stdin(cat.stdout.take().expect("it is piped")).output().map(Ran::of);
    let ran = ran.expect("it runs");
    cat.wait().expect("cat ends");
    let due: String = due("trawl_alone").lines().take(5).map(|line| format!("{line}\n")).collect();
    assert_eq!((ran.out, ran.status), (due, Some(0)));
    // Of what cannot be read again nothing is said but this.
    assert!(ran.said.starts_with("trawl: whose keys these are nobody"), "{}", ran.said);
    assert_eq!(ran.said.lines().count(), 1, "{}", ran.said);
}

/// A pipe that has a name, and one that has none, for each action.
#[test]
fn every_action_reads_a_pipe() {
    let room = Room::new("pipes");
    let pile = format!("{ROOT}/crates/trawl_alone/data/appendix.pile");
    let made = Command::new("mkfifo").arg("fifo").current_dir(&room.folder).status();
    assert!(made.expect("mkfifo runs").success() || room.folder.join("fifo").exists());
    for action in ["--judge", "--draw", "--cut"] {
        let due = room.output(&[action, &pile]);
        let mut cat = Command::new("sh");
        cat.args(["-c", "cat \"$0\" >fifo", &pile]).current_dir(&room.folder);
        let mut cat = cat.spawn().expect("sh runs");
        assert_eq!(room.output(&[action, "fifo"]), due, "{action}");
        cat.wait().expect("cat ends");
        let file = fs::File::open(&pile).expect("it is kept");
        let ran = room.command(&[action, "/dev/stdin"]).stdin(file).output();
        assert_eq!(ran.expect("it runs"), due, "{action}");
    }
}

/// Who has read enough goes, as `head -n 1` does: that is no failure to speak of, but not all was
/// written.
#[test]
fn nobody_is_told_that_the_reader_has_gone() {
    let room = Room::new("gone");
    let report = format!("{ROOT}/vectors/malfeasance-report.json");
    let pile = format!("{ROOT}/crates/trawl_alone/data/appendix.pile");
    let words: [&[&str]; 6] = [
        &["--draw", &report],
        &["--judge", &report],
        &["--cut", &report],
        &["--help"],
        &[&pile],
        &[],
    ];
    for words in words {
        let mut gone = Command::new("true").stdin(Stdio::piped()).spawn().expect("true runs");
        let pipe = gone.stdin.take().expect("it is piped");
        gone.wait().expect("true ends");
        let ran = room.command(words).stdout(pipe).output().expect("it runs");
        assert_eq!((ran.stderr, ran.status.code()), (vec![], Some(1)), "{words:?}");
    }
}

#[test]
fn what_cannot_be_read_or_written_is_told_once() {
    let room = Room::new("unusable");
    let pile = room.put("pile", &appendix::pile().pile);
    fs::create_dir_all(room.folder.join("folder")).expect("a folder can be made");
    let wrong: [(&[&str], &str); 6] = [
        (&["--draw", "folder"], "'folder': Is a directory"),
        (&["--judge", "missing"], "'missing': No such file or directory"),
        (&["--judge", pile, "folder"], "'folder': Is a directory"),
        (&["--cut", pile, "--out", "missing/run"], "'missing/run': No such file or directory"),
        (&["--cut", pile, "--out", "pile/run"], "'pile/run': Not a directory"),
        (&["--cut", pile, "--out", "folder", "--force"], "'folder': Is a directory"),
    ];
    for (words, due) in wrong {
        let due = Ran { out: String::new(), said: format!("trawl: {due}\n"), status: Some(1) };
        assert_eq!(room.run(words), due);
    }
    // Where nothing can be said either, the status says it.
    let full = fs::OpenOptions::new().write(true).open("/dev/full").expect("Linux has it");
    let status = room.command(&["--judge", "missing"]).stderr(full).status();
    assert_eq!(status.expect("it can be run").code(), Some(1));
}

#[test]
fn wrong_arguments_are_told() {
    let room = Room::new("usage");
    let judge =
        "usage: trawl --judge FILE [ANSWERS] [--servers LIST] [--json] [--dates] [--status]";
    let plain = "usage: trawl [PILE [ANSWERS]] [--status]";
    let cut = "usage: trawl --cut FILE [ANSWERS] [--servers LIST] [--json] [--out OUT [--force]]";
    let make = "usage: trawl --make KEY RAND REQUEST RESPONSE ... [--out OUT [--force]]";
    let look_up = "usage: trawl --look-up KEY LIST [SHIPPED-LIST]";
    let list = "usage: trawl --list LIST";
    let wrong: [(&[&str], &str, &str); 26] = [
        (&["a", "b", "c"], "trawl takes a pile and its answers at the most, and 3 words are given", plain),
        (&["--judge"], "--judge takes a file, and its answers if need be, and 0 words are given", judge),
        (&["--dates"], "--judge takes a file, and its answers if need be, and 0 words are given", judge),
        (&["--judge", "--cut", "a"], "--judge and --cut cannot be asked for at once", plain),
        (&["--nonsense"], "there is no flag --nonsense", plain),
        (&["--nonsense=a"], "there is no flag --nonsense", plain),
        (&["-x", "a"], "there is no flag -x; a file of that name is written ./-x", plain),
        (&["--\u{1b}[2J"], "there is no flag --\\u{1b}[2J", plain),
        (&["--json=a", "a"], "--json takes nothing behind a sign of equality", ""),
        (&["--cut", "a", "--out="], "--out names no file", ""),
        (&["--judge", "-", "-"], "standard input can be read but once", judge),
        (&["--judge", "-", "--servers=-"], "standard input can be read but once", judge),
        (&["--status", "a", "--servers", "b"], "--servers goes with --judge, --cut and --draw", plain),
        (&["--json", "a", "--servers=b", "--servers=c", "--servers=d"], "--servers stands there more than twice", judge),
        (&["--svg", "a"], "--svg goes with --draw", plain),
        (&["--out", "a"], "--out goes with --cut, --draw and --make", plain),
        (&["--cut", "a", "--status"], "--status goes with files alone, --judge and --draw", cut),
        (&["--cut", "a", "--out"], "--out names no file", ""),
        (&["--cut", "a", "--force"], "--force goes with --out", cut),
        (&["--json", "--json", "a"], "--json stands there twice", judge),
        (&["--make", "a"], "--make takes a key, a rand, a request and a response for each record, and 1 word is given", make),
        (&["--make"], "--make takes a key, a rand, a request and a response for each record, and 0 words are given", make),
        (&["--look-up", "a"], "--look-up takes a key, and one list or two, and 1 word is given", look_up),
        (&["--look-up", "a", "b", "--json"], "--json goes with --judge, --cut and --ask", look_up),
        (&["--list"], "--list takes a list of servers, and 0 words are given", list),
        (&["--list", "a", "--servers", "b"], "--servers goes with --judge, --cut and --draw", list),
    ];
    for (words, said, usage) in wrong {
        let ran = room.run(words);
        assert_eq!((ran.out.as_str(), ran.status), ("", Some(2)), "{words:?}");
        let due = format!("trawl: {said}\n{usage}");
        assert!(ran.said.starts_with(&due), "{words:?}: {}", ran.said);
    }
}

/// What a clone's script says of flags where nothing is built is what the front end says.
#[test]
fn the_script_says_the_same_of_wrong_flags() {
    let room = Room::new("script");
    let wrong: [&[&str]; 16] = [
        &["--within", "3", "a"],
        &["--ask", "a", "--dates"],
        &["--ask", "--judge", "a"],
        &["--cut", "a", "--all"],
        &["--nonsense"],
        &["-x", "a"],
        &["--judge", "--cut", "a"],
        &["--svg", "a"],
        &["--out", "a"],
        &["--out=a", "--force"],
        &["--cut", "a", "--status"],
        &["--cut", "a", "--out", "--judge", "--svg"],
        &["--make", "--json"],
        &["--look-up", "a", "b", "--json"],
        &["--status", "a", "--servers", "b"],
        &["--version", "--dates"],
    ];
    // Nothing is wrong with these, or something that the script leaves to the front end.
    let others: [&[&str]; 8] = [
        &["--ask", "a", "--within", "--x", "--of=9", "--all"],
        &["--ask"],
        &[],
        &["-"],
        &["--json", "a"],
        &["--", "--x"],
        &["--cut", "a", "--out=--x"],
        &["a", "b", "c"],
    ];
    let script = |words: &[&str]| {
        let mut awk = Command::new("awk");
        awk.arg("-f").arg(format!("{ROOT}/tools/usage.awk"));
        awk.arg(format!("{ROOT}/hosts/rust/src/bin/trawl/help.txt")).args(words);
        Ran::of(awk.output().expect("awk runs"))
    };
    for words in wrong {
        assert_eq!(script(words), room.run(words), "{words:?}");
        assert_eq!(script(words).status, Some(2), "{words:?}");
    }
    for words in others {
        assert_eq!((script(words).status, &script(words).said[..]), (Some(9), ""), "{words:?}");
    }
    assert_eq!([script(&["a", "-h"]).status, script(&["--version"]).status], [Some(7), Some(8)]);
}

#[test]
fn help_and_version() {
    let room = Room::new("help");
    let help = room.run(&["--help"]);
    assert!(
        help.out.starts_with("usage: trawl [PILE [ANSWERS]] [--status]\n")
            && help.status == Some(0)
    );
    assert_eq!(help.out.lines().find(|line| line.chars().count() > 100), None);
    assert_eq!(room.run(&["-h"]), help);
    // Whatever stands beside it, as somebody may have typed it to learn what goes with that.
    assert_eq!(room.run(&["--cut", "--nonsense", "--help"]), help);
    let version = room.run(&["--version"]);
    assert_eq!(version.out, format!("trawl {}\n", env!("CARGO_PKG_VERSION")));
}

#[test]
fn without_the_proved_program_there_is_no_verdict() {
    let ran = Command::new(installed().join("without/bin/trawl")).arg("any").output();
    let ran = ran.expect("it can be run");
    assert_eq!((ran.stdout, ran.status.code()), (vec![], Some(1)));
    let said = String::from_utf8(ran.stderr).expect("it is text");
    assert!(said.contains("without/libexec/trawlbeacon/verdict': No such file"), "{said}");
}
