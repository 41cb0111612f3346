//! The command `trawl --ask`, run with a bound on its time, and what it prints as JSON.

// Each test file takes this in, and none of them needs all of it.
#![allow(dead_code)]

use super::room::{Ran, Room};
use independent::json::{self, Value};
use std::process::{Child, Stdio};
use std::thread;
use std::time::{Duration, Instant, SystemTime, UNIX_EPOCH};

/// Nothing here takes longer, on a busy machine either.
const BOUND: Duration = Duration::from_secs(30);

/// Waits for a process, and ends it where it takes too long.
pub fn finished(mut child: Child) -> Ran {
    let end = Instant::now() + BOUND;
    while child.try_wait().expect("it is ours").is_none() {
        if Instant::now() > end {
            let _ = child.kill();
            panic!("it has not ended in time");
        }
        thread::sleep(Duration::from_millis(5));
    }
    Ran::of(child.wait_with_output().expect("it has ended"))
}

/// Asks, with these words behind the list.
pub fn ask(room: &Room, list: &[u8], words: &[&str]) -> Ran {
    room.put("list", list);
    let words = [&["--ask", "list"], words].concat();
    let mut command = room.command(&words);
    command.stdin(Stdio::null()).stdout(Stdio::piped()).stderr(Stdio::piped());
    finished(command.spawn().expect("it can be run"))
}

/// Asks for JSON, and reads it by a reader that shares no code with the command.
pub fn ask_json(room: &Room, list: &[u8], words: &[&str]) -> (Json, Ran) {
    let ran = ask(room, list, &[words, &["--json"]].concat());
    let mut lines = ran.out.lines();
    let json = Json::of(lines.next().unwrap_or_else(|| panic!("it prints nothing: {}", ran.said)));
    assert_eq!(lines.next(), None);
    assert_eq!(json.number("status"), ran.status.expect("it ended by itself") as u64);
    (json, ran)
}

#[derive(Clone, Debug)]
pub struct Json(Value);

impl Json {
    pub fn of(text: &str) -> Json {
        Json(json::read(text.as_bytes(), 16).unwrap_or_else(|why| panic!("{why:?}: {text}")))
    }

    /// What stands at a path: names of members and places of lists, with points between them.
    pub fn at(&self, path: &str) -> Json {
        path.split('.').fold(self.clone(), |value, name| value.member(name))
    }

    fn member(&self, name: &str) -> Json {
        let found = match &self.0 {
            Value::Object(members) => {
                members.iter().find(|(own, _)| own == name.as_bytes()).map(|(_, value)| value)
            }
            Value::List(values) => name.parse().ok().and_then(|place: usize| values.get(place)),
            _ => None,
        };
        Json(found.unwrap_or_else(|| panic!("there is no {name} in {self:?}")).clone())
    }

    pub fn number(&self, path: &str) -> u64 {
        match self.at(path).0 {
            Value::Number(digits) => String::from_utf8_lossy(&digits).parse().expect("it is whole"),
            other => panic!("{path} is {other:?}"),
        }
    }

    pub fn text(&self, path: &str) -> String {
        match self.at(path).0 {
            Value::Text(text) => String::from_utf8(text).expect("it is UTF-8"),
            other => panic!("{path} is {other:?}"),
        }
    }

    pub fn is_null(&self, path: &str) -> bool {
        self.at(path).0 == Value::Null
    }

    pub fn is_true(&self, path: &str) -> bool {
        self.at(path).0 == Value::Bool(true)
    }

    pub fn list(&self, path: &str) -> Vec<Json> {
        match self.at(path).0 {
            Value::List(values) => values.into_iter().map(Json).collect(),
            other => panic!("{path} is {other:?}"),
        }
    }

    /// The server of this name.
    pub fn server(&self, name: &str) -> Json {
        let mut servers = self.list("servers").into_iter();
        servers.find(|server| server.text("name") == name).expect("it was asked")
    }

    /// The names of the servers in this state.
    pub fn names(&self, state: &str) -> Vec<String> {
        let servers = self.list("servers").into_iter();
        let mut names: Vec<String> = servers
            .filter(|server| server.text("state") == state)
            .map(|server| server.text("name"))
            .collect();
        names.sort();
        names
    }

    /// Whether the machine's own time is between the two ends: of servers here that is the true
    /// one.
    pub fn holds_now(&self) -> bool {
        let now = SystemTime::now().duration_since(UNIX_EPOCH).expect("it is after 1970");
        let [low, middle, high] = ["low", "middle", "high"].map(|end| {
            assert!(!self.is_null(&format!("time.dates.{end}")));
            self.number(&format!("time.{end}"))
        });
        assert!(low <= middle && middle <= high && middle - low <= high - middle);
        // It was printed a little while ago.
        low <= now.as_micros() as u64 && now.as_micros() as u64 <= high + 1_000_000
    }
}
