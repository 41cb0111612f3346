//! Three servers, a console and a lie.

use super::console::{Console, Said};
use super::programs::Programs;
use super::relay::{Relay, ONE_IN};
use super::server::Server;
use super::teller::Teller;
use std::error::Error;
use std::fs;
use std::io::ErrorKind;
use std::path::Path;

/// The servers. The last one lies, and the one before it is stopped at last, though it is honest.
const NAMES: [&str; 3] = ["alder", "birch", "cedar"];
const LIAR: usize = 2;
const SILENT: usize = 1;

/// How far the liar's clock is ahead, in seconds.
const AHEAD: u64 = 9;

/// What `trawl --ask` ends with where there is a time, where it is there in spite of a contradiction,
/// and where there is none.
const TIME: Option<i32> = Some(0);
const CONTRADICTED: Option<i32> = Some(6);
const NO_TIME: Option<i32> = Some(7);

/// How often the console asks, where a network that is bad for long leaves it without what it needs:
/// a liar that is nine seconds ahead contradicts only who is asked within three seconds of it.
const TIMES: usize = 4;

/// Why the story ended early.
type Ended = Box<dyn Error>;

/// The servers, each behind a network of its own, and the list by which they are known.
struct Scene {
    servers: Vec<Server>,
    list: String,
    _relays: Vec<Relay>,
}

/// An empty folder. What stands there of an older story goes.
fn empty(folder: &Path) -> Result<(), Ended> {
    match fs::remove_dir_all(folder) {
        Err(error) if error.kind() != ErrorKind::NotFound => return Err(error.into()),
        _ => {}
    }
    Ok(fs::create_dir_all(folder)?)
}

impl Scene {
    fn set(programs: &Programs, folder: &Path, seed: u64, teller: Teller) -> Result<Scene, Ended> {
        let (mut servers, mut relays, mut entries) = (vec![], vec![], vec![]);
        for (place, name) in NAMES.into_iter().enumerate() {
            let (own, ahead) = (folder.join(name), if place == LIAR { AHEAD } else { 0 });
            let server = Server::start(programs, name, &own, ahead)?;
            let relay = Relay::start(name, server.address, (seed, place as u64), teller)?;
            let (key, address) = (own.join("key"), format!("udp:{}", relay.address));
            let key = key.display().to_string();
            let words = ["--server-list", &key, "--name", name, "--address", &address];
            entries.push(programs.printed("trawld", &words)?.trim_end().to_string());
            servers.push(server);
            relays.push(relay);
        }
        let list = folder.join("servers.json");
        fs::write(&list, format!("{{\"servers\":[\n{}\n]}}\n", entries.join(",\n")))?;
        Ok(Scene { servers, list: list.display().to_string(), _relays: relays })
    }
}

/// Tells the whole story, and why it ended where it does not go as it should.
pub fn tell(folder: &Path, seed: u64) -> Result<(), Ended> {
    let (programs, teller) = (Programs::find()?, Teller::start());
    empty(folder)?;
    let Scene { mut servers, list, _relays } = Scene::set(&programs, folder, seed, teller)?;
    teller.line(opening(seed));
    let console = Console { programs, teller };
    let into = folder.display().to_string();
    let words = ["--ask", &list, "--all", "--within", "60", "--reports", &into];
    let asked = ask(&console, &words, |asked| asked.has("walk", "malfeasance"))?;
    is_right(&asked, CONTRADICTED, NAMES[LIAR])?;
    let report = folder.join("malfeasance-1.json").display().to_string();
    convict(&console, &report, &list, folder)?;
    let silent = servers.remove(SILENT);
    teller.line(format!("\n{} is stopped, and {} goes on lying.\n", silent.name, NAMES[LIAR]));
    stop(silent, teller)?;
    let words = ["--ask", &list, "--all", "--within", "6"];
    let asked = ask(&console, &words, |asked| asked.status != NO_TIME)?;
    is_right(&asked, TIME, "none")?;
    if !asked.has("silent", NAMES[SILENT]) {
        return Err("a server is stopped, and nobody says that it is silent".into());
    }
    teller.line(String::new());
    servers.into_iter().try_for_each(|server| stop(server, teller))
}

/// The console asks, and again where that is not enough.
fn ask(console: &Console, words: &[&str], enough: fn(&Said) -> bool) -> Result<Said, Ended> {
    let mut asked = console.runs(words)?;
    for _ in 1..TIMES {
        if !enough(&asked) {
            asked = console.runs(words)?;
        }
    }
    Ok(asked)
}

/// What is known beforehand, but not to the console.
fn opening(seed: u64) -> String {
    let ([first, second, third], liar) = (NAMES, NAMES[LIAR]);
    [
        format!("Three time servers run on this machine, each a trawld: {first}, {second} and {third}."),
        format!("The clock of {liar} is {AHEAD} seconds ahead. The network loses one packet in {ONE_IN},"),
        format!("damages one in {ONE_IN} and delays one in {ONE_IN} (seed {seed}). A console knows the"),
        "servers by their keys, and asks for the time. The seconds so far begin each line.\n".into(),
    ]
    .join("\n")
}

/// Whether the time that was told is the machine's, and whom it is told in spite of.
fn is_right(asked: &Said, due: Option<i32>, suspect: &str) -> Result<(), Ended> {
    if !asked.has("machine", "between the two") {
        return Err("that is not the time by this machine's own clock".into());
    }
    if !asked.has("suspect", suspect) {
        return Err("another server is suspect than the one that lies".into());
    }
    match asked.status == due {
        true => Ok(()),
        false => Err(format!("trawl --ask ended with {:?}", asked.status).into()),
    }
}

/// Has the report drawn, for a browser too, and judged by somebody who was sent it.
fn convict(console: &Console, report: &str, list: &str, folder: &Path) -> Result<(), Ended> {
    let svg = folder.join("report.svg").display().to_string();
    console.teller.line("\nThe two answers that contradict each other are in the report.\n");
    let drawn = console.runs(&["--draw", report, "--servers", list])?;
    let kept = console.runs(&["--draw", report, "--servers", list, "--out", &svg])?;
    let judged = console.runs(&["--judge", report, "--servers", list, "--dates", "--status"])?;
    if [&drawn, &kept, &judged].iter().any(|said| said.status != Some(0)) {
        return Err("the report could not be drawn, or convicts nobody".into());
    }
    match judged.has("run", "0 1") {
        true => Ok(()),
        false => Err("the report's two records do not contradict each other".into()),
    }
}

/// One server answers no more, and tells what it counted.
fn stop(server: Server, teller: Teller) -> Result<(), Ended> {
    let name = server.name;
    teller.says(name, server.stop()?);
    Ok(())
}
