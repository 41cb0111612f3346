//! New delegations, and the end of one.

use crate::asking::{ask, ask_stream, is_silent};
use crate::folder::Folder;
use crate::server::{Server, SIGHUP, SIGTERM};
use std::fs;

#[test]
fn a_new_delegation_is_taken_and_a_wrong_one_is_not() {
    let folder = Folder::with_delegation(3);
    let mut server = Server::trusting(&folder, &[]);
    let first = ask(server.address(), &server.key);
    folder.delegate(5, &["--force"]);
    server.signal(SIGHUP);
    server.line("took a new delegation");
    let second = ask(server.address(), &server.key);
    assert_ne!(first.pubk, second.pubk);
    assert_eq!(second.window.maxt - second.window.mint, 5 * 86_400);
    assert_eq!(ask_stream(server.address(), &server.key).pubk, second.pubk);
    folder.write("delegation", "seed\n");
    server.signal(SIGHUP);
    server.line("the old delegation stays");
    assert_eq!(ask(server.address(), &server.key).pubk, second.pubk);
    fs::remove_file(folder.file("delegation")).expect("it is there");
    fs::create_dir(folder.file("delegation")).expect("it can be made");
    server.signal(SIGHUP);
    server.line("the old delegation stays: delegation could not be read");
    assert_eq!(ask(server.address(), &server.key).pubk, second.pubk);
    assert!(server.end(SIGTERM).success());
}

#[test]
fn the_end_of_a_delegation_is_told_a_day_before_and_is_the_end() {
    let folder = Folder::with_delegation(2);
    folder.write("clock", "0 0 1000");
    let mut server = Server::start(&folder, &["--test-clock", "clock"]);
    server.line("the delegation ends at");
    ask(server.address(), &server.key);
    folder.write("clock", "86500 86500 1000");
    server.line("THE DELEGATION ENDS");
    ask(server.address(), &server.key);
    folder.write("clock", "172900 172900 1000");
    server.line("THE DELEGATION ENDED");
    assert!(is_silent(server.address(), &server.key));
    // The next one begins where the clock is now.
    let now = std::time::SystemTime::now().duration_since(std::time::UNIX_EPOCH);
    let later = (now.expect("it is after 1970").as_secs() + 172_800).to_string();
    folder.delegate(2, &["--force", "--from", &later]);
    server.signal(SIGHUP);
    server.line("took a new delegation");
    ask(server.address(), &server.key);
    assert!(server.end(SIGTERM).success());
}

#[test]
fn a_delegation_that_has_not_begun_is_not_used() {
    let folder = Folder::with_delegation(2);
    folder.delegate(2, &["--force", "--from", "90000000000"]);
    let mut server = Server::trusting(&folder, &[]);
    server.line("silent: the delegation begins at 4821-12-");
    assert!(is_silent(server.address(), &server.key));
}
