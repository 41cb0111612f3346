//! Keys and delegations as files.

use crate::folder::{complaint, Folder};
use std::fs;
use std::os::unix::fs::PermissionsExt;

fn mode(folder: &Folder, name: &str) -> u32 {
    fs::metadata(folder.file(name)).expect("it is there").permissions().mode() & 0o777
}

#[test]
fn a_key_is_its_owners_and_never_goes_over_another() {
    let folder = Folder::new();
    let said = folder.run(&["--make-key", "key"]);
    assert!(said.status.success());
    assert!(String::from_utf8_lossy(&said.stdout).starts_with("long-term public key "));
    assert_eq!(mode(&folder, "key"), 0o600);
    let text = folder.read("key");
    let again = complaint(&folder.run(&["--make-key", "key"]), 1);
    assert!(again.contains("key is there already, and stays as it is"), "{again}");
    assert_eq!(folder.read("key"), text);
    // Another key is another one, and nothing else is left behind.
    assert!(folder.run(&["--make-key", "other"]).status.success());
    assert_ne!(folder.read("other"), text);
    assert_eq!(fs::read_dir(folder.path()).expect("it is a folder").count(), 2);
}

#[test]
fn a_delegation_is_replaced_only_by_force() {
    let folder = Folder::with_delegation(3);
    assert_eq!(mode(&folder, "delegation"), 0o600);
    let text = folder.read("delegation");
    let words = ["--delegate", "key", "--days", "4", "--out", "delegation"];
    complaint(&folder.run(&words), 1);
    assert_eq!(folder.read("delegation"), text);
    folder.delegate(4, &["--force", "--from", "1000"]);
    let shown = folder.run(&["--show", "delegation"]);
    let shown = String::from_utf8_lossy(&shown.stdout).into_owned();
    assert!(shown.contains("from 1970-01-01T00:16:40Z to 1970-01-05T00:16:40Z"), "{shown}");
    let key = folder.run(&["--show", "key"]);
    assert!(shown.starts_with(&*String::from_utf8_lossy(&key.stdout)));
}

#[test]
fn files_that_are_wrong_are_named_with_a_remedy() {
    let folder = Folder::with_delegation(3);
    let says = |words: &[&str], part: &str| {
        let said = complaint(&folder.run(words), 1);
        assert!(said.contains(part), "{said}");
    };
    says(&["none"], "none could not be read");
    fs::create_dir(folder.file("folder")).expect("it can be made");
    says(&["folder"], "folder could not be read");
    says(&["--show", "folder"], "folder could not be read");
    says(&["key"], "key is no delegation: it has no line mint");
    says(&["--delegate", "delegation", "--days", "1", "--out", "x"], "is no long-term key");
    says(&["--delegate", "key", "--days", "1", "--out", "no/such"], "no/such could not be written");
    let good = folder.read("delegation");
    let spoilt = |name: &str, from: &str, to: &str| {
        assert!(good.contains(from));
        folder.write(name, &good.replacen(from, to, 1));
        fs::set_permissions(folder.file(name), PermissionsExt::from_mode(0o600))
            .expect("it is ours");
    };
    spoilt("late", "maxt 1", "maxt 2");
    says(&["late"], "its mint and maxt are not those of its cert");
    spoilt("twice", "\nseed ", "\nmint 5\nseed ");
    says(&["twice"], "says mint again");
    // A bit of the seed, of the certificate's signature and of the long-term key.
    let flipped = |name: &str, field: &str, skip: usize| {
        let at = good.find(&format!("\n{field} ")).expect("it is there") + field.len() + 2 + skip;
        let digit = if &good[at..=at] == "0" { "1" } else { "0" };
        let text = format!("{}{digit}{}", &good[..at], &good[at + 1..]);
        folder.write(name, &text);
        fs::set_permissions(folder.file(name), PermissionsExt::from_mode(0o600))
            .expect("it is ours");
    };
    flipped("seed", "seed", 0);
    says(&["seed"], "refused with code 35");
    flipped("cert", "cert", 2 * 40);
    says(&["cert"], "refused with code 12");
    flipped("public", "public", 0);
    says(&["public"], "refused with code 12");
    fs::set_permissions(folder.file("key"), PermissionsExt::from_mode(0o644)).expect("it is ours");
    says(&["--show", "key"], "can be read by anybody; 'chmod o= key'");
}

#[test]
fn wrong_words_are_told_in_a_line() {
    let folder = Folder::new();
    for words in [
        &[][..],
        &["a", "b"],
        &["--delegate", "key"],
        &["--delegate", "key", "--out", "x"],
        &["--delegate", "key", "--days", "0", "--out", "x"],
        &["a", "--radius", "0"],
        &["a", "--radius", "3", "--margin", "3"],
        &["a", "--listen", "localhost"],
        &["a", "--grease", "none"],
        &["a", "--grease", "9", "--grease-form", "none"],
        &["a", "--grease-form", "time"],
        &["--server-list", "key"],
        &["--no-such"],
    ] {
        complaint(&folder.run(words), 2);
    }
    let help = folder.run(&["--help"]);
    assert!(help.status.success() && help.stdout.starts_with(b"usage: trawld "));
    let version = folder.run(&["--version"]);
    let number = include_str!("../../../../VERSION").trim();
    assert_eq!(String::from_utf8_lossy(&version.stdout), format!("trawld {number}\n"));
}

#[test]
fn an_entry_for_a_list_of_servers() {
    let folder = Folder::with_delegation(3);
    let entry = |file| {
        let words = ["--name", "a \"b\"", "--address", "udp:192.0.2.1:2002", "--address"];
        let words = [&["--server-list", file][..], &words, &["tcp:[2001:db8::1]:2002"]].concat();
        let said = folder.run(&words);
        assert!(said.status.success());
        String::from_utf8(said.stdout).expect("it is text")
    };
    // On the machine with the long-term key and on a server alike.
    assert_eq!(entry("key"), entry("delegation"));
    let text = entry("key");
    let key = independent::base64::encode(&folder.public_key());
    let names = ["a \\\"b\\\"", "ed25519", &key, "192.0.2.1:2002", "[2001:db8::1]:2002"];
    for name in names {
        assert!(text.contains(&format!("\"{name}\"")), "{text}");
    }
    assert!(independent::json::read(text.as_bytes(), 64).is_ok());
}
