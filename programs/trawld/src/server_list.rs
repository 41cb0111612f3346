//! A server's own entry for a list of servers (draft 19, section 8.3), as the library writes it.

use crate::keys::{file, public_key};
use crate::stop::{usage, Stop};
use crate::words::Words;
use std::ffi::OsStr;
use trawlbeacon::{write_server, Refusal, ServerEntry};

pub fn entry(words: &Words) -> Result<String, Stop> {
    let file = file(words, "--server-list")?;
    let Some(name) = words.value("--name").and_then(OsStr::to_str) else {
        return usage("--name is missing: what people call the server, in UTF-8");
    };
    let lines = words.values("--address").map(line).collect::<Result<String, Stop>>()?;
    if lines.is_empty() {
        return usage("--address is missing: as --address udp:roughtime.example.com:2002");
    }
    match written(name, &public_key(file)?, &lines) {
        Ok(text) => Ok(text),
        Err(why) => usage(format!("a list cannot have these addresses: {why}")),
    }
}

/// The line of an address, as the library takes it, which is asked whether it is one.
fn line(word: &OsStr) -> Result<String, Stop> {
    let line = word
        .to_str()
        .and_then(|word| word.split_once(':'))
        .map(|(protocol, address)| format!("{protocol} {address}\n"))
        .filter(|line| written("a", &[0; 32], line).is_ok());
    match line {
        Some(line) => Ok(line),
        None => usage(format!(
            "--address takes udp or tcp, a host and a port, as udp:192.0.2.1:2002, \
             tcp:[2001:db8::1]:2002 or udp:roughtime.example.com:2002, and not '{}'",
            word.to_string_lossy().escape_debug()
        )),
    }
}

/// The entry as JSON. An escaped letter of a name takes six bytes.
fn written(name: &str, key: &[u8; 32], lines: &str) -> Result<String, Refusal> {
    let mut out = vec![0; 256 + 6 * name.len() + 40 * 8 + 2 * lines.len()];
    let entry = ServerEntry { name: name.as_bytes(), version: 1, key, addresses: lines.as_bytes() };
    let length = write_server(&entry, &mut out)?;
    out.truncate(length);
    out.push(b'\n');
    Ok(String::from_utf8_lossy(&out).into_owned())
}

#[cfg(test)]
mod tests {
    use super::*;

    #[test]
    fn hosts_and_ports() {
        let good = |word: &str| line(OsStr::new(word)).is_ok();
        for word in ["udp:192.0.2.1:2002", "tcp:[2001:db8::1]:0", "udp:a.example:65535"] {
            assert!(good(word), "{word}");
        }
        for word in [
            "udp:192.0.2.1",
            "udp:192.0.2.1:65536",
            "udp:192.0.2.1:+1",
            "quic:a.example:1",
            "udp:2001:db8::1:1",
            "udp:[2001:db8::1%eth0]:1",
            "udp::1",
            "udp:a\"b:1",
        ] {
            assert!(!good(word), "{word}");
        }
    }

    #[test]
    fn a_name_is_escaped() {
        let text = written("a\"b\\c\n\u{e9}", &[7; 32], "udp a.example:1\n").unwrap();
        assert!(
            text.starts_with("{\"name\":\"a\\\"b\\\\c\\u000a\u{e9}\",\"version\":1,"),
            "{text}"
        );
    }

    #[test]
    fn nine_addresses_are_too_many() {
        assert!(written("a", &[7; 32], &"udp a.example:1\n".repeat(8)).is_ok());
        assert!(written("a", &[7; 32], &"udp a.example:1\n".repeat(9)).is_err());
    }
}
