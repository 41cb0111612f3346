//! Why a text is no list of servers: what is wrong with it, and for JSON at which byte; and which
//! servers of a list cannot be asked.
//!
//! The library tells 24 or 25 for all of it, and no place. This looks once more, and decides
//! nothing: why a text was refused, and who was passed over. What is an address or a URL it asks the
//! library's writer.

use crate::names::plain;
use crate::why::{decoded, json, no, the_one, Value, Why};
use trawlbeacon::{write_server, write_servers, ListParts, ServerEntry};
use trawlbeacon::{LISTED_ADDRESSES, LISTED_SERVERS};

type Members = [(Vec<u32>, Value)];

/// What is wrong with a text; nothing, where it is a list.
pub fn no_list(text: &[u8]) -> Option<Why> {
    list(text).err()
}

fn list(text: &[u8]) -> Result<(), Why> {
    let Value::Object(members) = json(text)? else {
        return no("its outermost value is no object".to_string());
    };
    let Value::List(servers) = the_one(&members, "servers", "the list")? else {
        return no("\"servers\" is no list".to_string());
    };
    let counts: Result<Vec<usize>, Why> = servers.iter().enumerate().map(server).collect();
    let counts = counts?;
    urls(&members)?;
    if !(1..=LISTED_SERVERS).contains(&counts.len()) {
        let count = counts.len();
        return no(format!("it has {count} servers, and a list has 1 to {LISTED_SERVERS}"));
    }
    match counts.iter().enumerate().find(|(_, count)| **count > LISTED_ADDRESSES) {
        Some((place, count)) => {
            let most = format!("and a server has at most {LISTED_ADDRESSES}");
            no(format!("server {place} has {count} addresses, {most}"))
        }
        None => Ok(()),
    }
}

/// A string that is a text. A pair of surrogates is one letter, and half of one is none.
fn text(value: &Value, what: &str) -> Result<String, Why> {
    let Value::Text(letters) = value else { return no(format!("{what} is no string")) };
    let mut units = Vec::new();
    for letter in letters {
        match char::from_u32(*letter) {
            Some(letter) => units.extend(letter.encode_utf16(&mut [0; 2]).iter()),
            None => units.push(*letter as u16),
        }
    }
    String::from_utf16(&units).or_else(|_| no(format!("{what} has half a pair of surrogates")))
}

/// How many addresses a server has.
fn server((place, value): (usize, &Value)) -> Result<usize, Why> {
    let whose = format!("server {place}");
    let Value::Object(members) = value else { return no(format!("{whose} is no object")) };
    text(the_one(members, "name", &whose)?, &format!("\"name\" of {whose}"))?;
    match the_one(members, "version", &whose)? {
        Value::Number(number) if !number.contains(['.', 'e', 'E']) => (),
        _ => return no(format!("\"version\" of {whose} is no integer")),
    }
    let Value::Text(_) = the_one(members, "publicKeyType", &whose)? else {
        return no(format!("\"publicKeyType\" of {whose} is no string"));
    };
    decoded(members, "publicKey", &whose)?;
    let Value::List(addresses) = the_one(members, "addresses", &whose)? else {
        return no(format!("\"addresses\" of {whose} is no list"));
    };
    for (which, value) in addresses.iter().enumerate() {
        address(value, &format!("address {which} of {whose}"))?;
    }
    Ok(addresses.len())
}

fn address(value: &Value, whose: &str) -> Result<(), Why> {
    let Value::Object(members) = value else { return no(format!("{whose} is no object")) };
    let protocol = the_one(members, "protocol", whose)?;
    let protocol = text(protocol, &format!("\"protocol\" of {whose}"))?;
    if protocol != "udp" && protocol != "tcp" {
        return no(format!("\"protocol\" of {whose} is neither tcp nor udp"));
    }
    let address = text(the_one(members, "address", whose)?, &format!("\"address\" of {whose}"))?;
    if !is_address(&address) {
        let shown = shown(&address);
        return no(format!("\"address\" of {whose} is no host, colon and port: {shown}"));
    }
    Ok(())
}

fn urls(members: &Members) -> Result<(), Why> {
    if has(members, "sources") {
        let Value::List(sources) = the_one(members, "sources", "the list")? else {
            return no("\"sources\" is no list".to_string());
        };
        for (place, value) in sources.iter().enumerate() {
            url(value, &format!("source {place}"))?;
        }
    }
    if has(members, "reports") {
        url(the_one(members, "reports", "the list")?, "\"reports\"")?;
    }
    Ok(())
}

fn has(members: &Members, name: &str) -> bool {
    members.iter().any(|(letters, _)| letters.iter().copied().eq(name.chars().map(u32::from)))
}

fn url(value: &Value, what: &str) -> Result<(), Why> {
    let url = text(value, what)?;
    if !is_url(&url) {
        return no(format!("{what} is no URL of https: {}", shown(&url)));
    }
    Ok(())
}

/// What a list has, as it can be printed, and not without end.
fn shown(text: &str) -> String {
    let short: String = text.chars().take(80).collect();
    format!("\"{}\"{}", plain(&short), if short.len() < text.len() { " .." } else { "" })
}

fn is_address(address: &str) -> bool {
    let line = format!("udp {address}\n");
    let entry = ServerEntry { name: b"", version: 1, key: &[0; 32], addresses: line.as_bytes() };
    !address.contains('\n') && write_server(&entry, &mut vec![0; 300 + line.len()]).is_ok()
}

fn is_url(url: &str) -> bool {
    let parts = ListParts {
        keys: &[0; 32],
        versions: &[1],
        names: b"",
        name_lengths: &[0],
        addresses: b"",
        address_lengths: &[0],
        sources: b"",
        reports: url.as_bytes(),
    };
    !url.is_empty() && write_servers(&parts, &mut vec![0; 300 + url.len()]).is_ok()
}

/// The servers of a list that cannot be asked, by their places among all and their names, and why.
/// Where the text is no list, none.
pub fn passed_over(text: &[u8]) -> Vec<String> {
    let Ok(Value::Object(members)) = json(text) else { return vec![] };
    let Ok(Value::List(servers)) = the_one(&members, "servers", "") else { return vec![] };
    servers.iter().enumerate().filter_map(|(place, value)| over(place, value)).collect()
}

fn over(place: usize, value: &Value) -> Option<String> {
    let Value::Object(members) = value else { return None };
    let name = text(the_one(members, "name", "").ok()?, "").ok()?;
    let length = decoded(members, "publicKey", "").ok()?;
    let why = match (the_one(members, "version", ""), the_one(members, "publicKeyType", "")) {
        (Ok(Value::Number(version)), _) if version != "1" => format!("version {version}"),
        (_, Ok(Value::Text(kind)))
            if !kind.iter().copied().eq("ed25519".chars().map(u32::from)) =>
        {
            let kind: String = kind.iter().filter_map(|letter| char::from_u32(*letter)).collect();
            format!("publicKeyType {}", shown(&kind))
        }
        _ if length != 32 => format!("a key of {length} bytes"),
        _ => return None,
    };
    Some(format!("{place} {}: {why}", plain(&name)))
}
