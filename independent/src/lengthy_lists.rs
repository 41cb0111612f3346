//! Texts that could take a reader of lists of servers long, as [`lengthy`](crate::lengthy) has them
//! for reports.

use crate::lengthy::repeated;

/// A server up to its addresses.
fn server() -> String {
    let key = "A".repeat(43) + "=";
    format!(
        r#"{{"name":"a","version":1,"publicKeyType":"ed25519","publicKey":"{key}","addresses":["#
    )
}

/// An address with this host.
fn address(host: &str) -> String {
    format!(r#"{{"protocol":"udp","address":"{host}:65535"}}"#)
}

/// A server with eight addresses of this host.
fn with_host(host: &str) -> String {
    server() + &vec![address(host); 8].join(",") + "]}"
}

/// Lists, or nearly, of every kind that could take a reader long, with what they are made of.
pub fn texts(length: usize) -> Vec<(&'static str, Vec<u8>)> {
    let mut texts = of_members(length);
    texts.extend(of_hosts(length));
    texts
}

/// Many members, elements or characters in one place.
fn of_members(length: usize) -> Vec<(&'static str, Vec<u8>)> {
    let open = format!(r#"{{"servers":[{}"#, server());
    let one = open.clone() + "]}]";
    let within = open.clone() + r#"{"protocol":"udp","address":"a:1""#;
    let named = one.replace(r#""name":"a""#, r#""name":""#);
    let (before, after) = named.split_at(named.find(r#","version""#).expect("it is there"));
    let version = one.find("1,").expect("it is there");
    let deep = "[".repeat(12) + &"]".repeat(12) + ",";
    let of = |before: &str, piece: &str, after: &str| repeated(before, piece, after, length);
    let in_server = open.clone() + "]";
    vec![
        ("members of the list", of(&one, ",\"a\":0", "}")),
        ("members of a server", of(&in_server, ",\"a\":0", "}]}")),
        ("members of an address", of(&within, ",\"a\":0", "}]}]}")),
        ("members with names that are nearly known", of(&in_server, ",\"addresse\":0", "}]}")),
        ("members with escaped names", of(&in_server, ",\"\\u006e\\u0061\":0", "}]}")),
        ("arrays 12 deep in a server", of(&(in_server.clone() + ",\"a\":["), &deep, "0]}]}")),
        ("one name", of(before, "a", &format!("\"{after}}}"))),
        ("one name of two-byte characters", of(before, "\u{e9}", &format!("\"{after}}}"))),
        ("one name of escapes", of(before, "\\ud83d\\ude00", &format!("\"{after}}}"))),
        ("one version", of(&one[..version], "1", &(one[version..].to_string() + "}"))),
        ("addresses of one server", of(&open, &(address("a") + ","), &(address("a") + "]}]}"))),
        ("sources", of(&(one.clone() + ",\"sources\":["), "\"https://a\",", "\"https://a\"]}")),
        (
            "servers without addresses",
            of(&one[..one.len() - 1], &format!(",{}]}}", server()), "]}"),
        ),
        ("empty servers", of("{\"servers\":[{}", ",{}", "]}")),
    ]
}

/// Servers with eight addresses each, of hosts that take long to look at.
fn of_hosts(length: usize) -> Vec<(&'static str, Vec<u8>)> {
    let label = "a".repeat(63) + ".";
    let url = format!("\"https://a/{}\"", "a".repeat(2_000));
    let sources = format!(r#"{{"servers":[{}]}}],"sources":["#, server());
    let of = |host: &str| {
        let server = with_host(host);
        repeated(&format!("{{\"servers\":[{server}"), &format!(",{server}"), "]}", length)
    };
    vec![
        ("hosts of long labels", of(&(label.repeat(3) + &"a".repeat(61)))),
        ("hosts of short labels", of(&("a.".repeat(126) + "a"))),
        ("hosts of digits", of(&("1.".repeat(126) + "a"))),
        ("IPv4 addresses", of("255.255.255.255")),
        ("IPv6 addresses", of("[ffff:ffff:ffff:ffff:ffff:ffff:255.255.255.255]")),
        ("long URLs", repeated(&sources, &(url.clone() + ","), &(url + "]}"), length)),
    ]
}

#[cfg(test)]
mod tests {
    use super::*;
    use crate::list_text::{self, Cause};

    #[test]
    fn they_are_as_long_as_they_should_be() {
        for (what, text) in texts(60_000) {
            assert!((56_000..=60_000).contains(&text.len()), "{what}: {} bytes", text.len());
        }
    }

    /// Lists, all but for what they have too much or too little of.
    #[test]
    fn they_are_lists() {
        for (what, text) in texts(20_000) {
            let due = match what {
                "addresses of one server" => Some(Cause::ManyAddresses),
                "servers without addresses" => Some(Cause::ManyServers),
                "empty servers" => Some(Cause::Missing(list_text::Member::Addresses)),
                _ => None,
            };
            assert_eq!(list_text::read(&text).err(), due, "{what}");
        }
    }
}
