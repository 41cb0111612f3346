//! Addresses and URLs as a list of servers has them (draft 19, section 8.3): a host and a port, and
//! where lists and reports go by HTTPS. All are octets; what is not ASCII is none of these.

use std::ops::RangeInclusive;

/// The longest URL that is taken, in octets. Section 8.3 names no limit; this is a house rule.
pub const LONGEST_URL: usize = 2048;

/// The longest name of a host, without a dot at its end: 255 octets on the wire (RFC 1035, 2.3.4)
/// have a length in front of each label and an empty label at their end.
const LONGEST_NAME: usize = 253;

/// The longest label of a name (RFC 1035, 2.3.4).
const LONGEST_LABEL: usize = 63;

/// "A string indicating a host and a port number, separated by a colon character".
pub fn is_address(text: &[u8]) -> bool {
    at_last_colon(text).map_or(false, |(host, port)| is_host(host) && is_port(port))
}

/// What stands before the last colon, and behind it.
fn at_last_colon(text: &[u8]) -> Option<(&[u8], &[u8])> {
    let colon = text.iter().rposition(|byte| *byte == b':')?;
    Some((&text[..colon], &text[colon + 1..]))
}

/// "A decimal integer representing a valid port number, i.e. in the range 0-65535".
pub fn is_port(text: &[u8]) -> bool {
    is_decimal(text, 5, 65_535)
}

/// "Either an IPv4 address, an IPv6 address, or a fully qualified domain name"; "IPv6 addresses are
/// encapsulated within []".
pub fn is_host(text: &[u8]) -> bool {
    match text {
        [b'[', within @ .., b']'] => is_ipv6(within),
        _ => is_ipv4(text) || is_domain(text),
    }
}

/// Digits of a number in the one way in which it is usually written: with no zero in front.
fn is_decimal(text: &[u8], longest: usize, most: u32) -> bool {
    let digits = (1..=longest).contains(&text.len()) && text.iter().all(u8::is_ascii_digit);
    digits && (text[0] != b'0' || text.len() == 1) && value(text) <= most
}

fn value(digits: &[u8]) -> u32 {
    digits.iter().fold(0, |number, digit| 10 * number + u32::from(digit - b'0'))
}

/// "IPv4 addresses are specified in dotted decimal notation."
pub fn is_ipv4(text: &[u8]) -> bool {
    let parts: Vec<&[u8]> = text.split(|byte| *byte == b'.').collect();
    parts.len() == 4 && parts.iter().all(|part| is_decimal(part, 3, 255))
}

/// RFC 4291, section 2.2: eight groups of up to four digits of hex; one `::` may stand for one or
/// more of them; the last two groups may be written as an IPv4 address. A zone is no part of it.
pub fn is_ipv6(text: &[u8]) -> bool {
    let compressed = text.windows(2).position(|two| two == b"::");
    match compressed {
        None => groups(text, true) == Some(8),
        Some(at) => {
            let before = groups(&text[..at], false);
            let after = groups(&text[at + 2..], true);
            before.zip(after).map_or(false, |(before, after)| before + after <= 7)
        }
    }
}

/// How many groups stand between colons, of no text none. Where it may, the last can be an IPv4
/// address, which is two.
fn groups(text: &[u8], ends: bool) -> Option<usize> {
    if text.is_empty() {
        return Some(0);
    }
    let parts: Vec<&[u8]> = text.split(|byte| *byte == b':').collect();
    let (last, others) = parts.split_last()?;
    let is_group =
        |part: &&[u8]| (1..=4).contains(&part.len()) && part.iter().all(u8::is_ascii_hexdigit);
    if !others.iter().all(|part| is_group(part)) {
        return None;
    }
    match last {
        last if is_group(last) => Some(parts.len()),
        last if ends && is_ipv4(last) => Some(parts.len() + 1),
        _ => None,
    }
}

/// A name of RFC 1123, section 2.1, and RFC 1034, section 3.5: labels of letters, digits and inner
/// hyphens, with dots between them and perhaps one at the end. What ends with digits alone is no
/// name, so that it is never taken for a bad IPv4 address, nor that for it.
pub fn is_domain(text: &[u8]) -> bool {
    let name = text.strip_suffix(b".").unwrap_or(text);
    let labels: Vec<&[u8]> = name.split(|byte| *byte == b'.').collect();
    let last_is_number = labels[labels.len() - 1].iter().all(u8::is_ascii_digit);
    name.len() <= LONGEST_NAME && labels.iter().all(|label| is_label(label)) && !last_is_number
}

fn is_label(label: &[u8]) -> bool {
    let inner = |byte: &u8| byte.is_ascii_alphanumeric() || *byte == b'-';
    (1..=LONGEST_LABEL).contains(&label.len())
        && label.iter().all(inner)
        && !label.starts_with(b"-")
        && !label.ends_with(b"-")
}

/// A URL (RFC 3986) of which "the URI scheme MUST be HTTPS" (RFC 9110, section 4.2.2), with a host
/// as above, no user (4.2.4), and at most [`LONGEST_URL`] octets.
pub fn is_https(text: &[u8]) -> bool {
    const SCHEME: &[u8] = b"https://";
    if text.len() > LONGEST_URL || text.len() < SCHEME.len() {
        return false;
    }
    let (scheme, rest) = text.split_at(SCHEME.len());
    let ends = |byte: &u8| matches!(byte, b'/' | b'?' | b'#');
    let end = rest.iter().position(ends).unwrap_or(rest.len());
    scheme.eq_ignore_ascii_case(SCHEME) && is_authority(&rest[..end]) && is_path(&rest[end..])
}

/// A host, and perhaps a colon and a port, which may be empty (RFC 3986, 3.2.3).
fn is_authority(text: &[u8]) -> bool {
    is_host(text)
        || at_last_colon(text)
            .map_or(false, |(host, port)| is_host(host) && (port.is_empty() || is_port(port)))
}

/// What stands behind the authority: path, query and fragment (RFC 3986, 3.3 to 3.5). Where each of
/// them starts means nothing here, but for the `#`, of which there is one.
fn is_path(text: &[u8]) -> bool {
    let parts: Vec<&[u8]> = text.split(|byte| *byte == b'#').collect();
    parts.len() <= 2 && parts.iter().all(|part| is_characters(part))
}

/// Octets of pchar, slashes and question marks.
fn is_characters(mut text: &[u8]) -> bool {
    while let Some((first, rest)) = text.split_first() {
        text = match (first, rest) {
            (b'%', [high, low, rest @ ..]) if [high, low].iter().all(|one| is_hex(one)) => rest,
            _ if is_plain(*first) => rest,
            _ => return false,
        };
    }
    true
}

fn is_hex(byte: &u8) -> bool {
    const HEX: [RangeInclusive<u8>; 3] = [b'0'..=b'9', b'a'..=b'f', b'A'..=b'F'];
    HEX.iter().any(|range| range.contains(byte))
}

/// Unreserved, a sub-delimiter, `:`, `@`, `/` or `?` (RFC 3986, 2.2, 2.3 and 3.3).
fn is_plain(byte: u8) -> bool {
    byte.is_ascii_alphanumeric() || b"-._~!$&'()*+,;=:@/?".contains(&byte)
}

#[cfg(test)]
mod tests {
    use super::*;
    use std::net::{Ipv4Addr, Ipv6Addr};

    fn each(texts: &str, is: fn(&[u8]) -> bool, due: bool) {
        for text in texts.split(' ') {
            assert_eq!(is(text.as_bytes()), due, "{text:?}");
        }
    }

    #[test]
    fn addresses() {
        each("a.example:0 roughtime.example.com:2002 192.0.2.33:65535 [::]:1", is_address, true);
        each("[2001:db8::2:33]:2002 a:1 localhost:2002 A-b.c.:7", is_address, true);
        each("a a: :1 a:65536 a:01 a:00 a:+1 a:1a a:100000 [::1] ::1:1 [::1]1", is_address, false);
        each("[::1%eth0]:1 [fe80::1%25eth0]:1 [1.2.3.4]:1 1.2.3:1 256.1.1.1:1", is_address, false);
        each(" : a::1 a:1: [a:1 a]:1 []:1 [a.example]:1 a\u{e9}:1", is_address, false);
    }

    #[test]
    fn names() {
        let label = "a".repeat(63);
        let longest = format!("{label}.{label}.{label}.{}", "b".repeat(61));
        assert_eq!(longest.len(), 253);
        for (name, due) in [
            (longest.clone(), true),
            (longest.clone() + ".", true),
            (longest.clone() + "b", false),
            (longest + "..", false),
            (label.clone(), true),
            (label + "a", false),
        ] {
            assert_eq!(is_domain(name.as_bytes()), due, "{name}");
        }
        each("a a-b 3com.example a.1b xn--p1ai a.b.c. 1.2.3.4a", is_domain, true);
        each(" . .. a..b .a -a a- a.-b a_b a.b-.c 1 1.2.3.4 a.1 a.1. 0x7f.1", is_domain, false);
    }

    /// The standard library of Rust has readers of its own; that of IPv4 takes what ours takes.
    #[test]
    fn numbers_are_as_rust_has_them() {
        let both = |text: &str| {
            let (four, six) = (text.parse::<Ipv4Addr>().is_ok(), text.parse::<Ipv6Addr>().is_ok());
            assert_eq!(is_ipv4(text.as_bytes()), four, "{text}");
            assert_eq!(is_ipv6(text.as_bytes()), six, "{text}");
        };
        const PIECES: [&str; 9] = [":", "::", ".", "0", "1", "ffff", "10", "1.2.3.4", "g"];
        for length in 0..6u32 {
            for number in 0..PIECES.len().pow(length) {
                let piece = |at: u32| PIECES[number / PIECES.len().pow(at) % PIECES.len()];
                both(&(0..length).map(piece).collect::<String>());
            }
        }
        for groups in 0..12 {
            let all = vec!["a"; groups].join(":");
            both(&all);
            both(&format!("{all}:1.2.3.4"));
            for at in 0..=groups {
                let (before, after) = (vec!["1"; at].join(":"), vec!["b"; groups - at].join(":"));
                both(&format!("{before}::{after}"));
                both(&format!("{before}::{after}:1.2.3.4"));
                both(&format!("{before}:1.2.3.4::{after}"));
            }
        }
    }

    #[test]
    fn urls() {
        each(
            "https://a HTTPS://A.example/ hTTps://a:443?x#y https://a:/ https://a#",
            is_https,
            true,
        );
        each("https://[::1]:1/%41%ff/?/?#/? https://1.2.3.4/a;b=c,(d)*'!$&~_@:.-+", is_https, true);
        each(
            "http://a https:/a https:a https:// https:/// https://a@b https://a:b@c",
            is_https,
            false,
        );
        each(
            "https://a:65536 https://a:0x1 https://a/% https://a/%4 https://a/%4g",
            is_https,
            false,
        );
        each(
            "https://a/## https://a/\u{e9} https://a/< https://a\\ https://a/| https",
            is_https,
            false,
        );
        each("https://::1/ https://a..b/ https://[::1 https://a.1/ https://a/[", is_https, false);
        let long = |length: usize| format!("https://a/{}", "b".repeat(length - 10));
        assert!(is_https(long(2048).as_bytes()) && !is_https(long(2049).as_bytes()));
        assert!(!is_https(b"https://a/ ") && !is_https(b"https://a/\0") && !is_https(b""));
    }
}
