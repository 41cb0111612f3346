//! Addresses and URLs, right and wrong, for lists of servers. Each is made so that it is known which
//! it is; `any_address` and `any_url` are made of pieces, and it is for the two sides to say.

use super::json_values::word;
use super::Xorshift;

const LETTERS: &[u8] = b"abcdefghijklmnopqrstuvwxyzABCDEFGHIJKLMNOPQRSTUVWXYZ";
const DIGITS: &[u8] = b"0123456789";

fn letters(random: &mut Xorshift, from: &[&[u8]], count: usize) -> String {
    let all = from.concat();
    (0..count).map(|_| char::from(random.pick(&all))).collect()
}

/// A label of a name: letters and digits at both ends, and any hyphens between them.
fn label(random: &mut Xorshift) -> String {
    let length = random.pick(&[1, 1, 2, 3, 5, 8, 13, 62, 63]);
    let mut label = letters(random, &[LETTERS, DIGITS, b"-"], length).into_bytes();
    for end in [0, length - 1] {
        label[end] = random.pick(LETTERS);
    }
    if length > 2 && random.once_in(3) {
        label[0] = random.pick(DIGITS);
    }
    String::from_utf8(label).expect("it is ASCII")
}

/// A name of at most 253 octets, and a dot at its end now and then.
pub fn name(random: &mut Xorshift) -> String {
    let count = random.pick(&[1, 2, 2, 3, 3, 4, 8, 100]);
    let mut name = label(random);
    for _ in 1..count {
        let longer = format!("{}.{name}", label(random));
        if longer.len() <= 253 {
            name = longer;
        }
    }
    // The longest one.
    if count == 100 {
        name = ["a", "b", "c", "d"].map(|letter| letter.repeat(63)).join(".");
        name.truncate(253);
    }
    if random.once_in(8) {
        name.push('.');
    }
    name
}

pub fn ipv4(random: &mut Xorshift) -> String {
    let part = |random: &mut Xorshift| {
        let any = random.below(256);
        random.pick(&[0, 1, 9, 10, 99, 100, 199, 249, 250, 255, any]).to_string()
    };
    (0..4).map(|_| part(random)).collect::<Vec<_>>().join(".")
}

/// So many groups, of which the last two may be an IPv4 address.
fn groups(random: &mut Xorshift, count: usize, ends: bool) -> String {
    let group = |random: &mut Xorshift| {
        let length = 1 + random.below(4);
        letters(random, &[DIGITS, b"abcdefABCDEF"], length)
    };
    let old = ends && count >= 2 && random.once_in(3);
    let plain = if old { count - 2 } else { count };
    let mut all: Vec<String> = (0..plain).map(|_| group(random)).collect();
    if old {
        all.push(ipv4(random));
    }
    all.join(":")
}

/// So many groups in all, before and behind the two colons that stand for others.
fn compressed(random: &mut Xorshift, count: usize) -> String {
    let before = random.below(count + 1);
    format!("{}::{}", groups(random, before, false), groups(random, count - before, true))
}

pub fn ipv6(random: &mut Xorshift) -> String {
    let count = random.below(8);
    if random.once_in(3) {
        groups(random, 8, true)
    } else {
        compressed(random, count)
    }
}

pub fn port(random: &mut Xorshift) -> String {
    let any = random.below(65_536);
    random.pick(&[0, 1, 9, 10, 80, 2002, 9999, 10_000, 59_999, 65_534, 65_535, any]).to_string()
}

pub fn host(random: &mut Xorshift) -> String {
    match random.below(5) {
        0 => ipv4(random),
        1 | 2 => format!("[{}]", ipv6(random)),
        _ => name(random),
    }
}

pub fn address(random: &mut Xorshift) -> String {
    format!("{}:{}", host(random), port(random))
}

const NO_PORTS: &str =
    "65536 65537 66000 70000 99999 100000 655350 00 01 080 065535 +1 -1 1a a 0x1 \
    1.0 1,0 18446744073709551616 \u{661} 2002/ 2002? 1e1";

const NO_IPV4: &str = "256.1.1.1 1.256.1.1 1.1.1.256 1.1.1.999 1.1.1 1.1.1.1.1 01.1.1.1 1.00.1.1 \
    1.1.1.01 1..1.1 .1.1.1 1.1.1. 1.1.1.1. 127.1 2130706433 0300.1.1.1 1.1.1.-1 1.1.1.+1 \
    1.1.1.1000 \u{661}.1.1.1";

const NO_IPV6: &str = ": ::: 1 1:2:3:4:5:6:7 1:2:3:4:5:6:7:8:9 1:2:3:4:5:6:7::8 ::1:2:3:4:5:6:7:8 \
    1:2:3:4:5:6:7:8:: 1::2::3 1:::2 :1:2:3:4:5:6:7 1:2:3:4:5:6:7: :1:: ::1: 12345:: ::12345 g:: ::g \
    fe80::1%eth0 fe80::1%1 ::1%25lo ::% %:: 1.2.3.4 1:2:3:4:5:6:7:1.2.3.4 ::1.2.3 ::1.2.3.4.5 \
    ::1.2.3.256 ::01.2.3.4 1.2.3.4:: ::1.2.3.4:5 1.2.3.4:2:3:4:5:6:7 1:2:3:4:5:6::1.2.3.4 ::ffff:1.2.3 \
    ::/64 ::1] [::1 \u{ff11}:: ::0x1 ::-1";

const NO_NAMES: &str = ". .. a..b .a .a.b a.. -a a- a.-b a-.b a.b- a_b a.b_c a.1 a.0 1 a.123. 0 a/b a*b \
    a\u{e9}b \u{43f}.\u{440}\u{444} a:b a@b a%62 [a] [a.example] [1.2.3.4] a] [a a\u{0}b a\u{7f} a!b";

/// A name that is too long: by a letter of a label, or in all.
fn long_name(random: &mut Xorshift) -> String {
    match random.below(3) {
        0 => format!("{}.example", "a".repeat(64)),
        1 => format!("a.{}", "b".repeat(64 + random.below(100))),
        _ => {
            let labels = vec!["abcdefghi"; 25 + random.below(3)].join(".");
            format!("{labels}.{}", "z".repeat(5 + random.below(50)))
        }
    }
}

/// What is no host.
pub fn no_host(random: &mut Xorshift) -> String {
    match random.below(9) {
        0 | 1 => word(random, NO_IPV4).to_string(),
        2..=4 => format!("[{}]", word(random, NO_IPV6)),
        // Without its brackets it is no host either.
        5 => compressed(random, 3),
        6 => long_name(random),
        7 => String::new(),
        _ => word(random, NO_NAMES).to_string(),
    }
}

/// What is no address, by its port or its host.
pub fn no_address(random: &mut Xorshift) -> String {
    match random.below(8) {
        0 | 1 => format!("{}:{}", host(random), word(random, NO_PORTS)),
        2..=4 => format!("{}:{}", no_host(random), port(random)),
        5 => host(random),
        6 => {
            let before = random.pick(&[" ", "https://", "udp ", "a@", "//", "\u{feff}"]);
            format!("{before}{}", address(random))
        }
        _ => {
            let behind = random.pick(&[" ", "\n", ":", "/", "#", "\0", "?", "%"]);
            format!("{}{behind}", address(random))
        }
    }
}

const PLAIN: &[u8] = b"-._~!$&'()*+,;=:@/?";

fn path(random: &mut Xorshift, count: usize) -> String {
    let piece = |random: &mut Xorshift| match random.below(6) {
        0 => format!("%{}", letters(random, &[DIGITS, b"abcdefABCDEF"], 2)),
        1 => char::from(random.pick(PLAIN)).to_string(),
        _ => char::from(random.pick(&[LETTERS, DIGITS].concat())).to_string(),
    };
    (0..count).map(|_| piece(random)).collect()
}

/// Where a path, a query or a fragment starts, and the rest.
fn rest(random: &mut Xorshift) -> String {
    let count = random.pick(&[0, 1, 3, 12, 40]);
    match random.below(5) {
        0 => String::new(),
        1 => format!("?{}", path(random, count)),
        2 => format!("#{}", path(random, count)),
        3 => format!("/{}#{}", path(random, count), path(random, 3)),
        _ => format!("/{}", path(random, count)),
    }
}

pub fn url(random: &mut Xorshift) -> String {
    let scheme = random.pick(&["https", "https", "https", "HTTPS", "hTTpS"]);
    let port = match random.below(4) {
        0 => format!(":{}", port(random)),
        1 if random.once_in(3) => ":".to_string(),
        _ => String::new(),
    };
    let url = format!("{scheme}://{}{port}", host(random));
    if random.once_in(60) {
        let missing = 2047 - url.len();
        return format!("{url}/{}", "z".repeat(missing));
    }
    url + &rest(random)
}

const NO_URLS: &str =
    "http://a.example/ https:/a.example/ https:a.example https:// https:/// https://? \
    https://# ftp://a.example/ httpss://a.example/ https//a.example a.example/ //a.example/ https \
    https://u@a.example/ https://u:p@a.example/ https://@a.example/ https://a.example@b/ \
    https://a.example/% https://a.example/%4 https://a.example/%4g https://a.example/%%41 \
    https://a.example/a%2 https://a.example/## https://a.example/#a#b https://a.example/\u{e9} \
    https://a.example/< https://a.example/> https://a.example/[ https://a.example/] \
    https://a.example\\ https://a.example/^ https://a.example/` https://a.example/{ \
    https://a.example/| https://a.example/\u{7f} https://a.example/\" https://a.example:65536/ \
    https://a.example:0443/ https://a.example:+1/ https://a.example::1/ https://a.example:1:2/ \
    https://[::1/ https://::1/ https://[::1]a/ https://[::1%25lo]/ https://[v1.a]/ https://a..b/ \
    https://a_b.example/ https://1.2.3/ https://1.2.3.256/ https://a%2eexample/ http\u{17f}://a/ \
    \u{feff}https://a/ https:\\\\a.example\\";

/// What is no URL of HTTPS.
pub fn no_url(random: &mut Xorshift) -> String {
    match random.below(6) {
        0 => {
            let long = url(random);
            let at = if rest_of(&long).is_empty() { "/" } else { "" };
            let missing = 2049_usize.saturating_sub(long.len() + at.len());
            long + at + &"q".repeat(missing + random.below(3))
        }
        1 => format!("https://{}/", random.pick(&["a b", "a\tb", " a", "a\n", "\0"])),
        2 => format!("https://{}{}", no_host(random).replace(['/', '?', '#'], "_"), "/"),
        3 => String::new(),
        _ => word(random, NO_URLS).to_string(),
    }
}

fn rest_of(url: &str) -> &str {
    let behind = &url[8..];
    behind.find(['/', '?', '#']).map_or("", |at| &behind[at..])
}

/// Pieces of addresses in any order.
pub fn any_address(random: &mut Xorshift) -> String {
    const PIECES: [&str; 22] = [
        "1", "0", "25", "255", "256", "65535", "a", "F", "example", "x-", "-", ".", ".", ":", ":",
        "::", "[", "]", "%", "g", "1.2.3.4", "ffff",
    ];
    let count = 1 + random.below(9);
    let middle: String = (0..count).map(|_| random.pick(&PIECES)).collect();
    match random.below(4) {
        0 => middle,
        1 => format!("[{middle}]:{}", port(random)),
        _ => format!("{middle}:{}", port(random)),
    }
}

/// Pieces of URLs in any order, behind the scheme mostly.
pub fn any_url(random: &mut Xorshift) -> String {
    const PIECES: [&str; 20] = [
        "a",
        "B",
        "1",
        "127.0.0.1",
        "[::1]",
        "[",
        "]",
        ":",
        "443",
        "/",
        "?",
        "#",
        "%41",
        "%",
        "@",
        ".",
        "-",
        "~",
        " ",
        "\u{e9}",
    ];
    let count = 1 + random.below(8);
    let middle: String = (0..count).map(|_| random.pick(&PIECES)).collect();
    let scheme = random.pick(&["https://", "https://", "https://", "HTTPS://", "https:", ""]);
    format!("{scheme}{middle}")
}
