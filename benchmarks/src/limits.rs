//! The highest ratios of our time to another's that pass, each with its reason.

use std::env;

/// A limit. BENCH_LIMIT_ and its name in capitals, in the environment, sets another.
pub struct Limit {
    pub name: &'static str,
    pub highest: f64,
    /// The highest ratio of ordinary runs so far: those of one aarch64, also while others used it;
    /// of what verifies, of lists, and of texts by a usual one, those of one x86-64.
    pub seen: f64,
    /// Of what by what.
    pub what: &'static str,
    /// Why it is this one.
    pub why: &'static str,
}

/// How much of what was seen a limit is at the least: it must have room for machines that it was not
/// made on.
const ROOM: f64 = 1.03;

const fn limit(
    name: &'static str,
    highest: f64,
    seen: f64,
    what: &'static str,
    why: &'static str,
) -> Limit {
    Limit { name, highest, seen, what, why }
}

/// "As runs" is so much above what was seen.
const RUNS: f64 = 0.1;

/// All limits.
#[rustfmt::skip]
pub const LIMITS: &[Limit] = &[
    limit("piles", 0.77 + RUNS, 0.77, "a full pile by the independent checker",
          "as runs; asked is 2, the goal is 0.70"),
    limit("piles_sha2", 1.0, 0.87, "the same by the independent checker over sha2",
          "the goal"),
    limit("refused", 1.25, 0.66, "a refused pile by the same, beside a microsecond",
          "a refusal is to be as cheap; a microsecond is 60 ns a record, for calls and copying"),
    limit("independent", 0.95 + RUNS, 0.95, "SHA-512 by the independent one",
          "as runs"),
    limit("sha2", 0.97 + RUNS, 0.97, "SHA-512 by sha2, from 1,036 bytes on",
          "as runs"),
    limit("sha2_short", 1.15 + RUNS, 1.15, "SHA-512 by sha2, of 65 bytes",
          "as runs; our table of constants is built at each call"),
    limit("pieces", 1.06 + RUNS, 1.06, "SHA-512 in pieces of 1,000 bytes and more by the whole at once",
          "as runs; a state goes in and out with each piece"),
    limit("openssl", if cfg!(target_arch = "aarch64") { 0.8 } else { 0.6 }, 0.57,
          "a verification by OpenSSL's", "the goal"),
    limit("sodium", 1.2, 1.154, "a verification by libsodium's",
          "the goal"),
    limit("openssl_sign", 2.0, 1.24, "a signature by OpenSSL's",
          "asked; ours makes the public key in each call, which OpenSSL keeps beside the seed"),
    limit("openssl_signed", 0.58 + RUNS, 0.58, "judged by its signatures, by the independent checker with OpenSSL's",
          "as runs"),
    limit("signed", 0.42 + RUNS, 0.42, "the same by the independent checker",
          "as runs"),
    limit("verifications", 1.0, 0.93, "the same by the verifications that it has to make",
          "see `verifications` below"),
    limit("walks", 0.70 + RUNS, 0.70, "a step of a walk by the independent one",
          "as runs"),
    limit("walk_step", 1.06, 1.017, "a verified step of a walk by two verifications and the response check",
          "the goal is 1.02, and 0.04 for the clock; a longer response takes more, since it is hashed for a nonce"),
    limit("servers", 0.65 + RUNS, 0.65, "a server's batch of 900 by the independent one",
          "as runs"),
    limit("batch", 1.15, 1.046, "a batch of 900 in one call by its hashing and one signature",
          "asked"),
    limit("batch_steps", 0.45, 0.36, "the same by its steps",
          "asked; by steps each leaf is hashed twice, and each path once for its response"),
    limit("rows_few", 1.7, 1.44, "all rows of a tree of under 8 leaves by its hashing",
          "the goal"),
    limit("rows", 1.2, 1.09, "the same from 8 leaves on",
          "the goal"),
    limit("rows_many", 1.10, 1.01, "the same of 900 and of 1,024",
          "the goal"),
    limit("path", 1.05, 1.0, "a path of 1,024 leaves by all rows",
          "the same hashing, and 0.05 for the clock"),
    limit("path_from", 0.5, 0.07, "a path out of the rows by one hash",
          "it needs none"),
    limit("one_pass", 0.25, 0.21, "16 windows in one pass by their pairs",
          "there are 120 pairs"),
    limit("texts_read", 0.6, 0.46, "JSON read by the independent reader",
          "the goal; ours goes over the text once, and once more over the strings of its entries"),
    limit("texts_serde", 1.6, 1.32, "the same by serde_json with base64",
          "asked"),
    limit("texts_cut", 0.43 + RUNS, 0.43, "JSON read, cut and written by the independent one",
          "as runs"),
    limit("worst_text", 1.5, 1.45, "a text that takes long, read by the independent reader",
          "the goal"),
    limit("worst_usual", 2.0, 1.91, "a byte of the same by a byte of a usual text",
          "the goal"),
    limit("lists_read", 1.5, 0.97, "the longest list of servers as JSON, read by the independent reader",
          "asked"),
    limit("worst_list", 1.5, 1.32, "a list that takes long, read by the same",
          "asked"),
    limit("find_server", 1.5, 0.35, "a server sought by the independent one",
          "the goal"),
    limit("texts_written", 0.33 + RUNS, 0.33, "JSON written by the independent writer",
          "as runs"),
    limit("daemon", 2.0, 1.70, "an answer of trawld by an echo, by the server's own time",
          "asked: half as many answers as echoes at the least"),
    limit("daemon_rate", 2.0, 1.5, "echoes a second by answers of trawld a second",
          "asked: the same, by the clock on the wall"),
    limit("doubled", 2.5, 2.4, "twice the bytes by once the bytes",
          "nothing grows faster than the bytes; 0.5 is for caches and the clock"),
];

/// A limit without room stops the compiler.
const _: () = {
    let mut at = 0;
    while at < LIMITS.len() {
        assert!(LIMITS[at].highest >= ROOM * LIMITS[at].seen, "a limit has no room");
        at += 1;
    }
};

/// What the table has under this name.
pub fn of(name: &str) -> &'static Limit {
    let limit = LIMITS.iter().find(|limit| limit.name == name);
    limit.unwrap_or_else(|| panic!("there is no limit {name}"))
}

/// The limit of this name: what the environment sets, or else what the table has. What is no number
/// stops the program, lest a slip of the hand lift the limit.
pub fn highest(name: &str) -> f64 {
    let default = of(name).highest;
    let variable = format!("BENCH_LIMIT_{}", name.to_uppercase());
    match env::var(&variable) {
        Err(_) => default,
        Ok(text) => match text.parse::<f64>() {
            Ok(limit) if limit.is_finite() => limit,
            _ => panic!("{variable} is not a number: {text}"),
        },
    }
}

/// The limit for all rows of a tree, by the number of its leaves.
pub fn rows(leaves: usize) -> &'static str {
    match leaves {
        900 | 1024 => "rows_many",
        8.. => "rows",
        _ => "rows_few",
    }
}

/// What is judged by its signatures, in verifications of a delegation, where it makes so many and
/// reads so many records or responses: a response's text may be longer than a delegation's, and
/// each record is read and hashed, which takes a quarter of a verification.
pub fn verifications(made: u32, records: u32) -> f64 {
    highest("verifications") * (1.15 * f64::from(made) + 0.25 * f64::from(records) + 0.5)
}
