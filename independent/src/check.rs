//! Whether a response is valid (draft 19, section 5.4), and the window of time that a valid one
//! tells, with the key that signed it; and what a client asks of answers that it kept.
//!
//! The two signatures are for the caller to check: here they are a yes or a no each.

use crate::refusal::Refusal;
use crate::response::Response;
use crate::{hash, request, response, tree};

/// What a valid response tells: the true time is from `low` to `high`, by a key that may sign from
/// `mint` to `maxt`.
#[derive(Clone, Copy, Debug, PartialEq, Eq)]
pub struct Window {
    /// MIDP.
    pub midp: u64,
    /// RADI.
    pub radi: u32,
    /// MIDP - RADI, or 0 where that is below 0.
    pub low: u64,
    /// MIDP + RADI, or the last second of all where that is beyond it.
    pub high: u64,
    /// MINT.
    pub mint: u64,
    /// MAXT.
    pub maxt: u64,
}

/// The ends of the window of this midpoint and radius. In 128 bits no sum or difference of theirs
/// can wrap.
fn ends(midp: u64, radi: u32) -> (u64, u64) {
    let (low, high) = (i128::from(midp) - i128::from(radi), i128::from(midp) + i128::from(radi));
    let within =
        |time: i128| u64::try_from(time.clamp(0, u64::MAX.into())).expect("it was clamped");
    (within(low), within(high))
}

/// What a valid response tells, and the delegated key that signed it.
#[derive(Clone, Copy, Debug, PartialEq, Eq)]
pub struct Valid {
    /// The window.
    pub window: Window,
    /// PUBK.
    pub pubk: [u8; 32],
}

/// Whether a client may still use what `answer` told at this second: there was no refusal, and the
/// last second of the key is not over.
pub fn usable(answer: &Result<Valid, Refusal>, second: u64) -> bool {
    match answer {
        Ok(valid) => second.saturating_sub(valid.window.maxt) == 0,
        Err(_) => false,
    }
}

/// Whether two answers come from one delegation: neither was refused, and what their DELE hold, PUBK,
/// MINT and MAXT (draft 19, section 5.2.6), is the same.
pub fn one_delegation(answer: &Result<Valid, Refusal>, other: &Result<Valid, Refusal>) -> bool {
    let dele = |Valid { window, pubk }: Valid| (pubk, window.mint, window.maxt);
    match (answer, other) {
        (Ok(valid), Ok(other)) => dele(*valid) == dele(*other),
        _ => false,
    }
}

/// What `response_packet` tells, where it is a valid answer to `request_packet`.
///
/// `delegation` says whether the signature in CERT is the long-term key's, and `signature` whether
/// that of SREP is the delegated key's.
pub fn check(
    request_packet: &[u8],
    response_packet: &[u8],
    delegation: bool,
    signature: bool,
) -> Result<Valid, Refusal> {
    let request = request::read(request_packet).map_err(|_| Refusal::Request)?;
    let response = response::read(response_packet)?;
    let Response { outer, srep, dele, .. } = &response;
    // The largest version that the client and the server both know: a server that answers with a
    // lower one talks the client down.
    let best = srep.versions.iter().filter(|version| request.versions.contains(version)).max();
    // The leaf is of the packet as it was sent, its header with it.
    let leaf = hash::leaf(request_packet);
    let rules = [
        (request.versions.contains(&srep.version), Refusal::Kind),
        (best <= Some(&srep.version), Refusal::Kind),
        (outer.nonc == request.nonc, Refusal::Nonce),
        (tree::reaches(&leaf, outer.indx, &outer.path, &srep.root), Refusal::Path),
        (dele.mint <= srep.midp && srep.midp <= dele.maxt, Refusal::Time),
        (delegation, Refusal::Delegation),
        (signature, Refusal::Signature),
    ];
    match rules.iter().find(|rule| !rule.0) {
        Some((_, refusal)) => Err(*refusal),
        None => {
            let (midp, radi) = (srep.midp, srep.radi);
            let (low, high) = ends(midp, radi);
            let window = Window { midp, radi, low, high, mint: dele.mint, maxt: dele.maxt };
            Ok(Valid { window, pubk: dele.pubk })
        }
    }
}

#[cfg(test)]
mod tests {
    use super::*;
    use crate::pieces::{put, Pieces};
    use crate::tag::{INDX, MAXT, MIDP, MINT, NONC, PATH, PUBK, RADI, ROOT, TYPE, VERS};
    use crate::value::list;
    use crate::{packet, write};

    /// A request, and the response that it is the only leaf of.
    fn pair() -> (Vec<u8>, Pieces) {
        let request = write::request(&[1; 32], &[2; 32]);
        let mut response = Pieces::good();
        put(&mut response.outer, NONC, &[2; 32]);
        put(&mut response.outer, PATH, &[]);
        put(&mut response.outer, INDX, &[0; 4]);
        put(&mut response.srep, ROOT, &hash::leaf(&request));
        (request, response)
    }

    fn code(request: &[u8], response: &Pieces, answers: (bool, bool)) -> u32 {
        check(request, &response.clone().packet(), answers.0, answers.1)
            .map_or_else(Refusal::code, |_| 0)
    }

    #[test]
    fn a_valid_response_tells_its_window_and_its_key() {
        let (request, mut response) = pair();
        put(&mut response.dele, MINT, &200u64.to_le_bytes());
        put(&mut response.dele, MAXT, &300u64.to_le_bytes());
        let told = check(&request, &response.packet(), true, true);
        let window = Window { midp: 256, radi: 5, low: 251, high: 261, mint: 200, maxt: 300 };
        assert_eq!(told, Ok(Valid { window, pubk: [15; 32] }));
    }

    #[test]
    fn an_answer_may_be_used_up_to_maxt() {
        let (request, mut response) = pair();
        put(&mut response.dele, MAXT, &300u64.to_le_bytes());
        let told = |signature| check(&request, &response.clone().packet(), true, signature);
        for (second, due) in [(0, true), (256, true), (300, true), (301, false)] {
            assert_eq!(usable(&told(true), second), due, "{second}");
            assert!(!usable(&told(false), second), "a refused answer at {second}");
        }
        assert!(!usable(&told(true), u64::MAX));
    }

    #[test]
    fn two_valid_answers_come_from_one_delegation_where_dele_is_the_same() {
        let (request, mut response) = pair();
        let told = |response: &Pieces, signature| {
            check(&request, &response.clone().packet(), true, signature)
        };
        let (first, refused) = (told(&response, true), told(&response, false));
        assert!(one_delegation(&first, &first));
        assert!(!one_delegation(&first, &refused) && !one_delegation(&refused, &first));
        assert!(!one_delegation(&refused, &refused));
        put(&mut response.srep, RADI, &7u32.to_le_bytes());
        assert!(one_delegation(&first, &told(&response, true)));
        let dele = response.dele.clone();
        let others = [
            (PUBK, [16; 32].to_vec()),
            (MINT, 200u64.to_le_bytes().to_vec()),
            (MAXT, 300u64.to_le_bytes().to_vec()),
        ];
        for (tag, value) in others {
            put(&mut response.dele, tag, &value);
            let other = told(&response, true);
            assert!(other.is_ok() && !one_delegation(&first, &other));
            response.dele = dele.clone();
        }
    }

    #[test]
    fn windows_end_where_time_does() {
        assert_eq!(ends(3, 10), (0, 13));
        assert_eq!(ends(0, 0), (0, 0));
        assert_eq!(ends(10, 10), (0, 20));
        assert_eq!(ends(u64::MAX, 1), (u64::MAX - 1, u64::MAX));
        assert_eq!(ends(u64::MAX, 0), (u64::MAX, u64::MAX));
        assert_eq!(ends(u64::MAX - 1, 1), (u64::MAX - 2, u64::MAX));
        assert_eq!(ends(0, u32::MAX), (0, u32::MAX.into()));
        assert_eq!(ends(u64::MAX, u32::MAX), (u64::MAX - u64::from(u32::MAX), u64::MAX));
    }

    /// Each rule is broken in turn, from the last to the first: the new damage counts.
    #[test]
    fn the_first_refusal_counts() {
        let (request, mut response) = pair();
        assert_eq!(code(&request, &response, (true, false)), 13);
        assert_eq!(code(&request, &response, (false, true)), 12);
        let no = (false, false);
        assert_eq!(code(&request, &response, no), 12);
        put(&mut response.dele, MINT, &257u64.to_le_bytes());
        assert_eq!(code(&request, &response, no), 11);
        put(&mut response.outer, INDX, &[1, 0, 0, 0]);
        assert_eq!(code(&request, &response, no), 10);
        put(&mut response.outer, NONC, &[3; 32]);
        assert_eq!(code(&request, &response, no), 9);
        put(&mut response.outer, TYPE, &[0; 4]);
        assert_eq!(code(&request, &response, no), 8);
        put(&mut response.srep, RADI, &[0; 4]);
        assert_eq!(code(&request, &response, no), 7);
        assert_eq!(code(&request[..1035], &response, no), 14);
        assert_eq!(code(&[], &response, no), 14);
    }

    /// The code for a request with these versions, and a response that lists those.
    fn versions(asked: &[u32], listed: &[u32]) -> u32 {
        let request = write::request_of(asked, &[1; 32], &[2; 32], 912);
        let (_, mut response) = pair();
        put(&mut response.srep, VERS, &list(listed));
        put(&mut response.srep, ROOT, &hash::leaf(&request));
        code(&request, &response, (true, true))
    }

    #[test]
    fn no_version_above_the_one_that_was_chosen_is_known_to_both() {
        let draft = 0x8000_000c;
        for (asked, listed, due) in [
            (&[1][..], &[1][..], 0),
            (&[0, 1], &[0, 1], 0),
            (&[1, 2], &[1], 0),
            (&[1], &[1, 2], 0),
            (&[1, 2], &[1, 3], 0),
            (&[1, draft], &[1, 2], 0),
            (&[1, 2], &[1, 2], 8),
            (&[1, 2, 4], &[1, 2, 3], 8),
            (&[1, 3, 4], &[1, 2, 4], 8),
            (&[1, draft], &[1, draft], 8),
            (&[0, 1, 2, draft], &[1, 2, 3], 8),
        ] {
            assert_eq!(versions(asked, listed), due, "{asked:?} and {listed:?}");
        }
        let many: Vec<u32> = (1..=32).collect();
        assert_eq!(versions(&many, &many), 8);
        assert_eq!(versions(&many, &[1]), 0);
        assert_eq!(versions(&many, &[1, 33]), 0);
        assert_eq!(versions(&[1, 32], &many), 8);
    }

    /// A version that both know comes before another nonce.
    #[test]
    fn a_downgrade_comes_before_the_nonce() {
        let request = write::request_of(&[1, 2], &[1; 32], &[3; 32], 912);
        let (_, mut response) = pair();
        assert_eq!(code(&request, &response, (false, false)), 9);
        put(&mut response.srep, VERS, &list(&[1, 2]));
        assert_eq!(code(&request, &response, (false, false)), 8);
    }

    #[test]
    fn the_ends_of_the_delegation_count_as_within_it() {
        for (mint, maxt, due) in [
            (256, 256, 0),
            (0, 256, 0),
            (256, 300, 0),
            (257, 300, 11),
            (0, 255, 11),
            (257, 255, 11),
        ] {
            let (request, mut response) = pair();
            put(&mut response.dele, MINT, &u64::to_le_bytes(mint));
            put(&mut response.dele, MAXT, &u64::to_le_bytes(maxt));
            assert_eq!(code(&request, &response, (true, true)), due, "{mint} to {maxt}");
        }
        let (request, mut response) = pair();
        put(&mut response.srep, MIDP, &u64::MAX.to_le_bytes());
        assert_eq!(code(&request, &response, (true, true)), 0);
    }

    #[test]
    fn the_leaf_is_of_the_whole_packet() {
        let (request, mut response) = pair();
        put(&mut response.srep, ROOT, &hash::leaf(&request[packet::HEADER..]));
        assert_eq!(code(&request, &response, (true, true)), 10);
        put(&mut response.srep, ROOT, &hash::h(&[&request]));
        assert_eq!(code(&request, &response, (true, true)), 10);
    }
}
