//! The check of a response, the verdict on a record, the report check and the cutter, by signatures
//! that are verified here (request P11): no answers stand beside a packet or a pile.
//!
//! The delegation's signature is verified under the long-term key, which is lent with a response and
//! stands in a record, and the response's under PUBK, each over its own text. Both come after every
//! other rule, and are looked at only where none of those refuses.

use crate::check::{self, Valid};
use crate::ed25519::Ed25519;
use crate::pile::{self, Judge, Record};
use crate::refusal::Refusal;
use crate::report::{self, NoReport};
use crate::response::{self, Response};
use crate::text;

/// Whether the signature in CERT is the long-term key's.
fn delegated(ed25519: &Ed25519, key: &[u8; 32], response: &Response) -> bool {
    let signed = [text::DELEGATION, response.dele.bytes].concat();
    ed25519.verify(key, &signed, &response.cert.sig)
}

/// Whether the signature in the outermost message is PUBK's.
fn signed(ed25519: &Ed25519, response: &Response) -> bool {
    let signed = [text::RESPONSE, response.srep.bytes].concat();
    ed25519.verify(&response.dele.pubk, &signed, &response.outer.sig)
}

/// The two answers about a response: the delegation's, then the response's own. Where it has no
/// right shape both are no.
pub fn answers(ed25519: &Ed25519, key: &[u8; 32], packet: &[u8]) -> [bool; 2] {
    match response::shaped(packet) {
        Ok(response) => [delegated(ed25519, key, &response), signed(ed25519, &response)],
        Err(_) => [false, false],
    }
}

/// What `response_packet` tells, where it is a valid answer to `request_packet` of the server with
/// this long-term key.
pub fn check(
    ed25519: &Ed25519,
    key: &[u8; 32],
    request_packet: &[u8],
    response_packet: &[u8],
) -> Result<Valid, Refusal> {
    // With two yeses, so that all that is left to refuse for is the signatures.
    let valid = check::check(request_packet, response_packet, true, true)?;
    let response = response::shaped(response_packet)?;
    match () {
        _ if !delegated(ed25519, key, &response) => Err(Refusal::Delegation),
        _ if !signed(ed25519, &response) => Err(Refusal::Signature),
        _ => Ok(valid),
    }
}

/// A record that is judged by its own key.
#[derive(Clone, Copy, Debug)]
pub struct Keyed<'a> {
    record: Record<'a>,
    ed25519: &'a Ed25519,
}

impl Judge for Keyed<'_> {
    fn record(&self) -> Record<'_> {
        self.record
    }

    fn judge(&self) -> Result<Valid, Refusal> {
        let (request, response) = self.record.packets()?;
        check(self.ed25519, self.record.key(), request, response)
    }
}

/// The records of a pile, where there are 1 to 16 whole ones.
pub fn read<'a>(ed25519: &'a Ed25519, pile: &'a [u8]) -> Result<Vec<Keyed<'a>>, Refusal> {
    let records = pile::records(pile)?;
    Ok(records.into_iter().map(|record| Keyed { record, ed25519 }).collect())
}

/// What each record tells: its window and its key, or why it is not valid.
pub fn judge_all(ed25519: &Ed25519, pile: &[u8]) -> Result<Vec<Result<Valid, Refusal>>, Refusal> {
    Ok(read(ed25519, pile)?.iter().map(Keyed::judge).collect())
}

/// The places of the two records for which a pile is a report.
pub fn check_report(ed25519: &Ed25519, pile: &[u8]) -> Result<(usize, usize), NoReport> {
    let records = read(ed25519, pile).map_err(|refusal| NoReport { refusal, place: None })?;
    report::check_records(pile, &records)
}

/// The places of the first and the last record of the run that the cutter takes.
pub fn run(ed25519: &Ed25519, pile: &[u8]) -> Result<(usize, usize), Refusal> {
    report::run_of(&read(ed25519, pile)?)
}

/// Writes that run at the front of `out`, which must have room for the whole pile, and tells its
/// places.
pub fn cut(ed25519: &Ed25519, pile: &[u8], out: &mut [u8]) -> Result<(usize, usize), Refusal> {
    report::cut_records(pile, &read(ed25519, pile)?, out)
}

/// The answers about each record, two bytes a record. Where a record has no two packets both are
/// no, since no packet of it is read.
pub fn all_answers(ed25519: &Ed25519, pile: &[u8]) -> Result<Vec<u8>, Refusal> {
    let of = |record: &Record| match record.packets() {
        Ok((_, response)) => answers(ed25519, record.key(), response).map(u8::from),
        Err(_) => [0, 0],
    };
    Ok(pile::records(pile)?.iter().flat_map(of).collect())
}

#[cfg(test)]
mod tests {
    use super::*;
    use crate::appendix::{self, Entry};
    use crate::making::{Link, Made};
    use crate::pile::{at, RECORD};
    use crate::signing::{self, Keys};

    fn keys(ed25519: &Ed25519, seed: u8) -> Keys {
        Keys::new(ed25519, [seed; 32], [seed ^ 0x80; 32])
    }

    /// Document 01's fifth example, signed by two servers in turn.
    fn example(ed25519: &Ed25519) -> Vec<u8> {
        let servers = [keys(ed25519, 1), keys(ed25519, 2)];
        let times = [(1000, 10), (1500, 10), (1495, 1), (1400, 10)];
        let links: Vec<Link> =
            (0..4).map(|i| Link::new(i, times[i as usize].0, times[i as usize].1)).collect();
        signing::chain(ed25519, &links, |place| &servers[place % 2])
    }

    #[test]
    fn the_drafts_report_stands_by_its_own_signatures() {
        let ed25519 = Ed25519::new();
        let Made { pile, .. } = appendix::pile();
        assert!(judge_all(&ed25519, &pile).unwrap().iter().all(Result::is_ok));
        assert_eq!(check_report(&ed25519, &pile), Ok((0, 1)));
        assert_eq!(run(&ed25519, &pile), Ok((0, 1)));
        for Entry { key, request, response, .. } in appendix::entries() {
            assert_eq!(answers(&ed25519, &key, &response), [true, true]);
            assert_eq!(
                check(&ed25519, &key, &request, &response),
                check::check(&request, &response, true, true)
            );
            let mut other = key;
            other[0] ^= 1;
            assert_eq!(answers(&ed25519, &other, &response), [false, true]);
            assert_eq!(check(&ed25519, &other, &request, &response), Err(Refusal::Delegation));
        }
    }

    /// Each byte of the signatures, of the key, and some of what is signed.
    #[test]
    fn each_signature_is_of_its_text_by_its_key() {
        let ed25519 = Ed25519::new();
        let pile = example(&ed25519);
        assert_eq!(check_report(&ed25519, &pile), Ok((2, 3)));
        assert_eq!(run(&ed25519, &pile), Ok((2, 3)));
        let answered = |places: &[usize]| {
            let mut pile = pile.clone();
            places.iter().for_each(|place| pile[*place] ^= 4);
            all_answers(&ed25519, &pile).unwrap()
        };
        let response = at::RESPONSE;
        // Where things stand in a response with no tag but those that it needs and no siblings.
        for (place, due) in [
            (0, [0, 1]),
            (31, [0, 1]),
            (response + 68, [1, 0]),
            (response + 131, [1, 0]),
            (response + 276, [0, 1]),
            (response + 339, [0, 1]),
            (response + 364, [0, 0]),
            (response + 396, [0, 1]),
            (response + 216, [1, 0]),
            (at::RAND, [1, 1]),
            (response + 132, [1, 1]),
        ] {
            assert_eq!(answered(&[place])[..2], due, "byte {place}");
            assert_eq!(answered(&[place])[2..], [1; 6], "byte {place}");
            assert_eq!(answered(&[RECORD + place])[2..4], due, "byte {place}");
        }
    }

    /// What the answers say, fed to the forms that take answers.
    #[test]
    fn it_is_what_is_said_with_the_answers() {
        let ed25519 = Ed25519::new();
        let good = example(&ed25519);
        let response = at::RESPONSE;
        let places =
            [0, 64, 72, at::REQUEST, response, response + 68, response + 200, response + 276];
        for place in places.map(|place| place + 3 * RECORD).into_iter().chain([at::RAND]) {
            let mut pile = good.clone();
            pile[place] ^= 1;
            let answers = all_answers(&ed25519, &pile).unwrap();
            assert_eq!(judge_all(&ed25519, &pile), pile::judge_all(&pile, &answers));
            assert_eq!(check_report(&ed25519, &pile), report::check(&pile, &answers));
            assert_eq!(run(&ed25519, &pile), report::run(&pile, &answers));
        }
        assert_eq!(judge_all(&ed25519, &good[1..]), Err(Refusal::Pile));
        assert_eq!(run(&ed25519, &[]), Err(Refusal::Pile));
    }
}
