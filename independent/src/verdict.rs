//! What is printed of a pile: a line for each record, and the run that convicts.

use crate::check::Window;
use crate::ed25519::Ed25519;
use crate::pile::Judge;
use crate::{pile, report, signed};

/// The lines for a pile and its answers, each with its end.
pub fn lines(pile: &[u8], answers: &[u8]) -> String {
    match pile::read(pile, answers) {
        Ok(records) => record_lines(&records),
        Err(refusal) => format!("refused {}\n", refusal.code()),
    }
}

/// The lines for a pile alone, which is judged by its own signatures.
pub fn signed_lines(pile: &[u8]) -> String {
    match signed::read(&Ed25519::new(), pile) {
        Ok(records) => record_lines(&records),
        Err(refusal) => format!("refused {}\n", refusal.code()),
    }
}

fn record_lines(records: &[impl Judge]) -> String {
    let mut lines = format!("records {}\n", records.len());
    for (number, record) in records.iter().enumerate() {
        lines += &match (record.judge(), record.place()) {
            (Ok(valid), _) => {
                let Window { low, high, mint, maxt, .. } = valid.window;
                format!("{number} ok {low} {high} {mint} {maxt}\n")
            }
            (Err(refusal), None) => format!("{number} refused {}\n", refusal.code()),
            (Err(refusal), Some(place)) => {
                format!("{number} refused {} {}\n", refusal.code(), place.at)
            }
        };
    }
    lines
        + &report::run_of(records)
            .map_or("run none\n".into(), |(first, last)| format!("run {first} {last}\n"))
}

#[cfg(test)]
mod tests {
    use super::*;
    use crate::appendix;
    use crate::making::{self, Made};

    #[test]
    fn the_lines_are_those_of_the_document() {
        let mut made =
            making::pile_within(0..=2000, &[(1000, 10), (1500, 10), (1495, 1), (1400, 10)]);
        let head = "records 4\n0 ok 990 1010 0 2000\n1 ok 1490 1510 0 2000\n\
            2 ok 1494 1496 0 2000\n";
        let last = "3 ok 1390 1410 0 2000\nrun 2 3\n";
        assert_eq!(lines(&made.pile, &made.answers), format!("{head}{last}"));
        made.answers[7] = 0;
        assert_eq!(lines(&made.pile, &made.answers), format!("{head}3 refused 13\nrun none\n"));
        assert_eq!(lines(&[], &[]), "refused 15\n");
    }

    /// The draft's own report, and with a byte of its second key changed.
    #[test]
    fn a_pile_alone_is_told_by_its_signatures() {
        let Made { mut pile, answers } = appendix::pile();
        let due = lines(&pile, &answers);
        assert!(due.ends_with("run 0 1\n"), "{due}");
        assert_eq!(signed_lines(&pile), due);
        pile[pile::RECORD] ^= 1;
        let told = signed_lines(&pile);
        assert!(told.contains("\n1 refused 12\n") && told.ends_with("\nrun none\n"), "{told}");
        assert_eq!(signed_lines(&pile[1..]), "refused 15\n");
    }

    /// N of a response's outermost message is byte 12 of its packet.
    #[test]
    fn a_bad_message_is_told_with_its_place() {
        let mut made = making::pile_of(&[(1000, 10)]);
        made.pile[pile::at::RESPONSE + 12] = 0;
        assert_eq!(lines(&made.pile, &made.answers), "records 1\n0 refused 4 12\nrun none\n");
    }
}
