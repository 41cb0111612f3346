//! Whether some two of many windows contradict each other (draft 19, section 8.2; request P14), by
//! trying every pair of them.

use crate::pile;
use crate::refusal::Refusal;
use crate::report::{contradicts, time, Time};

/// Whether one of the windows `before` contradicts the one that comes after them.
pub fn an_earlier(before: &[Time], later: Time) -> bool {
    before.iter().any(|earlier| contradicts(*earlier, later))
}

/// Whether some two windows contradict each other, the earlier the later.
pub fn any(windows: &[Time]) -> bool {
    (0..windows.len()).any(|place| an_earlier(&windows[..place], windows[place]))
}

/// Whether some two valid records of a pile do, whatever stands between them.
pub fn in_pile(pile: &[u8], answers: &[u8]) -> Result<(), Refusal> {
    let records = pile::read(pile, answers)?;
    let valid: Vec<Time> = records.iter().filter_map(|record| time(*record).ok()).collect();
    any(&valid).then_some(()).ok_or(Refusal::NoContradiction)
}

#[cfg(test)]
mod tests {
    use super::*;
    use crate::making::pile_of;
    use crate::report;

    const LAST: u64 = u64::MAX;

    /// Examples 1 to 7 of the document, as far as they are about windows, and the ends of time.
    #[test]
    fn the_windows_of_the_document() {
        for (windows, due) in [
            (&[][..], false),
            (&[(1000, 5)], false),
            (&[(1000, 5), (990, 5)], false),
            (&[(1000, 5), (990, 4)], true),
            (&[(990, 4), (1000, 5)], false),
            (&[(3, 10), (0, 1)], false),
            (&[(3, 10), (0, 0)], false),
            (&[(LAST, 1), (LAST, 1)], false),
            (&[(LAST, 1), (LAST - 2, 1)], false),
            (&[(LAST, 1), (LAST - 3, 1)], true),
            (&[(1000, 10), (1500, 10), (1495, 1), (1400, 10)], true),
            (&[(100, 1), (90, 1), (80, 1)], true),
            (&[(100, 1), (95, 20), (80, 1)], true),
            (&[(100, 1), (95, 20)], false),
            (&[(95, 20), (80, 1)], false),
        ] {
            assert_eq!(any(windows), due, "{windows:?}");
        }
    }

    /// Example 7, and the same with its middle record refused: no run is found then, but the two
    /// others contradict each other still.
    #[test]
    fn a_contradiction_needs_no_run() {
        let mut made = pile_of(&[(100, 1), (95, 20), (80, 1)]);
        assert_eq!(in_pile(&made.pile, &made.answers), Ok(()));
        made.answers[3] = 0;
        assert_eq!(in_pile(&made.pile, &made.answers), Ok(()));
        assert_eq!(report::run(&made.pile, &made.answers), Err(Refusal::NoContradiction));
        made.answers[5] = 0;
        assert_eq!(in_pile(&made.pile, &made.answers), Err(Refusal::NoContradiction));
        made.answers[5] = 2;
        assert_eq!(in_pile(&made.pile, &made.answers), Err(Refusal::Pile));
    }
}
