//! The first error of a log of rt's.

/// The line of a log that the first error that is wanted, or note on the code, begins on, and all
/// of it: up to the next error or note. Where the proof was rattle's own, there is no error but a
/// note on the code, and what was said of the search for that proof stands in the note after it.
/// General advice is no part of either.
pub fn error_where(log: &str, wanted: &dyn Fn(&str) -> bool) -> Option<(usize, String)> {
    let lines: Vec<&str> = log.lines().collect();
    let start = lines.iter().position(|line| wanted(line))?;
    let ends = |line: &str| match is_error(lines[start]) {
        true => is_error(line) || is_note(line),
        false => is_advice(line) || is_error(line) || on_code(line),
    };
    Some((start + 1, up_to(&lines[start..], ends)))
}

/// These lines as far as the first behind the start at which an error ends.
fn up_to(lines: &[&str], ends: impl Fn(&str) -> bool) -> String {
    let after = |line: &str| {
        ends(line)
            || ["fn ", "struct ", "help: ", "logic"].iter().any(|word| line.starts_with(word))
    };
    let count = lines.iter().skip(1).take_while(|line| !after(line)).count();
    lines.iter().take(count + 1).copied().collect::<Vec<_>>().join("\n")
}

/// A line that begins with a file's place, and then one of these.
fn placed(line: &str, word: &str) -> bool {
    line.split_once(' ')
        .map_or(false, |(place, rest)| place.ends_with(':') && rest.starts_with(word))
}

pub fn is_error(line: &str) -> bool {
    placed(line, "error")
}

fn is_note(line: &str) -> bool {
    placed(line, "note") || line.starts_with("note: ")
}

fn is_advice(line: &str) -> bool {
    line.starts_with("note: antt's advice")
}

/// As `note: FILE:LINE:COLUMN: words`.
pub fn on_code(line: &str) -> bool {
    let place = line.strip_prefix("note: ").and_then(|rest| rest.split(' ').next());
    place.map_or(false, |place| place.ends_with(':') && place.matches(':').count() == 3)
}

#[cfg(test)]
mod tests {
    use super::*;

    fn of(log: &str, wanted: fn(&str) -> bool) -> (usize, String) {
        error_where(log, &wanted).unwrap()
    }

    #[test]
    fn an_error_ends_where_the_next_one_or_a_note_begins() {
        let log = "fn a: proved\n/x/P.antt:9:25: error: `returns`: one\n  two\n\
            /x/P.antt:9:13: note: three\n/x/P.antt:10:1: error: four\n";
        assert_eq!(of(log, is_error), (2, "/x/P.antt:9:25: error: `returns`: one\n  two".into()));
        let log = "/x/P.antt:9:25: error: one\nnote: antt's advice: was spent\n";
        assert_eq!(of(log, is_error), (1, "/x/P.antt:9:25: error: one".into()));
        let log = "/x/P.antt:9:25: error: one\nfn x: not proved\n";
        assert_eq!(of(log, is_error), (1, "/x/P.antt:9:25: error: one".into()));
    }

    #[test]
    fn a_note_on_the_code_comes_with_what_was_said_of_the_search() {
        let log = "note: no function\nnote: /x/lib.rt:26:1: it is not proved (`returns`)\n\
            note: what antt said: no proof of `x`\n  was found.\nnote: antt's advice: was spent\n";
        let due = "note: /x/lib.rt:26:1: it is not proved (`returns`)\n\
            note: what antt said: no proof of `x`\n  was found.";
        assert_eq!(of(log, on_code), (2, due.into()));
    }
}
