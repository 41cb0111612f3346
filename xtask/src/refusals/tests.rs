//! A run of two wrong programs, and what can become of it. The errors are as rt tells them.

use super::*;
use crate::testing::{found, Scratch};

const FALSE: &str = "./P.antt:26:82: error: `loop-again`: computed as far as they go, the two \
    types differ only where one has `1` (expected) and the other has `0` (found)\n  expected type \
    `Path`\n";

const NOTED: &str = "note: src/lib.rt:26:1: it is not proved that what the function ensures holds \
    when it returns (`returns`)\nnote: what antt said of a `search` in the proof that rattle made: \
    src/lib.rt:26:8: `returns`: `search`: no proof of `reads.Post`\n  was found. Every way was \
    tried: a deeper search would find nothing either.\n";

const SAID: &str = "rt: a proved\n\
    rt: must-fail a/one.edit: refused, as it must be: ./proofs/up/Answers.antt:26:82: error: \
    `loop-again`: computed as far as they go, the two types differ only where one has `1` (exp\n\
    rt: must-fail a/two.edit: refused, as it must be: ./proofs/two/Answers.antt:7:8: error: \
    `returns`: `search`: no proof of `reads.Post`\n";

const KEPT: &str = "a/one proofs/up/Answers.antt false\na/two proofs/two/Answers.antt unsolved\n";

fn right() -> Scratch {
    Scratch::new(&[
        ("crates/a/must-fail/one.edit", ""),
        ("crates/a/must-fail/two.edit", ""),
        ("said", SAID),
        (LIST, KEPT),
    ])
}

fn checked(scratch: &Scratch, flags: &[&str]) -> Verdict {
    let said = scratch.tree().path("said").to_string_lossy().into_owned();
    check(&scratch.tree(), &[flags, &[said.as_str()]].concat())
}

/// The kind of a first error with this behind the name of its fact.
fn kind_of(fact: &str, words: &str) -> Kind {
    Kind::of(&format!(": ./proofs/P.antt:1:2: error: `{fact}`: {words}"))
}

#[test]
fn a_run_as_it_is_kept_passes_and_its_kinds_are_told() {
    assert_eq!(checked(&right(), &[]).unwrap(), "2 wrong programs: 1 false, 1 unsolved");
}

#[test]
fn another_file_is_found() {
    let scratch = right();
    scratch.alter("said", "proofs/up/", "proofs/low/");
    let problems = found(checked(&scratch, &[]));
    let due =
        "tools/refusals.txt:1: a/one was refused in proofs/up/Answers.antt (false), and is in \
        proofs/low/Answers.antt (false) now, by ";
    assert_eq!(problems.len(), 1);
    assert!(problems[0].starts_with(due), "{problems:?}");
    assert!(problems[0].contains("said:2: read again"), "{problems:?}");
}

#[test]
fn another_kind_is_found_with_the_place_where_it_is_told() {
    let scratch = right();
    scratch.alter("said", "no proof of `reads.Post`", "its count of 1000 was spent");
    let problems = found(checked(&scratch, &[]));
    let due =
        "tools/refusals.txt:2: a/two was refused in proofs/two/Answers.antt (unsolved), and is in \
        proofs/two/Answers.antt (bound) now, by ";
    assert_eq!(problems.len(), 1);
    assert!(problems[0].starts_with(due), "{problems:?}");
    assert!(problems[0].contains("said:3: read again"), "{problems:?}");
}

#[test]
fn a_kind_that_nobody_has_read_is_found() {
    let scratch = right();
    scratch.alter(LIST, "Answers.antt false", "Answers.antt unread");
    let problems = found(checked(&scratch, &[]));
    let due = "Answers.antt (unread), and is in proofs/up/Answers.antt (false) now";
    assert!(problems[0].contains(due), "{problems:?}");
}

#[test]
fn one_that_is_merely_unfit_is_an_error_though_the_list_has_it_so() {
    let scratch = right();
    scratch.alter(
        "said",
        "be: ./proofs",
        "be (only because a proof file names what the edit took away, so): ./proofs",
    );
    scratch.alter(LIST, "Answers.antt false", "Answers.antt unfit");
    let problems = found(checked(&scratch, &[]));
    assert_eq!(problems.len(), 1);
    assert!(problems[0].contains("said:2: a/one only shows"));
    assert_eq!(found(checked(&scratch, &["--write"])).len(), 1);
}

#[test]
fn what_the_list_lacks_or_has_too_many_is_found() {
    let scratch = right();
    scratch.put(LIST, "a/one proofs/up/Answers.antt false\na/three src/lib.rt false\n");
    let problems = found(checked(&scratch, &[]));
    assert_eq!(problems.len(), 2);
    assert_eq!(problems[0], "tools/refusals.txt:2: there is no wrong program a/three");
    assert!(problems[1].starts_with("tools/refusals.txt: lacks a/two"));
}

#[test]
fn each_that_the_run_lacks_is_found() {
    let scratch = right();
    scratch.alter("said", "a/one.edit: refused", "a/one.edit: NOT REFUSED");
    scratch.alter("said", "a/two.edit: refused", "a/two.edit: BAD EDIT");
    let problems = found(checked(&scratch, &["--write"]));
    assert_eq!(problems.len(), 2);
    assert!(problems[0].ends_with("said: does not have a/one as refused"));
    assert!(problems[1].ends_with("said: does not have a/two as refused"));
    assert_eq!(scratch.tree().read(LIST).unwrap(), KEPT);
}

#[test]
fn the_list_is_written_anew() {
    let scratch = right();
    scratch.put(LIST, "");
    assert!(checked(&scratch, &["--write"]).is_ok());
    assert_eq!(scratch.tree().read(LIST).unwrap(), KEPT);
}

#[test]
fn facts_that_are_false_are_of_that_kind() {
    for words in [
        "`omega`: the goal does not follow from what it read. All of that holds, and the goal \
         fails, at `x`\n  = 1. It read 10 hypotheses",
        "as printed, the two types first differ where one has `a` (expected), at the start",
        "give a proof of that as the last argument, `rw L t`\n  `rw` has no last argument, so what \
         it leaves must be a path whose two ends are equal, and `Path` is none",
        "`a`\n  ≟ `b`\n  does not hold (this comparison had to wait for a metavariable)",
        "`omega`: the goal does not follow from what it read. All of th",
        "expected type `body (packet_of m) ≡ m`, but this ha",
        "this `code-15` lands at index `record {code = 15; at = 0}` (position 1) but the expected",
    ] {
        assert_eq!(kind_of("returns-2", words), Kind::False, "{words}");
    }
}

#[test]
fn a_search_that_ends_is_told_from_one_that_meets_a_bound() {
    let words = "`search`: no proof of `x`\n  was found. Every way was tried";
    assert_eq!(kind_of("returns", words), Kind::Unsolved);
    let words = "`rw`: no occurrence of the path's left endpoint in the goal: write the family";
    assert_eq!(kind_of("returns", words), Kind::Unsolved);
    let words =
        "give a proof of that as the last argument, `rw L t`\n  `rw` has no last argument, so";
    assert_eq!(kind_of("returns", words), Kind::Unsolved);
    let words = "`grw`: this rule rewrites nothing in the goal `Same x y`.";
    assert_eq!(kind_of("sum-y", words), Kind::Unsolved);
    let words = "`search`: no proof of `x`\n  was found: its count of 1000 was spent";
    assert_eq!(kind_of("returns", words), Kind::Bound);
    let words = "as printed, the two types first differ, computed as far as they go, the two types first \
        differ where one has `Prim.Native.Nat.ℕ` (expected) and the other has `mathlib.Core.Bool.Bool`";
    assert_eq!(kind_of("good-of", words), Kind::Unfit);
    let words = "stopped at the step limit (1000 steps)";
    assert_eq!(kind_of("returns", words), Kind::Bound);
    let words = "`cc` met a bound of its own before the equations had joined `a`";
    assert_eq!(kind_of("returns", words), Kind::Bound);
}

#[test]
fn what_rt_says_of_an_error_comes_first() {
    let limit =
        " (only by a limit of the prover, which gave no verdict): proofs/P.antt:1:2: error: x";
    assert_eq!(Kind::of(limit), Kind::Bound);
    let noted = ": note: src/lib.rt:28:1: it is not proved that what the function ensures holds \
        (`returns`); the facts known there allow values at which this goal ";
    assert_eq!(Kind::of(noted), Kind::False);
    assert_eq!(Kind::of(""), Kind::Other);
}

#[test]
fn what_a_callee_requires_is_a_kind_of_its_own() {
    let words = "`search`: no proof of `x`\n  was found. Every way was tried";
    assert_eq!(kind_of("write-all-requires", words), Kind::Requires);
    assert_eq!(kind_of("write-all-requires-2", words), Kind::Requires);
    assert_eq!(kind_of("write-all-requires-2", "`x` is not in scope"), Kind::Unfit);
    let note = ": note: src/lib.rt:3:5: it is not proved that what it requires holds \
        (`put-requires`); the facts known there allow values at which this goal ";
    assert_eq!(Kind::of(note), Kind::Requires);
}

#[test]
fn a_goal_that_has_no_answer_is_unfit() {
    let scratch = right();
    let noted = "src/lib.rt:26:1: it is not proved that what the function ensures holds when it \
        returns (`returns-then-bit-ne0`)";
    let answer =
        "./proofs/two/Answers.antt:7:8: error: `returns`: `search`: no proof of `reads.Post`";
    scratch.alter("said", answer, &format!("note: {noted}"));
    let problems = found(checked(&scratch, &[]));
    assert!(problems.iter().any(|it| it.contains("said:3: a/two only shows")), "{problems:?}");
}

#[test]
fn what_does_not_fit_is_unfit_and_what_is_new_is_other() {
    for words in [
        "`tie`: module `Tie` has no `Need-returns-3` that can be named from here",
        "`turn16` is not a field of record `Known`",
        "this λ has 2 binders, but its type has room for only 1: at `κs` the type is `x`",
        "`close` was not admitted (it has holes or undetermined implicits, or was rejected)",
        "`miss` is not in scope: not a local variable, nor a definition admitted earlier",
    ] {
        assert_eq!(kind_of("returns", words), Kind::Unfit, "{words}");
    }
    for unread in
        ["expected a term, found `)`", "module `Tie` has no `x` that can be named from here"]
    {
        assert_eq!(Kind::of(&format!("/x/P.antt:1:2: error: {unread}")), Kind::Unfit, "{unread}");
    }
    assert_eq!(kind_of("returns", "words that nobody has read yet"), Kind::Other);
}

/// Two wrong programs that are tried together, of which one changes a function with a proof, and the
/// other one whose proof is rattle's own.
fn together() -> Scratch {
    let edit = "program: up\n# more\nfile: src/lib.rt\nold: x + 1\nnew: x + 2\n\
        program: down\n# less\nfile: src/low/down.rt\nold: y - 1\nnew: y - 2\n";
    let of_up = FALSE.replace("./P.antt", "./proofs/up/Answers.antt");
    let of_down = NOTED.replace("src/lib.rt:26", "src/low/down.rt:3");
    let scratch = Scratch::new(&[
        ("crates/a/must-fail/both.edit", edit),
        ("crates/a/src/lib.rt", "mod low;\npub fn up(x: u8) -> u8\n{\n    x + 1\n}\n"),
        ("crates/a/src/low/down.rt", "fn z() {\n}\nfn down(y: u8) -> u8 {\n    y - 1\n}\n"),
        (
            "said",
            "rt: must-fail a/both.edit: refused, as it must be: note: src/low/down.rt:3:1: it\n",
        ),
        (LIST, "a/down src/low/down.rt unsolved\na/up proofs/up/Answers.antt false\n"),
    ]);
    scratch.put("build/together/a/both", &format!("{of_down}{of_up}"));
    scratch
}

#[test]
fn of_two_that_are_tried_together_each_has_its_own_error() {
    assert_eq!(checked(&together(), &[]).unwrap(), "2 wrong programs: 1 false, 1 unsolved");
}

#[test]
fn what_is_said_of_two_that_are_tried_together_must_be_there() {
    let scratch = together();
    scratch.remove("build/together/a/both");
    let problems = found(checked(&scratch, &[]));
    assert!(problems[0].starts_with("build/together/a/both cannot be read: "), "{problems:?}");
}

#[test]
fn one_of_two_that_has_no_error_of_its_own_is_found() {
    let log = "build/together/a/both";
    for (old, new) in [("proofs/up/", "proofs/low/up/"), ("down.rt:3:1: it", "down.rt:1:1: it")] {
        let scratch = together();
        scratch.alter(log, old, new);
        let problems = found(checked(&scratch, &[]));
        assert_eq!(problems.len(), 1, "{problems:?}");
        assert!(problems[0].contains("has no error of the function that a/"), "{problems:?}");
    }
}

#[test]
fn one_of_two_that_only_rests_on_the_other_is_unfit() {
    let scratch = together();
    let rests = "./proofs/up/Answers.antt:7:3: error: `returns`: `met` was not admitted\n";
    let of_down = NOTED.replace("src/lib.rt:26", "src/low/down.rt:3");
    scratch.put("build/together/a/both", &format!("{of_down}{rests}"));
    let problems = found(checked(&scratch, &[]));
    assert!(problems[0].contains("a/up only shows that the proof no longer fits"), "{problems:?}");
}

#[test]
fn an_error_of_a_fact_goes_before_one_of_a_name_that_is_gone() {
    let scratch = together();
    let log = "build/together/a/both";
    let text = scratch.tree().read(log).unwrap();
    let gone = "./proofs/up/Answers.antt:7:3: error: `returns-2`: `goal` has no `returns-2`\n";
    scratch.put(log, &format!("{gone}{text}"));
    assert_eq!(checked(&scratch, &[]).unwrap(), "2 wrong programs: 1 false, 1 unsolved");
}

#[test]
fn two_that_change_one_function_are_found() {
    let scratch = together();
    let edit = "crates/a/must-fail/both.edit";
    scratch.alter(edit, "file: src/low/down.rt\nold: y - 1", "file: src/lib.rt\nold: { x");
    scratch.alter("crates/a/src/lib.rt", "{\n    x + 1", "{ x\n    x + 1");
    scratch.put(LIST, "a/down proofs/up/Answers.antt false\na/up proofs/up/Answers.antt false\n");
    let problems = found(checked(&scratch, &[]));
    assert_eq!(problems.len(), 1, "{problems:?}");
    assert!(problems[0].ends_with("a/down and a/up change one function: try them apart"));
}

#[test]
fn what_changes_more_than_a_function_is_to_be_tried_alone() {
    let edit = "crates/a/must-fail/both.edit";
    for (new, why) in [
        ("old: mod low;\nnew: ;\nprogram: down", "changes code that is in no function"),
        ("file: src/low/down.rt\nold: fn z() {\nnew: x\nprogram: down", "changes two functions"),
        (
            "file: specs/A.antt\nold: x\nnew: y\nprogram: down",
            "changes what other functions rest on",
        ),
    ] {
        let scratch = together();
        scratch.alter(edit, "program: down", new);
        let problems = found(checked(&scratch, &[]));
        assert_eq!(problems.len(), 1, "{problems:?}");
        assert!(
            problems[0].ends_with(&format!("a/up is to be tried alone: it {why}")),
            "{problems:?}"
        );
    }
}
