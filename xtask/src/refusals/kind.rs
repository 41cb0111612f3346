//! Of which kind a first error is, by the words of rt's prover.

/// Why a wrong program was refused.
#[derive(Clone, Copy, Debug, PartialEq)]
pub enum Kind {
    /// A fact is false: two sides computed differ, or numbers are shown at which the goal fails.
    False,
    /// A search tried every way and found no proof.
    Unsolved,
    /// What a callee requires is not shown.
    Requires,
    /// A search, or `cc`, ended at a bound of its own.
    Bound,
    /// The proof does not fit the code: a fact that is not asked for, a name that is not there.
    Unfit,
    /// None of these.
    Other,
    /// In the list alone: of what kind it is nobody has read yet.
    Unread,
}

/// Words of an error, and what they show. The first that is found decides.
const SHOWN: [(&str, Kind); 38] = [
    // What rt says of it itself.
    (" (only because a proof file names what the edit took away", Kind::Unfit),
    (" (only by a limit of the prover", Kind::Bound),
    ("` has no `", Kind::Unfit),
    ("` has no member", Kind::Unfit),
    (" has no field ", Kind::Unfit),
    ("no field `", Kind::Unfit),
    ("` is not a field", Kind::Unfit),
    ("exports no ", Kind::Unfit),
    ("is not in scope", Kind::Unfit),
    ("was not admitted", Kind::Unfit),
    ("binders, but its type has room for", Kind::Unfit),
    ("not a function type", Kind::Unfit),
    ("not a function or extension", Kind::Unfit),
    ("is not a record", Kind::Unfit),
    ("expected type `tie.Need-", Kind::Unfit),
    // A fact about another thing stands there: the proof reads another step of the code.
    ("`Prim.Native.Nat.ℕ` (expected) and the other has `mathlib.Core.Bool.Bool`", Kind::Unfit),
    (" was spent", Kind::Bound),
    (" met a bound", Kind::Bound),
    ("stopped at the step limit", Kind::Bound),
    ("a larger step limit", Kind::Bound),
    // rt tells no more than the first letters of an error, and may end within these words.
    ("from what it read. All", Kind::False),
    ("the facts known there allow", Kind::False),
    ("computed as far as they go, the two ", Kind::False),
    ("as printed, the two ", Kind::False),
    ("must be a path whose two ends are equal", Kind::False),
    ("turned out false", Kind::False),
    // A case of a definition says another value than is due.
    ("` lands at index `", Kind::False),
    ("does not hold", Kind::False),
    ("but this has type `", Kind::False),
    (": expected type `", Kind::False),
    ("no proof of `", Kind::Unsolved),
    ("`omega`: ", Kind::Unsolved),
    ("`cc`: ", Kind::Unsolved),
    // An equation that a right program needs has nothing to rewrite in the goal of a wrong one.
    ("`rw`: no occurrence of the path's left endpoint", Kind::Unsolved),
    // What is left of a goal once it is simplified, or rewritten.
    ("give a proof of that as the last argument, `simp L t`", Kind::Unsolved),
    ("give a proof of that as the last argument, `rw L t`", Kind::Unsolved),
    // No answer has this goal's name, so that an answer to it is missing.
    (": it is not proved that ", Kind::Unfit),
    ("`grw`: this rule rewrites nothing in the goal", Kind::Unsolved),
];

impl Kind {
    pub const ALL: [Kind; 7] = [
        Kind::False,
        Kind::Unsolved,
        Kind::Requires,
        Kind::Bound,
        Kind::Unfit,
        Kind::Other,
        Kind::Unread,
    ];

    pub fn word(self) -> &'static str {
        match self {
            Kind::False => "false",
            Kind::Unsolved => "unsolved",
            Kind::Requires => "requires",
            Kind::Bound => "bound",
            Kind::Unfit => "unfit",
            Kind::Other => "other",
            Kind::Unread => "unread",
        }
    }

    pub fn named(word: &str) -> Option<Kind> {
        Kind::ALL.into_iter().find(|kind| kind.word() == word)
    }

    /// The kind of an error, with what rt makes of it before it in brackets. One that is about no fact
    /// is about the text, as where the prover cannot read it.
    pub fn of(error: &str) -> Kind {
        let about_fact = error.starts_with(" (") || error.contains(": error: `");
        if error.contains(": error: ") && !about_fact {
            return Kind::Unfit;
        }
        let shown = SHOWN.iter().find(|(words, _)| error.contains(words));
        let kind = shown.map_or(Kind::Other, |(_, kind)| *kind);
        let of_callee = matches!(kind, Kind::False | Kind::Unsolved) && is_requires(fact(error));
        if of_callee {
            Kind::Requires
        } else {
            kind
        }
    }
}

/// The name of the fact that an error is about: the first one in backquotes behind `error: `, or of
/// a note that in brackets.
fn fact(error: &str) -> &str {
    let behind = error.split_once(": error: `").or_else(|| error.split_once("(`"));
    behind.map_or("", |(_, rest)| rest).split('`').next().unwrap_or_default()
}

/// Whether a fact is what a callee requires: its name ends so, or so and with a number.
fn is_requires(fact: &str) -> bool {
    let plain = fact.trim_end_matches(|c: char| c.is_ascii_digit()).trim_end_matches('-');
    fact.ends_with("-requires") || plain.ends_with("-requires")
}
