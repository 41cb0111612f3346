//! What a check hands back.

/// Why a check does not pass: its words are wrong, or these things are.
#[derive(Debug, PartialEq)]
pub enum Wrong {
    Usage,
    Found(Vec<String>),
}

pub type Checked<T> = Result<T, Wrong>;

/// One line on what was held, where nothing is wrong.
pub type Verdict = Checked<String>;

impl Wrong {
    pub fn one(problem: String) -> Wrong {
        Wrong::Found(vec![problem])
    }
}

/// What is wrong, with the place where it stands.
pub fn at(file: &str, line: usize, what: &str) -> String {
    format!("{file}:{line}: {what}")
}

/// Passes with these words where there is no problem.
pub fn unless(problems: Vec<String>, said: String) -> Verdict {
    if problems.is_empty() {
        Ok(said)
    } else {
        Err(Wrong::Found(problems))
    }
}

/// For a check that takes no words.
pub fn no_words(words: &[&str]) -> Checked<()> {
    if words.is_empty() {
        Ok(())
    } else {
        Err(Wrong::Usage)
    }
}

/// For a check that takes the flag --write and nothing else: whether it is there.
pub fn write_flag(words: &[&str]) -> Checked<bool> {
    match words {
        [] => Ok(false),
        ["--write"] => Ok(true),
        _ => Err(Wrong::Usage),
    }
}

#[cfg(test)]
mod tests {
    use super::*;

    #[test]
    fn it_passes_only_with_no_problem() {
        assert_eq!(unless(vec![], "all is well".into()), Ok("all is well".into()));
        let problem = at("a.md", 3, "has it twice");
        assert_eq!(problem, "a.md:3: has it twice");
        assert_eq!(unless(vec![problem.clone()], String::new()), Err(Wrong::one(problem)));
    }

    #[test]
    fn other_words_are_misuse() {
        assert_eq!(write_flag(&["--write"]), Ok(true));
        assert_eq!(write_flag(&[]), Ok(false));
        assert_eq!(write_flag(&["--keep"]), Err(Wrong::Usage));
        assert_eq!(no_words(&["x"]), Err(Wrong::Usage));
    }
}
