//! The version has one place, the file VERSION, and stands in some others too. This fails where
//! another place says anything else; --write writes it into them, but for CHANGELOG.md, whose words
//! are people's. What ./install makes has it from VERSION.

use crate::report::{at, unless, write_flag, Checked, Verdict, Wrong};
use crate::scan::{is_all, numbered};
use crate::tree::Tree;
use crate::whole;

/// How much of the version stands at a place.
#[derive(Clone, Copy)]
enum Part {
    All,
    Major,
    Minor,
}

/// Where the version stands: a file, what its line begins with, where * is anything but a quote,
/// and which of the numbers follow. In a lock file it is the first such line behind our package's
/// name.
struct Place {
    file: &'static str,
    before: &'static str,
    part: Part,
    locked: bool,
}

const fn place(file: &'static str, before: &'static str, part: Part) -> Place {
    Place { file, before, part, locked: false }
}

const fn lock(file: &'static str) -> Place {
    Place { file, before: "version = \"", part: Part::All, locked: true }
}

const PACKAGE: &str = "name = \"trawlbeacon\"";

const PLACES: [Place; 12] = [
    place("include/trawlbeacon.h", "#define TB_VERSION_MAJOR ", Part::Major),
    place("include/trawlbeacon.h", "#define TB_VERSION_MINOR ", Part::Minor),
    place("tools/exports.map", "TRAWLBEACON_", Part::Major),
    place("hosts/rust/Cargo.toml", "version = \"", Part::All),
    place("hosts/js/package.json", "  \"version\": \"", Part::All),
    place("man/trawl.1", ".TH TRAWL 1 \"*\" \"Trawlbeacon ", Part::All),
    place("programs/trawld/Cargo.toml", "version = \"", Part::All),
    place("man/trawld.8", ".TH TRAWLD 8 \"*\" \"Trawlbeacon ", Part::All),
    place("hosts/python/trawlbeacon/__init__.py", "__version__ = \"", Part::All),
    place("hosts/python/trawlbeacon/_library.py", "NAME = \"libtrawlbeacon.so.", Part::Major),
    lock("Cargo.lock"),
    lock("hosts/bare/Cargo.lock"),
];

const CHANGES: &str = "CHANGELOG.md";

pub fn check(tree: &Tree, words: &[&str]) -> Verdict {
    let write = write_flag(words)?;
    let version = version(tree)?;
    let mut problems = Vec::new();
    for place in &PLACES {
        if write {
            place.write(tree, &version)?;
        }
        problems.extend(place.problem(tree, &version)?);
    }
    problems.extend(changes(tree, &version)?);
    let others = PLACES.len();
    unless(problems, format!("{version}, in {others} other places, and first in {CHANGES}"))
}

fn version(tree: &Tree) -> Checked<String> {
    let text = tree.read("VERSION")?;
    let version = text.trim_end_matches('\n');
    let numbers: Vec<&str> = version.split('.').collect();
    if numbers.len() == 3 && numbers.iter().all(|one| is_all(one, |c| c.is_ascii_digit())) {
        return Ok(version.into());
    }
    Err(Wrong::one(at("VERSION", 1, &format!("holds '{version}', and that is not three numbers"))))
}

impl Place {
    fn due<'a>(&self, version: &'a str) -> &'a str {
        let mut numbers = version.split('.');
        match self.part {
            Part::All => version,
            Part::Major => numbers.next().unwrap_or_default(),
            Part::Minor => numbers.nth(1).unwrap_or_default(),
        }
    }

    /// The lines that have a version here, and where in them it begins and ends.
    fn found(&self, text: &str) -> Vec<(usize, usize, usize)> {
        let mut inside = !self.locked;
        let mut found = Vec::new();
        for (number, line) in numbered(text) {
            if self.locked && line == PACKAGE {
                inside = true;
            }
            if let (true, Some(start)) = (inside, behind(line, self.before)) {
                let rest = &line[start..];
                let end =
                    rest.find(|c: char| c != '.' && !c.is_ascii_digit()).unwrap_or(rest.len());
                if end > 0 {
                    found.push((number, start, start + end));
                    inside = !self.locked;
                }
            }
        }
        found
    }

    fn problem(&self, tree: &Tree, version: &str) -> Checked<Option<String>> {
        let text = tree.read(self.file)?;
        let due = self.due(version);
        let lines: Vec<&str> = text.lines().collect();
        Ok(match self.found(&text)[..] {
            [(number, start, end)] => {
                let line = lines[number - 1];
                let whole = matches!(line[end..].chars().next(), None | Some('"'));
                let said = line[start..].split('"').next().unwrap_or_default();
                let what = format!("has '{said}', and by VERSION it should have {due}");
                (&line[start..end] != due || !whole).then(|| at(self.file, number, &what))
            }
            [] => Some(format!("{}: has no version behind {:?}", self.file, self.before)),
            [_, (number, ..), ..] => Some(at(self.file, number, "has the version once more")),
        })
    }

    fn write(&self, tree: &Tree, version: &str) -> Checked<()> {
        let text = tree.read(self.file)?;
        let mut lines: Vec<String> = text.lines().map(String::from).collect();
        for (number, start, end) in self.found(&text) {
            lines[number - 1].replace_range(start..end, self.due(version));
        }
        let new = lines.join("\n") + "\n";
        if new == text {
            return Ok(());
        }
        whole::put(&tree.path(self.file), new.as_bytes())
    }
}

/// Where a line goes on behind this beginning.
fn behind(line: &str, before: &str) -> Option<usize> {
    let Some((first, last)) = before.split_once('*') else {
        return line.starts_with(before).then_some(before.len());
    };
    let rest = line.strip_prefix(first)?;
    let skipped = rest.find('"')?;
    rest[skipped..].starts_with(last).then(|| first.len() + skipped + last.len())
}

fn changes(tree: &Tree, version: &str) -> Checked<Option<String>> {
    let text = tree.read(CHANGES)?;
    let first = numbered(&text).find_map(|(number, line)| {
        let rest = line.strip_prefix("## ")?;
        let end = rest.find(|c: char| c != '.' && !c.is_ascii_digit()).unwrap_or(rest.len());
        (end > 0).then(|| (number, rest[..end].to_string()))
    });
    let (number, first) = first.unwrap_or((1, String::from("none")));
    let what = format!("its first version is {first}, and by VERSION it should be {version}");
    Ok((first != version).then(|| at(CHANGES, number, &what)))
}

#[cfg(test)]
mod tests {
    use super::*;
    use crate::testing::{found, Scratch};

    const LOCK: &str = "[[package]]\nname = \"other\"\nversion = \"0.1.0\"\n\n[[package]]\n\
        name = \"trawlbeacon\"\nversion = \"1.2.3\"\n\n\
        [[package]]\nname = \"x\"\nversion = \"9.9.9\"\n";

    fn right() -> Scratch {
        let header = "#define TB_VERSION_MAJOR 1\n#define TB_VERSION_MINOR 2\n";
        Scratch::new(&[
            ("VERSION", "1.2.3\n"),
            ("include/trawlbeacon.h", header),
            ("tools/exports.map", "TRAWLBEACON_1\n{\n};\n"),
            ("hosts/rust/Cargo.toml", "[package]\nversion = \"1.2.3\"\n"),
            ("hosts/js/package.json", "{\n  \"version\": \"1.2.3\"\n}\n"),
            ("man/trawl.1", ".TH TRAWL 1 \"a day\" \"Trawlbeacon 1.2.3\" \"\"\n"),
            ("programs/trawld/Cargo.toml", "[package]\nversion = \"1.2.3\"\n"),
            ("man/trawld.8", ".TH TRAWLD 8 \"a day\" \"Trawlbeacon 1.2.3\" \"\"\n"),
            ("hosts/python/trawlbeacon/__init__.py", "__version__ = \"1.2.3\"\n"),
            ("hosts/python/trawlbeacon/_library.py", "NAME = \"libtrawlbeacon.so.1\"\n"),
            ("Cargo.lock", LOCK),
            ("hosts/bare/Cargo.lock", LOCK),
            (CHANGES, "# What changed\n\n## 1.2.3\n\n## 0.9.0\n"),
        ])
    }

    #[test]
    fn the_same_version_everywhere_passes() {
        let said = check(&right().tree(), &[]).unwrap();
        assert_eq!(said, "1.2.3, in 12 other places, and first in CHANGELOG.md");
    }

    #[test]
    fn another_version_is_found_at_each_place() {
        let others = [
            ("include/trawlbeacon.h", "MAJOR 1", "MAJOR 2", 1),
            ("include/trawlbeacon.h", "MINOR 2", "MINOR 1", 2),
            ("tools/exports.map", "_1", "_2", 1),
            ("hosts/rust/Cargo.toml", "1.2.3", "1.2.4", 2),
            ("hosts/js/package.json", "1.2.3", "1.2.4", 2),
            ("man/trawl.1", "1.2.3", "1.2", 1),
            ("programs/trawld/Cargo.toml", "1.2.3", "1.2.4", 2),
            ("man/trawld.8", "1.2.3", "1.2", 1),
            ("hosts/python/trawlbeacon/__init__.py", "1.2.3", "1.2.4", 1),
            ("hosts/python/trawlbeacon/_library.py", "so.1", "so.2", 1),
            ("Cargo.lock", "1.2.3", "1.2.3-rc", 7),
            ("hosts/bare/Cargo.lock", "1.2.3", "1.2.30", 7),
            (CHANGES, "1.2.3", "1.2.4", 3),
        ];
        for (file, old, new, line) in others {
            let tree = right();
            tree.alter(file, old, new);
            let problems = found(check(&tree.tree(), &[]));
            assert_eq!(problems.len(), 1, "{problems:?}");
            assert!(problems[0].starts_with(&format!("{file}:{line}: ")), "{problems:?}");
            assert!(problems[0].contains("by VERSION it should"), "{problems:?}");
        }
    }

    #[test]
    fn a_place_that_is_gone_or_there_twice_is_found() {
        let tree = right();
        tree.alter("man/trawl.1", ".TH", ".SH");
        assert!(found(check(&tree.tree(), &[]))[0].starts_with("man/trawl.1: has no version"));
        let tree = right();
        tree.put("hosts/rust/Cargo.toml", "version = \"1.2.3\"\nversion = \"1.2.3\"\n");
        let due = "hosts/rust/Cargo.toml:2: has the version once more";
        assert_eq!(found(check(&tree.tree(), &[])), [due]);
    }

    #[test]
    fn what_is_not_three_numbers_is_no_version() {
        for other in ["1.2\n", "1.2.x\n", "1.2.3.4\n", "\n", "1..3\n"] {
            let tree = right();
            tree.put("VERSION", other);
            assert!(found(check(&tree.tree(), &[]))[0].contains("is not three numbers"));
        }
    }

    #[test]
    fn it_is_written_to_all_places_but_the_list_of_changes() {
        let tree = right();
        tree.put("VERSION", "2.10.0\n");
        let problems = found(check(&tree.tree(), &["--write"]));
        assert_eq!(problems.len(), 1, "{problems:?}");
        assert!(problems[0].starts_with("CHANGELOG.md:3: its first version is 1.2.3"));
        tree.alter(CHANGES, "1.2.3", "2.10.0");
        assert!(check(&tree.tree(), &[]).is_ok());
        let lock = tree.tree().read("Cargo.lock").unwrap();
        assert_eq!(lock, LOCK.replace("1.2.3", "2.10.0"));
    }
}
