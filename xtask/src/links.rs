//! A relative link in a document, a file *.md, leads to something. The documents are those of the
//! repository, or all below the folder that is named.

use crate::markdown::targets;
use crate::report::{at, unless, Checked, Verdict, Wrong};
use crate::tree::Tree;
use std::path::Path;

pub fn check(tree: &Tree, words: &[&str]) -> Verdict {
    let files = match words {
        [] => tree.files(),
        [folder] if !folder.starts_with('-') => tree.below(&here(folder)?),
        _ => return Err(Wrong::Usage),
    };
    let documents: Vec<String> = files.into_iter().filter(|file| file.ends_with(".md")).collect();
    let mut links = 0;
    let mut broken = Vec::new();
    for document in &documents {
        for (line, target) in relative(&tree.read(document)?) {
            links += 1;
            if !folder_of(&tree.path(document)).join(&target).exists() {
                broken.push(at(document, line, &format!("leads to nothing: {target}")));
            }
        }
    }
    if links == 0 {
        broken.push(String::from("there is no relative link at all"));
    }
    let count = documents.len();
    unless(broken, format!("{links} relative links in {count} documents lead somewhere"))
}

/// A folder by its whole name, since the root of the tree may be another one than the caller's.
fn here(folder: &str) -> Checked<String> {
    let whole = Path::new(folder).canonicalize();
    let whole =
        whole.map_err(|error| Wrong::one(format!("there is no folder {folder:?}: {error}")))?;
    Ok(whole.to_string_lossy().into_owned())
}

fn folder_of(file: &Path) -> &Path {
    file.parent().unwrap_or(file)
}

/// The targets that have no scheme, without what stands behind a #, where something is left.
fn relative(text: &str) -> Vec<(usize, String)> {
    let mut found = Vec::new();
    for (line, target) in targets(text) {
        let scheme = target.split_once(':').map(|(before, _)| before);
        let outside = scheme.map_or(false, |name| name.chars().all(|c| c.is_ascii_lowercase()));
        let target = target.split('#').next().unwrap_or_default();
        if !outside && !target.is_empty() {
            found.push((line, target.to_string()));
        }
    }
    found
}

#[cfg(test)]
mod tests {
    use super::*;
    use crate::testing::{found, Scratch};

    fn right() -> Scratch {
        let text = "[a](../README.md#top), [b](https://x.y/z), [c](#here)\n[d](.), [e](f.svg)\n";
        Scratch::new(&[("docs/a.md", text), ("README.md", "[x](docs)"), ("docs/f.svg", "")])
    }

    #[test]
    fn links_to_files_folders_and_elsewhere_pass() {
        let said = check(&right().tree(), &[]).unwrap();
        assert_eq!(said, "4 relative links in 2 documents lead somewhere");
    }

    #[test]
    fn each_link_that_leads_to_nothing_is_found_with_its_line() {
        let tree = right();
        tree.remove("docs/f.svg");
        tree.alter("README.md", "docs", "doc");
        let due = ["README.md:1: leads to nothing: doc", "docs/a.md:2: leads to nothing: f.svg"];
        assert_eq!(found(check(&tree.tree(), &[])), due);
    }

    #[test]
    fn what_is_made_is_not_looked_at_but_where_it_is_named() {
        let tree = right();
        tree.put("build/x.md", "[x](none)");
        assert!(check(&tree.tree(), &[]).is_ok());
        let folder = tree.tree().path("build").to_string_lossy().into_owned();
        let problems = found(check(&tree.tree(), &[folder.as_str()]));
        assert!(problems[0].ends_with("build/x.md:1: leads to nothing: none"), "{problems:?}");
    }

    #[test]
    fn no_link_at_all_is_no_success() {
        let tree = Scratch::new(&[("a.md", "no link\n")]);
        assert_eq!(found(check(&tree.tree(), &[])), ["there is no relative link at all"]);
        assert!(check(&tree.tree(), &["/nonexistent/folder"]).is_err());
    }
}
