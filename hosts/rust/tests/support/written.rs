//! What a program cannot write to standard output it has not told, and its status is not 0.

use std::path::{Path, PathBuf};
use std::process::{Command, Output, Stdio};

/// An example as cargo built it, beside the folder of this test.
fn example(name: &str) -> PathBuf {
    let own = std::env::current_exe().expect("a test is a file");
    let profile = own.parent().and_then(Path::parent).expect("cargo keeps tests in deps/");
    let built = profile.join("examples").join(name);
    assert!(built.is_file(), "{} is missing: cargo build --example {name}", built.display());
    built
}

/// What comes of a program with its standard output sent elsewhere by a shell.
fn run(name: &str, words: &[&str], elsewhere: &str) -> Output {
    let mut command = Command::new("sh");
    command.arg("-c").arg(format!("exec \"$0\" \"$@\" {elsewhere}")).arg(example(name)).args(words);
    command.stdin(Stdio::null()).output().expect("sh runs")
}

/// An example that tells the time of the draft's first response: it is a success where that can be
/// written, also to nobody, and else it is none.
pub fn or_no_success(name: &str, words: &[&str]) {
    let told = run(name, words, "");
    assert_eq!(told.status.code(), Some(0), "{name}");
    assert!(told.stdout.ends_with(b"the time is from 1773685568 to 1773685574\n"), "{name}");
    assert_eq!(run(name, words, ">/dev/null").status.code(), Some(0), "{name} to nobody");
    for elsewhere in [">&-", ">/dev/full"] {
        let told = run(name, words, elsewhere);
        assert_eq!(told.status.code(), Some(1), "{name} {elsewhere}");
        assert!(!told.stderr.is_empty(), "{name} {elsewhere} does not say why");
    }
}
