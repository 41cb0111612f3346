//! Memory: the stack that each operation takes, as hosts/c/stack.c measures it; that none is taken
//! from the heap, by what the archive leaves undefined; and the archive's size by crate.

use crate::programs::printed;
use crate::run::Run;
use crate::table::{count, Table};
use std::collections::BTreeMap;

/// The program that ./bench builds of hosts/c/stack.c.
const STACK: &str = "build/c/stack";

/// The archive of the proved library.
const ARCHIVE: &str = "build/native/libcapi.a";

/// How many operations stand in a line.
const COLUMNS: usize = 3;

/// The operations with the most bytes of stack that each was seen to take: a line of the program
/// has a name, which starts with tb_, and one number or more behind it.
fn stacks(text: &str) -> Vec<(String, usize)> {
    let line = |line: &str| {
        let (name, numbers) = line.split_at(line.len().min(22));
        let most = numbers.split_whitespace().filter_map(|word| word.parse().ok()).max()?;
        name.starts_with("tb_").then(|| (name.trim().to_string(), most))
    };
    text.lines().filter_map(line).collect()
}

/// Three operations to a line, by the stack that they take, down the columns.
fn stack_table(mut stacks: Vec<(String, usize)>) -> Table {
    stacks.sort_by(|a, b| b.1.cmp(&a.1).then(a.0.cmp(&b.0)));
    let title = "bytes of stack at the most, less those of a call of nothing";
    let mut table = Table::new("stack", title, &["Operation", "bytes"].repeat(COLUMNS));
    let cells = |entry: Option<&(String, usize)>| match entry {
        Some((name, bytes)) => [format!("`{name}`"), count(*bytes)],
        None => [String::new(), String::new()],
    };
    let lines = (stacks.len() + COLUMNS - 1) / COLUMNS;
    for line in 0..lines {
        table.row(
            (0..COLUMNS).flat_map(|column| cells(stacks.get(column * lines + line))).collect(),
        );
    }
    table
}

/// The code of each crate, in bytes. A function is named by its crate, its file and itself; the
/// exported ones, which have no such name, are those of `capi`.
fn by_crate(symbols: &str) -> Vec<(String, usize)> {
    let mut sizes = BTreeMap::new();
    for line in symbols.lines() {
        let mut words = line.split_whitespace().skip(1);
        let (Some(size), Some(_), Some(name)) = (words.next(), words.next(), words.next()) else {
            continue;
        };
        let bytes = usize::from_str_radix(size, 16).unwrap_or(0);
        let crate_name = name.split_once("::").map_or("capi", |(start, _)| start);
        *sizes.entry(crate_name.to_string()).or_insert(0) += bytes;
    }
    let mut sizes: Vec<(String, usize)> = sizes.into_iter().collect();
    sizes.sort_by(|a, b| b.1.cmp(&a.1).then(a.0.cmp(&b.0)));
    sizes
}

/// What the archive leaves to whoever links it.
fn undefined() -> Option<String> {
    let text = printed("nm", &["-u", ARCHIVE])?;
    let names = text.lines().filter_map(|line| line.trim().strip_prefix("U "));
    let mut names: Vec<String> = names.map(|name| format!("`{name}`")).collect();
    names.sort();
    names.dedup();
    Some(names.join(", "))
}

pub fn part(run: &mut Run) {
    match printed(STACK, &[]) {
        Some(text) => run.put(stack_table(stacks(&text))),
        None => run.say("stack", "The stack was not measured: there is no C compiler."),
    }
    let Some(symbols) = printed("nm", &["-S", "--defined-only", ARCHIVE]) else {
        return run.say("archive", "The archive was not looked into: there is no `nm`.");
    };
    let sizes = by_crate(&symbols);
    let all: usize = sizes.iter().map(|(_, bytes)| bytes).sum();
    let largest = sizes.iter().take(12);
    let named: Vec<String> =
        largest.map(|(name, bytes)| format!("`{name}` {}", count(*bytes))).collect();
    let text = format!(
        "The archive leaves {} undefined and nothing else. So nothing in it can take memory from \
         the heap. Its code has {} bytes. The largest crates are {}.",
        undefined().unwrap_or_default(),
        count(all),
        named.join(", ")
    );
    run.say("archive", &text);
}
