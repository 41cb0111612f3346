//! The form of the files that hold keys: lines of a name, a blank and a value. Empty lines and those
//! that begin with # say nothing.

/// The values of these names, each of which stands there just once, and no other.
pub fn fields<'a, const N: usize>(text: &'a str, names: [&str; N]) -> Result<[&'a str; N], String> {
    let mut found = [None; N];
    for (line, number) in text.lines().zip(1..) {
        if line.trim().is_empty() || line.starts_with('#') {
            continue;
        }
        let (name, value) = line.split_once(' ').unwrap_or((line, ""));
        let place = names.iter().position(|known| *known == name);
        let place = place.ok_or_else(|| format!("line {number} has no name that is known"))?;
        if found[place].replace(value.trim()).is_some() {
            return Err(format!("line {number} says {name} again"));
        }
    }
    match names.iter().zip(&found).find(|(_, value)| value.is_none()) {
        Some((name, _)) => Err(format!("it has no line {name}")),
        None => Ok(found.map(Option::unwrap_or_default)),
    }
}

#[cfg(test)]
mod tests {
    use super::fields;

    #[test]
    fn each_name_stands_there_once() {
        let read = |text| fields(text, ["a", "b"]);
        assert_eq!(read("# words\n\nb 2\na  1 \n"), Ok(["1", "2"]));
        assert_eq!(read("a 1\n"), Err("it has no line b".to_string()));
        assert_eq!(read("a 1\nb 2\na 1\n"), Err("line 3 says a again".to_string()));
        assert_eq!(read("a 1\nc 2\n"), Err("line 2 has no name that is known".to_string()));
    }
}
