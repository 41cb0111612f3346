//! A small reader of XML, as far as our pictures go: elements with attributes, texts and the four
//! escapes that we write. It takes nothing that is not well-formed.

/// An element: its name, its attributes, and the text that stands right in it.
#[derive(Clone, Debug, Default, PartialEq, Eq)]
pub struct Element {
    pub name: String,
    pub attributes: Vec<(String, String)>,
    pub text: String,
}

impl Element {
    pub fn attribute(&self, name: &str) -> &str {
        let found = self.attributes.iter().find(|(known, _)| known == name);
        &found.unwrap_or_else(|| panic!("{self:?} has no {name}")).1
    }

    /// A length in pixels, which has two digits behind the point, in hundredths of them.
    pub fn length(&self, name: &str) -> u64 {
        self.attribute(name).replace('.', "").parse().expect("it is a number")
    }

    pub fn class(&self, class: &str) -> bool {
        self.attributes.iter().any(|(name, value)| name == "class" && value == class)
    }
}

/// The elements of a text that is one element with others in it, in the order in which they start.
pub fn elements(text: &str) -> Result<Vec<Element>, String> {
    let (mut rest, mut open, mut all) = (text.trim_end(), Vec::new(), Vec::<Element>::new());
    while !rest.is_empty() {
        if !all.is_empty() && open.is_empty() {
            return Err(format!("something follows the outermost element: {rest}"));
        }
        if let Some(after) = rest.strip_prefix("</") {
            let (name, after) = after.split_once('>').ok_or("an end tag does not end")?;
            let due: Option<usize> = open.pop();
            if due.map(|at| all[at].name.as_str()) != Some(name) {
                return Err(format!("</{name}> ends nothing"));
            }
            rest = after;
        } else if let Some(after) = rest.strip_prefix('<') {
            let (tag, after) = after.split_once('>').ok_or("a tag does not end")?;
            let (tag, closed) = tag.strip_suffix('/').map_or((tag, false), |tag| (tag, true));
            if !closed {
                open.push(all.len());
            }
            all.push(start(tag)?);
            rest = after;
        } else {
            let end = rest.find('<').unwrap_or(rest.len());
            let at = *open.last().ok_or("a text stands in no element")?;
            all[at].text.push_str(&plain(&rest[..end])?);
            rest = &rest[end..];
        }
    }
    match open.is_empty() && !all.is_empty() {
        true => Ok(all),
        false => Err(format!("{} elements do not end", open.len())),
    }
}

/// The element that a tag starts.
fn start(tag: &str) -> Result<Element, String> {
    let (name, mut rest) = tag.split_at(tag.find(' ').unwrap_or(tag.len()));
    if name.is_empty() || !name.chars().all(|letter| letter.is_ascii_alphanumeric()) {
        return Err(format!("<{tag}> has no name"));
    }
    let mut element = Element { name: name.to_string(), ..Element::default() };
    while let Some(attribute) = rest.strip_prefix(' ') {
        let (name, value) = attribute.split_once("=\"").ok_or(format!("<{tag}>"))?;
        let (value, after) = value.split_once('"').ok_or(format!("<{tag}>: no end of {name}"))?;
        if element.attributes.iter().any(|(known, _)| known == name) {
            return Err(format!("<{tag}>: {name} stands twice"));
        }
        element.attributes.push((name.to_string(), plain(value)?));
        rest = after;
    }
    match rest {
        "" => Ok(element),
        _ => Err(format!("<{tag}>: {rest}")),
    }
}

/// A text with its escapes resolved.
fn plain(text: &str) -> Result<String, String> {
    let mut parts = text.split('&');
    let mut out = parts.next().unwrap_or_default().to_string();
    for part in parts {
        let (name, rest) = part.split_once(';').ok_or(format!("a bare & in {text}"))?;
        let letter = match name {
            "amp" => '&',
            "lt" => '<',
            "gt" => '>',
            "quot" => '"',
            _ => return Err(format!("&{name}; is not known")),
        };
        out.push(letter);
        out.push_str(rest);
    }
    match out.chars().all(|letter| letter == '\n' || !letter.is_control()) {
        true => Ok(out),
        false => Err(format!("{text:?} has a control character")),
    }
}

#[test]
fn only_what_is_well_formed_is_read() {
    let read = elements("<a b=\"1 &amp; 2\"><c/>t&lt;<d>u</d></a>\n").expect("it is well-formed");
    let names: Vec<&str> = read.iter().map(|element| element.name.as_str()).collect();
    assert_eq!(names, ["a", "c", "d"]);
    assert_eq!((read[0].attribute("b"), read[0].text.as_str()), ("1 & 2", "t<"));
    for bad in ["", "<a>", "</a>", "<a></b>", "<a/><b/>", "<a b=c/>", "<a b=\"1\" b=\"1\"/>"] {
        assert!(elements(bad).is_err(), "{bad}");
    }
    for bad in ["<a>&</a>", "<a>&nbsp;</a>", "a", "<a>\u{1}</a>", "<a><b></a></b>", "<a/>b"] {
        assert!(elements(bad).is_err(), "{bad}");
    }
}
