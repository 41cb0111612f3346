//! The elements of an SVG file, as text. Nothing goes into it but through here, so that every text
//! is escaped and every number is one.

use std::fmt::{Display, Write};

/// A length or a place, in hundredths of a pixel, so that no picture hangs on how numbers with a
/// point are rounded.
pub(super) type Length = u64;

/// A pixel.
pub(super) const PX: Length = 100;

pub(super) struct Canvas {
    out: String,
}

/// Where a text stands with respect to its place.
#[derive(Clone, Copy)]
pub(super) enum Anchor {
    Start,
    Middle,
    End,
}

impl Canvas {
    pub fn new(width: Length, height: Length, title: &str, style: &str) -> Canvas {
        let mut out = String::new();
        let (width, height) = (pixels(width), pixels(height));
        put(
            &mut out,
            format_args!(
                "<svg xmlns=\"http://www.w3.org/2000/svg\" width=\"{width}\" height=\"{height}\" \
                 viewBox=\"0 0 {width} {height}\" role=\"img\">\n\
                 <title>{}</title>\n<style>\n{style}</style>",
                escaped(title)
            ),
        );
        Canvas { out }
    }

    pub fn rect(&mut self, class: &str, (x, y): (Length, Length), (w, h): (Length, Length)) {
        let [x, y, w, h] = [x, y, w, h].map(pixels);
        self.element(class, format_args!("rect x=\"{x}\" y=\"{y}\" width=\"{w}\" height=\"{h}\""));
    }

    pub fn line(&mut self, class: &str, (x, y): (Length, Length), (x2, y2): (Length, Length)) {
        let [x, y, x2, y2] = [x, y, x2, y2].map(pixels);
        self.element(class, format_args!("line x1=\"{x}\" y1=\"{y}\" x2=\"{x2}\" y2=\"{y2}\""));
    }

    pub fn circle(&mut self, class: &str, (x, y): (Length, Length), radius: Length) {
        let [x, y, radius] = [x, y, radius].map(pixels);
        self.element(class, format_args!("circle cx=\"{x}\" cy=\"{y}\" r=\"{radius}\""));
    }

    pub fn text(&mut self, class: &str, (x, y): (Length, Length), anchor: Anchor, text: &str) {
        let [x, y] = [x, y].map(pixels);
        let anchor = match anchor {
            Anchor::Start => "start",
            Anchor::Middle => "middle",
            Anchor::End => "end",
        };
        let (class, text) = (escaped(class), escaped(text));
        put(
            &mut self.out,
            format_args!(
                "<text class=\"{class}\" x=\"{x}\" y=\"{y}\" text-anchor=\"{anchor}\">{text}</text>"
            ),
        );
    }

    /// A group, which a browser shows a title of.
    pub fn group(&mut self, title: &str) {
        put(&mut self.out, format_args!("<g><title>{}</title>", escaped(title)));
    }

    pub fn end_group(&mut self) {
        put(&mut self.out, "</g>");
    }

    pub fn finish(mut self) -> String {
        put(&mut self.out, "</svg>");
        self.out
    }

    fn element(&mut self, class: &str, words: impl Display) {
        put(&mut self.out, format_args!("<{words} class=\"{}\"/>", escaped(class)));
    }
}

/// Writes a line.
fn put(out: &mut String, line: impl Display) {
    writeln!(out, "{line}").expect("a String takes all that is written");
}

fn pixels(length: Length) -> String {
    format!("{}.{:02}", length / PX, length % PX)
}

/// A text with what means something to XML spelled out.
fn escaped(text: &str) -> String {
    let mut out = String::with_capacity(text.len());
    for letter in text.chars() {
        match letter {
            '&' => out.push_str("&amp;"),
            '<' => out.push_str("&lt;"),
            '>' => out.push_str("&gt;"),
            '"' => out.push_str("&quot;"),
            _ => out.push(letter),
        }
    }
    out
}

#[cfg(test)]
mod tests {
    use super::{escaped, pixels};

    #[test]
    fn texts_are_escaped() {
        assert_eq!(escaped("a<b>&\"c\" 'd'"), "a&lt;b&gt;&amp;&quot;c&quot; 'd'");
    }

    #[test]
    fn lengths_have_two_digits_behind_the_point() {
        assert_eq!([pixels(0), pixels(7), pixels(12_345)], ["0.00", "0.07", "123.45"]);
    }
}
