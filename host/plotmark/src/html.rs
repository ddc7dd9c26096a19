//! A writer of HTML, which escapes in one place.

use std::fmt::{self, Display, Write};

/// Attributes of an element: names and values.
pub type Attributes<'a> = &'a [(&'a str, &'a dyn Display)];

/// A text under way. It is well-formed as XML too, so that a test can check it.
#[derive(Debug, Default)]
pub struct Html(String);

/// Escapes all that is written through it.
struct Escaped<'a>(&'a mut String);

impl Write for Escaped<'_> {
    fn write_str(&mut self, text: &str) -> fmt::Result {
        for letter in text.chars() {
            match letter {
                '&' => self.0.push_str("&amp;"),
                '<' => self.0.push_str("&lt;"),
                '>' => self.0.push_str("&gt;"),
                '"' => self.0.push_str("&quot;"),
                '\t'
                | '\n'
                | ' '..='~'
                | '\u{a0}'..='\u{d7ff}'
                | '\u{e000}'..='\u{fffd}'
                | '\u{10000}'..='\u{10ffff}' => self.0.push(letter),
                _ => self.0.push('\u{fffd}'),
            }
        }
        Ok(())
    }
}

impl Html {
    /// The beginning of a page.
    #[must_use]
    pub fn page() -> Self {
        Self("<!DOCTYPE html>\n".to_string())
    }

    /// The text.
    #[must_use]
    pub fn finish(self) -> String {
        self.0
    }

    /// An element with something inside.
    pub fn within(
        &mut self,
        name: &'static str,
        attributes: Attributes<'_>,
        inside: impl FnOnce(&mut Self),
    ) {
        self.open(name, attributes);
        self.0.push('>');
        inside(self);
        self.0.extend(["</", name, ">"]);
    }

    /// An element with text alone.
    pub fn saying(&mut self, name: &'static str, attributes: Attributes<'_>, text: &str) {
        self.within(name, attributes, |html| html.text(text));
    }

    /// An element with nothing inside.
    pub fn empty(&mut self, name: &'static str, attributes: Attributes<'_>) {
        self.open(name, attributes);
        self.0.push_str("/>");
    }

    /// Text.
    pub fn text(&mut self, text: &str) {
        self.escape(&text);
    }

    /// A style sheet or a script of this crate, which has nothing to escape.
    pub fn own(&mut self, name: &'static str, text: &'static str) {
        self.within(name, &[], |html| html.0.push_str(text));
    }

    /// The end of a line of the page's text.
    pub fn line(&mut self) {
        self.0.push('\n');
    }

    fn open(&mut self, name: &'static str, attributes: Attributes<'_>) {
        self.0.extend(["<", name]);
        for (name, value) in attributes {
            self.0.extend([" ", *name, "=\""]);
            self.escape(*value);
            self.0.push('"');
        }
    }

    fn escape(&mut self, value: &dyn Display) {
        // Writing to a String does not fail.
        let _ = write!(Escaped(&mut self.0), "{value}");
    }
}

#[cfg(test)]
mod tests {
    use super::Html;

    #[test]
    fn texts_and_values_are_escaped() {
        let mut html = Html::default();
        html.within("p", &[("title", &"\"a\" < b & c"), ("x", &-7)], |html| {
            html.text("<b>&\r\0\u{7f}");
            html.empty("br", &[]);
        });
        let wanted = "<p title=\"&quot;a&quot; &lt; b &amp; c\" x=\"-7\">\
            &lt;b&gt;&amp;\u{fffd}\u{fffd}\u{fffd}<br/></p>";
        assert_eq!(html.finish(), wanted);
    }
}
