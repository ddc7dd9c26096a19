//! What is told, as text of a page.

use super::block::anchor;
use crate::html::Html;
use crate::told::{Line, Part, Section, Tone};

/// The class of a verdict.
pub const fn tone(tone: Tone) -> &'static str {
    match tone {
        Tone::Good => "good",
        Tone::Waits => "waits",
        Tone::Bad => "bad",
    }
}

/// A section, as a heading and a list.
pub fn section(html: &mut Html, section: &Section) {
    html.within("section", &[("class", &"told")], |html| {
        html.saying("h2", &[], &section.title);
        list(html, &section.lines);
    });
    html.line();
}

fn list(html: &mut Html, lines: &[Line]) {
    if lines.is_empty() {
        return;
    }
    html.within("ul", &[], |html| {
        for line in lines {
            html.line();
            match &line.mark {
                Some(mark) => html.within("li", &[("id", mark)], |html| item(html, line)),
                None => html.within("li", &[], |html| item(html, line)),
            }
        }
    });
}

fn item(html: &mut Html, line: &Line) {
    parts(html, line);
    list(html, &line.under);
}

/// The pieces of a line: blocks lead to their cells.
pub fn parts(html: &mut Html, line: &Line) {
    for part in &line.parts {
        match part {
            Part::Plain(text) => html.text(text),
            Part::Block(id, name) => {
                html.saying("a", &[("href", &format!("#{}", anchor(*id)))], name);
            }
            Part::Verdict(meant, text) => {
                html.saying("strong", &[("class", &tone(*meant))], text);
            }
        }
    }
}
