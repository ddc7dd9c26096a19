//! The regions in the order in which they light, and the buttons of the script.

use super::shapes::State;
use super::telling;
use crate::html::Html;
use crate::plot::Marked;
use crate::told::Tone;
use crate::words;

/// The buttons: what they are called, and what they say.
const BUTTONS: [(&str, &str); 4] = [
    ("first", "light from the start"),
    ("back", "one back"),
    ("next", "one more"),
    ("whole", "whole plot"),
];

const fn state(tone: Tone) -> State {
    match tone {
        Tone::Good => State::Driven,
        Tone::Waits => State::Would,
        Tone::Bad => State::Not,
    }
}

/// Draws the strip. Without the script it is a list.
pub fn draw(html: &mut Html, marked: &Marked) {
    html.within(
        "section",
        &[("class", &"strip"), ("aria-label", &"Regions")],
        |html| {
            html.saying("h2", &[], &words::title(marked));
            html.within("p", &[("id", &"stepping"), ("hidden", &"hidden")], |html| {
                for (name, text) in BUTTONS {
                    html.saying("button", &[("type", &"button"), ("id", &name)], text);
                    html.text(" ");
                }
                html.saying("span", &[("id", &"step"), ("role", &"status")], "");
            });
            html.within("ol", &[("id", &"regions"), ("start", &0)], |html| {
                regions(html, marked)
            });
        },
    );
    html.line();
}

fn regions(html: &mut Html, marked: &Marked) {
    for step in marked.lighting.steps() {
        let (tone, _) = words::lights(marked, &step);
        let class = state(tone).class();
        html.line();
        html.within(
            "li",
            &[("class", &class), ("data-region", &step.region)],
            |html| {
                html.saying("b", &[], &step.region.to_string());
                html.text(" ");
                telling::parts(html, &words::region(marked, &step));
            },
        );
    }
}
