//! What the signs of the picture mean.

use std::fmt::Display;

use super::block::VERDICTS;
use super::shapes::{self, Point, State};
use crate::html::Html;

/// Where a sign is drawn in its field.
const MIDDLE: Point = (15, 11);

/// Draws the legend.
pub fn draw(html: &mut Html) {
    html.within(
        "section",
        &[("class", &"legend"), ("aria-label", &"Signs")],
        |html| {
            html.saying("h2", &[], "Signs");
            html.within("ul", &[], |html| {
                states(html);
                verdicts(html);
                others(html);
                arrows(html);
            });
        },
    );
    html.line();
}

fn sign(html: &mut Html, said: &str, class: &str, draw: impl FnOnce(&mut Html)) {
    let attributes: &[(&str, &dyn Display)] = &[
        ("width", &30),
        ("height", &22),
        ("viewBox", &"0 0 30 22"),
        ("aria-hidden", &"true"),
        ("class", &class),
    ];
    html.line();
    html.within("li", &[], |html| {
        html.within("svg", attributes, draw);
        html.saying("span", &[], said);
    });
}

fn states(html: &mut Html) {
    for state in [State::Driven, State::Would, State::Not] {
        let class = format!("block {}", state.class());
        sign(html, state.said(), &class, |html| {
            shapes::outline(html, (2, 2), (26, 18));
            shapes::lamp(html, state, MIDDLE);
        });
    }
    let said = "beside it the number of the block's region";
    sign(html, said, "block", |html| {
        shapes::lamp(html, State::Driven, (9, 11));
        shapes::label(html, "region", (17, 14), "3");
    });
}

fn verdicts(html: &mut Html) {
    for (status, said) in VERDICTS {
        let said = format!("on the side of an input: {said}");
        sign(html, &said, "block", |html| {
            shapes::disc(html, status, MIDDLE)
        });
    }
}

fn others(html: &mut Html) {
    let said = "a place where an input could be put";
    sign(html, "a source", "block", |html| shapes::star(html, MIDDLE));
    sign(html, said, "block", |html| shapes::place(html, MIDDLE));
    let said = "how a device faces (empty: not known, taken as North)";
    sign(html, said, "block", |html| {
        shapes::head(html, "faces", (11, 11), (1, 0));
        shapes::head(html, "faces taken", (24, 11), (1, 0));
    });
    let said = "a device of which nobody saw how it faces";
    sign(html, said, "block not unread", |html| {
        shapes::outline(html, (2, 2), (26, 18));
        shapes::label(html, "faces", (8, 11), "?");
    });
}

fn arrows(html: &mut Html) {
    sign(html, "feeds; both ways", "arrow", |html| {
        shapes::line(html, "shaft", (2, 5), (22, 5));
        shapes::head(html, "head", (27, 5), (1, 0));
        shapes::line(html, "shaft", (7, 16), (22, 16));
        shapes::head(html, "head", (27, 16), (1, 0));
        shapes::head(html, "head", (2, 16), (-1, 0));
    });
    let said = "feeds, or is fed by, the layer above or below";
    sign(html, said, "stub", |html| {
        shapes::head(html, "head", (10, 11), (1, 0));
        shapes::head(html, "to", (15, 8), (0, -1));
        shapes::head(html, "to", (24, 14), (0, 1));
    });
    for (said, class, is_gone) in [
        ("a connection that was left out", "left-out", false),
        (
            "one that names a block which is not on the plot",
            "left-out",
            true,
        ),
        (
            "support, which carries no signal",
            "left-out support",
            false,
        ),
    ] {
        sign(html, said, class, |html| {
            shapes::cross(html, is_gone, MIDDLE)
        });
    }
}
