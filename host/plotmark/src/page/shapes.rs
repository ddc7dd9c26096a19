//! The shapes that stand for things, drawn around a point.

use std::fmt::Display;

use dustroute::RequiredInputStatus;

use crate::html::Html;

/// A point of a picture.
pub type Point = (i32, i32);

/// How a block stands: by this its fill, its edge and its sign differ.
#[derive(Clone, Copy, Debug, Eq, PartialEq)]
pub enum State {
    Driven,
    Would,
    Not,
}

impl State {
    pub const fn class(self) -> &'static str {
        match self {
            Self::Driven => "driven",
            Self::Would => "would",
            Self::Not => "not",
        }
    }

    pub const fn said(self) -> &'static str {
        match self {
            Self::Driven => "driven",
            Self::Would => "would be driven by an input",
            Self::Not => "not driven",
        }
    }
}

fn path(html: &mut Html, class: &str, data: &str) {
    html.empty("path", &[("class", &class), ("d", &data)]);
}

/// A disc.
pub fn circle(html: &mut Html, class: &str, (x, y): Point, radius: i32) {
    let attributes: &[(&str, &dyn Display)] =
        &[("class", &class), ("cx", &x), ("cy", &y), ("r", &radius)];
    html.empty("circle", attributes);
}

/// The outline of a block.
pub fn outline(html: &mut Html, (x, y): Point, (width, height): Point) {
    let attributes: &[(&str, &dyn Display)] = &[
        ("x", &x),
        ("y", &y),
        ("width", &width),
        ("height", &height),
        ("rx", &5),
    ];
    html.empty("rect", attributes);
}

/// Text at a point.
pub fn label(html: &mut Html, class: &str, (x, y): Point, text: &str) {
    html.saying("text", &[("class", &class), ("x", &x), ("y", &y)], text);
}

/// A triangle with its tip at a point.
pub fn head(html: &mut Html, class: &str, (x, y): Point, (dx, dy): Point) {
    let side = |way: i32| (x - 6 * dx - 4 * way * dy, y - 6 * dy + 4 * way * dx);
    let [(ax, ay), (bx, by)] = [1, -1].map(side);
    path(html, class, &format!("M{x},{y}L{ax},{ay}L{bx},{by}z"));
}

/// A line.
pub fn line(html: &mut Html, class: &str, (ax, ay): Point, (bx, by): Point) {
    path(html, class, &format!("M{ax},{ay}L{bx},{by}"));
}

/// The sign of a verdict: a disc with a tick, dots, a dash or a cross.
pub fn disc(html: &mut Html, status: RequiredInputStatus, (x, y): Point) {
    let (class, sign) = match status {
        RequiredInputStatus::DrivenByKnownSource => ("good", "m-4,0l3,3l5,-6"),
        RequiredInputStatus::AwaitingExternalInput => ("waits", "m-5,0h2m2,0h2m2,0h2"),
        RequiredInputStatus::Disconnected => ("empty", "m-4,0h8"),
        RequiredInputStatus::NoKnownSource => ("bad", "m-3,-3l6,6m0,-6l-6,6"),
    };
    circle(html, class, (x, y), 8);
    path(html, "sign", &format!("M{x},{y}{sign}"));
}

/// A star: a source.
pub fn star(html: &mut Html, (x, y): Point) {
    let sign = "m0,-7l2,5h5l-4,3l2,5l-5,-3l-5,3l2,-5l-4,-3h5z";
    path(html, "star", &format!("M{x},{y}{sign}"));
}

/// A place where an input could be put.
pub fn place(html: &mut Html, (x, y): Point) {
    circle(html, "place", (x, y), 7);
    label(html, "place", (x, y + 4), "?");
}

/// A cross, with a ring where a block is gone.
pub fn cross(html: &mut Html, gone: bool, (x, y): Point) {
    path(html, "hit", &format!("M{x},{y}m-6,-6h12v12h-12z"));
    path(html, "x", &format!("M{x},{y}m-4,-4l8,8m0,-8l-8,8"));
    if gone {
        circle(html, "ring", (x, y), 7);
    }
}

/// Full, half or empty: driven, would be, not.
pub fn lamp(html: &mut Html, state: State, (x, y): Point) {
    circle(html, "lamp", (x, y), 4);
    let inside = match state {
        State::Driven => format!("M{x},{y}m-4,0a4,4,0,1,1,8,0a4,4,0,1,1,-8,0z"),
        State::Would => format!("M{x},{y}m0,-4a4,4,0,0,0,0,8z"),
        State::Not => return,
    };
    path(html, "full", &inside);
}
