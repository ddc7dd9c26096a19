//! The picture of a layer.

use std::fmt::Display;

use super::axes::{Axis, Of};
use super::block::{self, Found};
use super::layers::{BETWEEN, HEIGHT, LEFT, Layer, TOP};
use super::links::Links;
use super::{arrows, shapes};
use crate::html::Html;
use crate::plot::Marked;
use crate::words;

/// What is free at the right and below.
const MARGIN: i32 = 10;

/// Draws a layer under its title.
pub fn draw(html: &mut Html, marked: &Marked, links: &Links, layer: &Layer) {
    let blocks = words::count(layer.spots.len(), "block", "blocks");
    let title = format!("Layer y = {}: {blocks}", layer.height);
    html.within("section", &[("class", &"layer")], |html| {
        html.saying("h2", &[], &title);
        html.within("div", &[("class", &"scroll")], |html| {
            picture(html, marked, links, layer, &title);
        });
    });
    html.line();
}

fn picture(html: &mut Html, marked: &Marked, links: &Links, layer: &Layer, title: &str) {
    let width = layer.columns.end() + MARGIN;
    let height = layer.rows.end() + MARGIN;
    let view = format!("0 0 {width} {height}");
    let said = format!("{title}, North is up, East is right");
    let attributes: &[(&str, &dyn Display)] = &[
        ("width", &width),
        ("height", &height),
        ("viewBox", &view),
        ("role", &"group"),
        ("aria-label", &said),
    ];
    html.within("svg", attributes, |html| {
        html.line();
        compass(html);
        columns(html, &layer.columns, layer.rows.end());
        rows(html, &layer.rows, layer.columns.end());
        for (id, spot) in &layer.spots {
            let found = marked.plot.place(*id);
            if let Some(found) = found.and_then(|place| Found::at(marked, place)) {
                block::draw(html, marked, &found, *spot);
            }
        }
        arrows::draw(html, marked, links, layer);
    });
}

fn compass(html: &mut Html) {
    html.within("g", &[("class", &"compass"), ("role", &"img")], |html| {
        html.saying("title", &[], "North is up");
        shapes::head(html, "north", (14, 6), (0, -1));
        shapes::line(html, "north", (14, 10), (14, 16));
        html.saying("text", &[("x", &14), ("y", &27)], "N");
    });
}

/// The x of each column above it, and a line before it.
fn columns(html: &mut Html, axis: &Axis, end: i32) {
    for track in axis.tracks() {
        let middle = track.start + track.size / 2;
        shapes::line(html, "guide", (track.start, TOP), (track.start, end));
        let (class, said) = told(track.of, "x");
        html.saying(
            "text",
            &[("class", &class), ("x", &middle), ("y", &20)],
            &said,
        );
        if let Of::Gap(count) = track.of {
            let said = words::count(gap(count), "column", "columns");
            cut(html, (track.start, TOP, track.size, end - TOP), &said);
        }
    }
    shapes::line(html, "guide", (axis.end(), TOP), (axis.end(), end));
}

/// The z of each row beside it, and a line above it.
fn rows(html: &mut Html, axis: &Axis, end: i32) {
    for track in axis.tracks() {
        let middle = match track.of {
            Of::Cells(_) => track.start + (BETWEEN + HEIGHT) / 2,
            Of::Gap(_) => track.start + track.size / 2,
        };
        shapes::line(html, "guide", (LEFT, track.start), (end, track.start));
        let (class, said) = told(track.of, "z");
        let class = format!("{class} z");
        html.saying(
            "text",
            &[("class", &class), ("x", &(LEFT - 8)), ("y", &(middle + 4))],
            &said,
        );
        if let Of::Gap(count) = track.of {
            let said = words::count(gap(count), "row", "rows");
            cut(html, (LEFT, track.start, end - LEFT, track.size), &said);
        }
    }
    shapes::line(html, "guide", (LEFT, axis.end()), (end, axis.end()));
}

fn gap(count: i64) -> usize {
    usize::try_from(count).unwrap_or(usize::MAX)
}

fn told(of: Of, axis: &str) -> (&'static str, String) {
    match of {
        Of::Cells(at) if axis == "z" => ("axis", format!("z {at}")),
        Of::Cells(at) => ("axis", format!("x {at}")),
        Of::Gap(_) => ("axis", "\u{2026}".to_string()),
    }
}

/// What was cut out between far parts.
fn cut(html: &mut Html, (x, y, width, height): (i32, i32, i32, i32), what: &str) {
    html.within("g", &[("class", &"cut"), ("role", &"img")], |html| {
        html.saying(
            "title",
            &[],
            &format!("{what} without a block are cut out here"),
        );
        html.empty(
            "rect",
            &[("x", &x), ("y", &y), ("width", &width), ("height", &height)],
        );
    });
}
