//! Connections as they are drawn.

use dustroute::{ComponentId, Facing};

use super::block::has_sign;
use super::layers::{HEIGHT, Layer, Spot, direction};
use super::links::{Link, Links};
use super::lost;
use super::shapes::{self, Point};
use super::stubs::Stub;
use crate::html::Html;
use crate::plot::Marked;
use crate::terms::opposite;

/// What an arrow leaves free at a block, and at a sign.
pub const FREE: i32 = 2;
const SIGN: i32 = 10;

/// Draws all that begins or ends in a layer.
pub fn draw(html: &mut Html, marked: &Marked, links: &Links, layer: &Layer) {
    for ((first, second, face), link) in &links.arrows {
        if let (Some(a), Some(b)) = (layer.spots.get(first), layer.spots.get(second)) {
            let back = opposite(*face);
            let a = off(*a, *face, 0, free(marked, *first, *face));
            let b = off(*b, back, 0, free(marked, *second, back));
            titled(html, "arrow", &link.said, |html| {
                arrow(html, link, a, b, *face)
            });
        }
    }
    for ((id, face, is_above), link) in &links.stubs {
        let block = marked.plot.block(*id);
        if let (Some(spot), Some(block)) = (layer.spots.get(id), block) {
            let stub = Stub::of(link, *spot, *face, *is_above);
            let has_room = layer.has_room(block.position, *face);
            titled(html, "stub", &link.said, |html| stub.draw(html, has_room));
        }
    }
    for ((id, face), link) in &links.uprights {
        if let Some(spot) = layer.spots.get(id) {
            titled(html, "upright", &link.said, |html| {
                upright(html, link, *spot, *face)
            });
        }
    }
    lost::draw(html, marked, links, layer);
}

/// What an arrow leaves free at a side of a block.
pub fn free(marked: &Marked, id: ComponentId, face: Facing) -> i32 {
    if has_sign(&marked.inputs, id, face) {
        SIGN
    } else {
        FREE
    }
}

fn titled(html: &mut Html, class: &str, said: &[String], inside: impl FnOnce(&mut Html)) {
    html.within("g", &[("class", &class), ("role", &"img")], |html| {
        html.saying("title", &[], &said.join("\n"));
        inside(html);
    });
    html.line();
}

/// A point so far along a side from its middle, and so far off the block.
pub fn off(spot: Spot, face: Facing, along: i32, out: i32) -> Point {
    let ((x, y), (dx, dy)) = (spot.on(face, along), direction(face));
    (x + dx * out, y + dy * out)
}

pub const fn turned((dx, dy): Point) -> Point {
    (-dx, -dy)
}

pub fn arrow(html: &mut Html, link: &Link, a: Point, b: Point, face: Facing) {
    let (dx, dy) = direction(face);
    let shorter = |(x, y): Point, by: i32| (x + dx * by, y + dy * by);
    let from = if link.back { shorter(a, 4) } else { a };
    let to = if link.out { shorter(b, -4) } else { b };
    shapes::line(html, "shaft", from, to);
    if link.out {
        shapes::head(html, "head", b, (dx, dy));
    }
    if link.back {
        shapes::head(html, "head", a, turned((dx, dy)));
    }
}

/// Straight up or down: at the block's upper or lower edge.
fn upright(html: &mut Html, link: &Link, spot: Spot, face: Facing) {
    let (up, edge) = match face {
        Facing::Up => (-1, spot.y),
        _ => (1, spot.y + HEIGHT),
    };
    let x = spot.x + 12;
    let (far, near) = if link.out && link.back {
        (13, 1)
    } else {
        (8, 2)
    };
    if link.out {
        shapes::head(html, "to", (x, edge + far * up), (0, up));
    }
    if link.back {
        shapes::head(html, "to", (x, edge + near * up), (0, -up));
    }
}
