//! Connections to the layer above or below, as they are drawn.

use std::fmt::Display;

use dustroute::Facing;

use super::arrows::{FREE, arrow, off, turned};
use super::layers::{BETWEEN, Spot, direction};
use super::links::Link;
use super::shapes::{self, Point};
use crate::html::Html;

/// How far from the middle of a side they stand.
const ABOVE: i32 = -13;
const BELOW: i32 = 13;

/// To or from the layer above or below.
pub struct Stub<'a> {
    link: &'a Link,
    spot: Spot,
    face: Facing,
    is_above: bool,
}

impl<'a> Stub<'a> {
    /// At a side of a block.
    pub const fn of(link: &'a Link, spot: Spot, face: Facing, is_above: bool) -> Self {
        Self {
            link,
            spot,
            face,
            is_above,
        }
    }

    /// With all that is known where there is room, else with two signs.
    pub fn draw(&self, html: &mut Html, has_room: bool) {
        if has_room {
            self.long(html);
        } else {
            self.short(html);
        }
    }

    fn off(&self, out: i32) -> Point {
        let along = if self.is_above { ABOVE } else { BELOW };
        off(self.spot, self.face, along, out)
    }

    /// The sign of the layer, in the middle between two points.
    fn layer(&self, html: &mut Html, out: i32) {
        let (x, y) = self.off(out);
        let up = if self.is_above { -1 } else { 1 };
        shapes::head(html, "to", (x, y + 3 * up), (0, up));
    }

    /// Where another block stands beside it: a head at the block, and the layer.
    fn short(&self, html: &mut Html) {
        let way = direction(self.face);
        if self.link.out {
            shapes::head(html, "head", self.off(7), way);
        }
        if self.link.back {
            shapes::head(html, "head", self.off(1), turned(way));
        }
        self.layer(html, 10);
    }

    /// Where there is room: an arrow, the layer, and the block there.
    fn long(&self, html: &mut Html) {
        let (near, far) = (self.off(FREE), self.off(BETWEEN - 6));
        arrow(html, self.link, near, far, self.face);
        self.layer(html, BETWEEN - 1);
        let mut others = self.link.others.iter();
        let (Some(other), None) = (others.next(), others.next()) else {
            return;
        };
        // A longer id has no room there; the title has it.
        if other.0 < 1_000 {
            self.named(html, &other.0.to_string());
        }
    }

    fn named(&self, html: &mut Html, id: &str) {
        let (place, (x, y)) = match self.face {
            Facing::East => ("start", self.off(BETWEEN + 5)),
            Facing::West => ("end", self.off(BETWEEN + 5)),
            _ => ("middle", self.off(BETWEEN + 8)),
        };
        let attributes: &[(&str, &dyn Display)] = &[
            ("class", &"to"),
            ("text-anchor", &place),
            ("x", &x),
            ("y", &(y + 3)),
        ];
        html.saying("text", attributes, id);
    }
}
