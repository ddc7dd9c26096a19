//! Connections that were left out, as they are drawn.

use std::collections::BTreeMap;
use std::fmt::Display;

use super::arrows::{FREE, free, off};
use super::layers::{BETWEEN, HEIGHT, Layer, Spot, WIDTH};
use super::links::{Cross, Links, Place};
use super::shapes::{self, Point};
use crate::html::Html;
use crate::plot::Marked;
use crate::terms::opposite;

/// How far from the middle of a side a cross stands beside an arrow.
const ASIDE: i32 = 25;

/// Draws what was left out in a layer; each cross leads to its line of words.
pub fn draw(html: &mut Html, marked: &Marked, links: &Links, layer: &Layer) {
    for lost in found(links, layer).values() {
        let line = format!("#line{}", lost.cross.line);
        let attributes: &[(&str, &dyn Display)] = &[("href", &line), ("class", &lost.class())];
        html.within("a", attributes, |html| {
            html.saying("title", &[], &lost.said());
            lost.draw(html, marked, links, layer);
        });
        html.line();
    }
}

/// What was left out in a layer, by where it is crossed: between two cells there is one
/// cross, whichever of their blocks it was told of.
fn found<'a>(links: &'a Links, layer: &Layer) -> BTreeMap<Point, Lost<'a>> {
    let mut found: BTreeMap<Point, Lost<'a>> = BTreeMap::new();
    for (place, cross) in &links.crosses {
        let Some(spot) = layer.spots.get(&place.0) else {
            continue;
        };
        let at = match place.1 {
            Some(face) => off(*spot, face, 0, BETWEEN / 2),
            None => (spot.x + WIDTH, spot.y + HEIGHT),
        };
        let lost = found.entry(at).or_insert_with(|| Lost {
            cross,
            place: *place,
            spot: *spot,
            more: Vec::new(),
        });
        if lost.place != *place {
            lost.more.push(cross);
        }
    }
    found
}

/// Connections that were left out: a red cross, or a grey one where only support is.
struct Lost<'a> {
    cross: &'a Cross,
    place: Place,
    spot: Spot,
    /// Others at the same place.
    more: Vec<&'a Cross>,
}

impl Lost<'_> {
    fn class(&self) -> &'static str {
        if self.cross.matters || self.more.iter().any(|it| it.matters) {
            "left-out"
        } else {
            "left-out support"
        }
    }

    fn said(&self) -> String {
        let all = [self.cross].into_iter().chain(self.more.iter().copied());
        let said = all.flat_map(|it| &it.said);
        let said: Vec<&str> = said.map(String::as_str).collect();
        format!("block {}: {}", self.place.0.0, said.join("\n"))
    }

    fn draw(&self, html: &mut Html, marked: &Marked, links: &Links, layer: &Layer) {
        let (id, side) = self.place;
        let Some(face) = side else {
            let corner = (self.spot.x + WIDTH, self.spot.y + HEIGHT);
            return shapes::cross(html, self.cross.gone, corner);
        };
        if !is_free(links, self.place) {
            return shapes::cross(html, false, off(self.spot, face, ASIDE, BETWEEN / 2));
        }
        let (mut from, mut to) = (free(marked, id, face), BETWEEN - FREE);
        let other = self.cross.other.filter(|id| layer.spots.contains_key(id));
        if let Some(other) = other {
            to = BETWEEN - free(marked, other, opposite(face));
            let [from, to] = [from, to].map(|out| off(self.spot, face, 0, out));
            shapes::line(html, "lost", from, to);
        } else {
            from = FREE;
        }
        shapes::cross(html, false, off(self.spot, face, 0, (from + to) / 2));
    }
}

/// Whether no arrow is drawn on the side on which a cross stands.
fn is_free(links: &Links, (id, side): Place) -> bool {
    let mut arrows = links.arrows.keys();
    !arrows.any(|(first, second, face)| {
        let ends = [(*first, *face), (*second, opposite(*face))];
        ends.iter().any(|it| (it.0, Some(it.1)) == (id, side))
    })
}
