//! A block of the picture.

use std::fmt::Display;

use dustroute::{
    Component, ComponentId, Facing, RequiredInputStatus, SignalSource, SignalSourceKind,
};

use super::layers::{HEIGHT, Spot, WIDTH};
use super::shapes::{self, State, label};
use crate::html::Html;
use crate::plot::{Input, Marked};
use crate::terms;
use crate::words;

/// What is found of a block.
pub struct Found<'a> {
    pub block: &'a Component,
    pub state: State,
    pub net: usize,
    pub fragment: usize,
    pub region: usize,
    pub sources: Vec<&'a SignalSource>,
    pub inputs: Vec<&'a Input>,
}

impl<'a> Found<'a> {
    /// Of the block at a place of the list.
    pub fn at(marked: &'a Marked, place: usize) -> Option<Self> {
        let block = marked.plot.sheet.components.get(place)?;
        let alive = marked.mark.liveness.components.get(place)?;
        let groups = marked.mark.groups.components.get(place)?;
        let state = match (alive.drive, alive.potential) {
            (true, _) => State::Driven,
            (false, true) => State::Would,
            (false, false) => State::Not,
        };
        let sources = marked.mark.liveness.sources.iter();
        let inputs = marked.inputs.iter();
        Some(Self {
            block,
            state,
            net: groups.net,
            fragment: groups.fragment,
            region: alive.region,
            sources: sources.filter(|it| it.component == block.id).collect(),
            inputs: inputs.filter(|it| it.port.component == block.id).collect(),
        })
    }

    fn is_place(&self) -> bool {
        let kinds = self.sources.iter().map(|it| it.kind);
        kinds
            .into_iter()
            .all(|it| it == SignalSourceKind::InferredPrimaryInput)
    }

    /// All of it in a sentence, for who cannot see or points at it.
    pub fn said(&self, marked: &Marked) -> String {
        let (id, block) = (self.block.id, self.block);
        let (_, name) = words::named(&marked.plot, id);
        let mut said = format!("{name} at {}", words::at(&marked.plot, id));
        if let (true, Some(face)) = (terms::turns(block.kind), block.facing) {
            said += &format!(", faces {}", face);
        }
        if let Some(blank) = terms::blank(marked.plot.sheet.rules, block) {
            said += &format!(", {blank}");
        }
        said += &format!("; {}; region {}", self.state.said(), self.region);
        said += &format!(", net {}, fragment {}", self.net, self.fragment);
        for source in &self.sources {
            said += &format!("; {}", source.kind);
        }
        for input in &self.inputs {
            let side = words::side(&marked.plot, input);
            said += &format!("; its input {side} {}", input.status);
        }
        said
    }
}

/// The name by which a page links to a block.
pub fn anchor(id: ComponentId) -> String {
    format!("b{}", id.0)
}

/// Draws a block where it belongs.
pub fn draw(html: &mut Html, marked: &Marked, found: &Found<'_>, spot: Spot) {
    let is_unread = marked.plot.sheet.rules.leaves_unread(found.block);
    let unread = if is_unread { " unread" } else { "" };
    let class = format!("block {}{unread}", found.state.class());
    let lights = u8::from(found.state == State::Driven);
    let attributes: &[(&str, &dyn Display)] = &[
        ("class", &class),
        ("id", &anchor(found.block.id)),
        ("role", &"img"),
        ("data-region", &found.region),
        ("data-lights", &lights),
    ];
    html.within("g", attributes, |html| {
        html.saying("title", &[], &found.said(marked));
        names(html, found, spot);
        facing(html, found, is_unread, spot);
        signs(html, found, spot);
    });
    html.line();
}

/// The block with its kind, its id, its state and its region.
fn names(html: &mut Html, found: &Found<'_>, Spot { x, y }: Spot) {
    let middle = x + WIDTH / 2;
    shapes::outline(html, (x, y), (WIDTH, HEIGHT));
    label(
        html,
        "kind",
        (middle, y + 21),
        &terms::short_kind(found.block.kind),
    );
    let digits = found.block.id.0.to_string();
    label(html, id_class(digits.len()), (middle, y + 37), &digits);
    shapes::lamp(html, found.state, (x + 23, y + 47));
    label(html, "region", (x + 31, y + 50), &found.region.to_string());
}

/// How large an id is written.
const fn id_class(digits: usize) -> &'static str {
    match digits {
        0..=5 => "name",
        6..=7 => "name long",
        _ => "name longer",
    }
}

/// A triangle on the side to which a device faces.
fn facing(html: &mut Html, found: &Found<'_>, unread: bool, spot: Spot) {
    if !terms::turns(found.block.kind) {
        return;
    }
    let (x, y) = (spot.x, spot.y);
    if unread {
        return label(html, "faces", (x + 11, y + 9), "?");
    }
    let class = if found.block.facing.is_some() {
        "faces"
    } else {
        "faces taken"
    };
    match found.block.facing.unwrap_or(Facing::North) {
        Facing::North => shapes::head(html, class, (x + 12, y + 3), (0, -1)),
        Facing::East => shapes::head(html, class, (x + WIDTH - 3, y + 49), (1, 0)),
        Facing::South => shapes::head(html, class, (x + 12, y + HEIGHT - 3), (0, 1)),
        Facing::West => shapes::head(html, class, (x + 3, y + 49), (-1, 0)),
        Facing::Up => label(html, "faces", (x + 11, y + 9), "up"),
        Facing::Down => label(html, "faces", (x + 14, y + HEIGHT - 3), "down"),
    }
}

/// Sources at the corner, verdicts at their sides.
fn signs(html: &mut Html, found: &Found<'_>, spot: Spot) {
    let corner = (spot.x + WIDTH, spot.y);
    if !found.sources.is_empty() {
        if found.is_place() {
            shapes::place(html, corner);
        } else {
            shapes::star(html, corner);
        }
    }
    for input in &found.inputs {
        shapes::disc(html, input.status, spot.on(input.face, 0));
    }
}

/// Whether an input's sign stands on a side.
pub fn has_sign(inputs: &[Input], id: ComponentId, face: Facing) -> bool {
    let mut here = inputs.iter().filter(|it| it.port.component == id);
    here.any(|it| it.face == face)
}

/// The verdicts, with what their signs mean.
pub const VERDICTS: [(RequiredInputStatus, &str); 4] = [
    (
        RequiredInputStatus::DrivenByKnownSource,
        "its input is driven",
    ),
    (
        RequiredInputStatus::AwaitingExternalInput,
        "waits for an input from outside",
    ),
    (RequiredInputStatus::Disconnected, "nothing is connected"),
    (
        RequiredInputStatus::NoKnownSource,
        "connected, but nothing drives it",
    ),
];
