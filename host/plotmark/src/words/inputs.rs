//! What is told of one required input.

use std::collections::BTreeSet;

use dustroute::{BlockKind, ComponentId, LeftOut, RequiredInputStatus};

use super::connections;
use super::names::{at, capital, count, ids, named};
use crate::plot::{Input, Plot};
use crate::terms;
use crate::told::{Line, Tone};

/// So many connections that were left out upstream of an input are told with it.
const UPSTREAM: usize = 6;

/// So many places where an input could be put are told with their cells.
const PLACES: usize = 6;

/// How a verdict is meant.
#[must_use]
pub const fn tone(status: RequiredInputStatus) -> Tone {
    match status {
        RequiredInputStatus::DrivenByKnownSource => Tone::Good,
        RequiredInputStatus::AwaitingExternalInput => Tone::Waits,
        RequiredInputStatus::Disconnected | RequiredInputStatus::NoKnownSource => Tone::Bad,
    }
}

/// A verdict behind a number of inputs.
pub const fn briefly(status: RequiredInputStatus) -> &'static str {
    match status {
        RequiredInputStatus::DrivenByKnownSource => "driven",
        RequiredInputStatus::AwaitingExternalInput => "waiting for an input from outside",
        RequiredInputStatus::Disconnected => "with nothing connected",
        RequiredInputStatus::NoKnownSource => "connected and driven by nothing",
    }
}

/// Where an input is, as in "at its back (West)".
#[must_use]
pub fn side(plot: &Plot, input: &Input) -> String {
    let face = input.face;
    match plot.block(input.port.component).map(|it| it.kind) {
        Some(BlockKind::Repeater | BlockKind::Comparator) => format!("at its back ({face})"),
        Some(BlockKind::RedstoneTorch) => format!("from the block that holds it ({face})"),
        _ => format!("on its {face} side"),
    }
}

/// What is told in place of so many driven inputs.
pub fn counted(driven: usize, are_all: bool) -> Line {
    let which = if are_all { "All" } else { "The other" };
    let inputs = count(driven, "input", "inputs");
    Line::plain(format!("{which} {inputs} "))
        .verdict(Tone::Good, "are driven")
        .and(" (each is told with --all)")
}

/// Inputs in their order, each with what belongs to it. What is said of a device is said
/// with the first of its inputs, and inputs that have nothing connected are said
/// together.
pub fn lines(plot: &Plot, inputs: &[&Input]) -> Vec<Line> {
    let devices = inputs.chunk_by(|a, b| a.port.component == b.port.component);
    let mut lines = Vec::new();
    for device in devices {
        let is_empty = |it: &&&Input| it.status == RequiredInputStatus::Disconnected;
        let (empty, others): (Vec<&Input>, Vec<&Input>) = device.iter().partition(is_empty);
        let groups = others.into_iter().map(|it| vec![it]);
        let groups = groups.chain([empty].into_iter().filter(|it| !it.is_empty()));
        for (place, group) in groups.enumerate() {
            lines.extend(told(plot, &group, place == 0));
        }
    }
    lines
}

/// Inputs of one device with one verdict.
fn told(plot: &Plot, group: &[&Input], is_first: bool) -> Option<Line> {
    let input = *group.first()?;
    let id = input.port.component;
    let (_, name) = named(plot, id);
    let line = Line::default().block((id, capital(&name)));
    let line = line.and(format!(" at {}: ", at(plot, id)));
    let (what, verdict) = match group.len() {
        1 => (
            format!("its input {} ", side(plot, input)),
            input.status.to_string(),
        ),
        _ => (
            format!("its inputs on its {} sides ", sides(group)),
            "have nothing connected".to_string(),
        ),
    };
    let line = line.and(what).verdict(tone(input.status), verdict).and(".");
    Some(line.over(under(plot, input, is_first)))
}

/// As in "North, East and West".
fn sides(group: &[&Input]) -> String {
    let faces = group.iter().map(|it| it.face.to_string());
    let faces: Vec<String> = faces.collect();
    match faces.as_slice() {
        [before @ .., last] if !before.is_empty() => format!("{} and {last}", before.join(", ")),
        all => all.join(", "),
    }
}

/// What belongs to an input.
fn under(plot: &Plot, input: &Input, is_first: bool) -> Vec<Line> {
    let mut under = Vec::new();
    if is_first {
        let block = plot.block(input.port.component);
        let blank = block.and_then(|it| terms::blank(plot.sheet.rules, it));
        under.extend(blank.map(Line::plain));
    }
    if !input.immediate.is_empty() {
        under.push(fed(plot, &input.immediate));
    }
    if input.status == RequiredInputStatus::DrivenByKnownSource {
        under.push(way(plot, input));
        return under;
    }
    if input.status == RequiredInputStatus::Disconnected {
        under.extend(beside(plot, input));
    }
    under.extend(places(plot, &input.inferred));
    if is_first {
        under.extend(own(plot, input));
    }
    under.extend(upstream(plot, input));
    under
}

fn fed(plot: &Plot, immediate: &BTreeSet<ComponentId>) -> Line {
    let line = Line::plain("fed by ");
    line.blocks(immediate.iter().map(|id| placed(plot, *id)), ", ")
}

fn placed(plot: &Plot, id: ComponentId) -> (ComponentId, String) {
    let (id, name) = named(plot, id);
    (id, format!("{name} at {}", at(plot, id)))
}

/// The way from the lever.
fn way(plot: &Plot, input: &Input) -> Line {
    let blocks = input.trail.iter().chain([&input.port.component]);
    let blocks = blocks.map(|id| named(plot, *id));
    Line::plain("the way: ").blocks(blocks, " > ")
}

/// Blocks that reach a repeater or a comparator at its sides, where its input is not.
fn beside(plot: &Plot, input: &Input) -> Vec<Line> {
    let kind = plot.block(input.port.component).map(|it| it.kind);
    if !matches!(kind, Some(BlockKind::Repeater | BlockKind::Comparator)) {
        return Vec::new();
    }
    let each = plot.beside(input.port);
    let each = each.filter_map(|it| Some((plot.port(it.sink)?.face, it.source.component)));
    let mut each: Vec<_> = each.collect();
    each.sort_unstable();
    each.dedup();
    let sides = each.chunk_by(|a, b| a.0 == b.0);
    let sides = sides.filter_map(|side| {
        let text = format!("reached at its side ({}) by ", side.first()?.0);
        let blocks = side.iter().map(|(_, id)| placed(plot, *id));
        let line = Line::plain(text).blocks(blocks, ", ");
        Some(line.and(", not at its back"))
    });
    sides.collect()
}

/// Where an input could be put.
fn places(plot: &Plot, inferred: &BTreeSet<ComponentId>) -> Option<Line> {
    let line = Line::plain("an input could be put at ");
    match inferred.len() {
        0 => None,
        count if count <= PLACES => {
            Some(line.blocks(inferred.iter().map(|id| placed(plot, *id)), " or "))
        }
        count => {
            let line = line.and(format!("any of {count} wires: "));
            Some(ids(line, inferred.iter().copied()))
        }
    }
}

fn names(it: &LeftOut, id: ComponentId) -> bool {
    [it.connection.source, it.connection.sink].contains(&id)
}

/// What was left out at the device.
fn own(plot: &Plot, input: &Input) -> Vec<Line> {
    let own = plot.left_out.iter();
    let own = own.filter(|it| names(it, input.port.component));
    let own = own.map(|it| connections::left_out(plot, it, "left out: "));
    own.collect()
}

/// What was left out that would lead to what feeds an input.
fn upstream(plot: &Plot, input: &Input) -> Vec<Line> {
    let leads = |it: &&LeftOut| {
        let is_own = names(it, input.port.component);
        !is_own && input.upstream.contains(&it.connection.sink)
    };
    let all: Vec<&LeftOut> = plot.left_out.iter().filter(leads).collect();
    let some = all.iter().take(UPSTREAM);
    let some = some.map(|it| connections::left_out(plot, it, "left out on the way to it: "));
    let mut lines: Vec<Line> = some.collect();
    if all.len() > UPSTREAM {
        let more = all.len() - UPSTREAM;
        lines.push(Line::plain(format!("and {more} more, told below")));
    }
    lines
}
