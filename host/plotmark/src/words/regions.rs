//! Regions, in the order in which they light.

use dustroute::{BlockKind, ComponentId, Step};

use super::names::{count, ids, named};
use crate::plot::{Marked, Plot};
use crate::terms;
use crate::told::{Line, Section, Tone};

/// What a region's blocks are, as in "wires 2 to 6".
fn members(plot: &Plot, blocks: &[ComponentId]) -> Line {
    let kinds = blocks.iter().filter_map(|id| plot.block(*id));
    let mut kinds: Vec<BlockKind> = kinds.map(|it| it.kind).collect();
    kinds.sort_unstable();
    kinds.dedup();
    match (blocks, kinds.as_slice()) {
        ([one], _) => Line::default().block(named(plot, *one)),
        (_, [kind]) => {
            let line = Line::plain(format!("{} ", terms::kinds(*kind)));
            ids(line, blocks.iter().copied())
        }
        _ => ids(Line::plain("blocks "), blocks.iter().copied()),
    }
}

/// Whether a region is driven, would be, or not.
#[must_use]
pub fn lights(marked: &Marked, step: &Step) -> (Tone, &'static str) {
    let first = step.blocks.first();
    let place = first.and_then(|id| marked.plot.place(*id));
    let found = place.and_then(|place| marked.mark.liveness.components.get(place));
    if step.lights {
        (Tone::Good, "driven")
    } else if found.is_some_and(|it| it.potential) {
        (Tone::Waits, "would be driven by an input")
    } else {
        (Tone::Bad, "not driven")
    }
}

/// A region without its number.
#[must_use]
pub fn region(marked: &Marked, step: &Step) -> Line {
    let (tone, text) = lights(marked, step);
    let line = members(&marked.plot, &step.blocks);
    let line = line.and(": ").verdict(tone, text);
    let found = marked.mark.liveness.regions.get(step.region);
    let line = match found {
        Some(it) if it.has_drive => line.and(", a source is in it"),
        _ => line,
    };
    let is_cyclic = found.is_some_and(|it| it.cyclic);
    match (is_cyclic, marked.rings.has_ring(step.region)) {
        (_, true) if step.blocks.len() == 1 => line.and(", a ring: it feeds itself"),
        (_, true) => line.and(", a ring"),
        (true, false) => line.and(", its blocks feed each other both ways (no ring)"),
        (false, false) => line,
    }
}

/// How many regions there are, and how many of them have a ring.
#[must_use]
pub fn title(marked: &Marked) -> String {
    let rings = marked.rings.rings.iter().filter(|has| **has).count();
    let with = match rings {
        0 => "none with a ring".to_string(),
        rings => format!("{rings} with a ring"),
    };
    let regions = count(marked.rings.rings.len(), "region", "regions");
    format!("Regions, in the order in which to light them: {regions}, {with}")
}

pub fn section(marked: &Marked) -> Section {
    let steps = marked.lighting.steps();
    let lines = steps.map(|step| {
        let mut line = region(marked, &step);
        let number = format!("{:3} ", step.region);
        line.parts.insert(0, crate::told::Part::Plain(number));
        line
    });
    Section {
        title: title(marked),
        lines: lines.collect(),
    }
}
