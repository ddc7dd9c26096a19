//! What is drawn of connections: arrows within a layer, stubs to another, marks straight
//! up and down, and crosses of those that were left out.

use std::collections::{BTreeMap, BTreeSet};

use dustroute::{ComponentId, Facing, KeptConnection, LeftOut, Why};

use crate::plot::Plot;
use crate::steps::Step;
use crate::terms;
use crate::words;

/// Which ways a connection goes, and what is said of it.
#[derive(Clone, Debug, Default, Eq, PartialEq)]
pub struct Link {
    /// Away from the first block, or from the one at which it is drawn.
    pub out: bool,
    /// To it.
    pub back: bool,
    /// The blocks at the other end.
    pub others: BTreeSet<ComponentId>,
    /// What it says.
    pub said: Vec<String>,
}

/// Where a cross is drawn: at a block, on one of its sides.
pub type Place = (ComponentId, Option<Facing>);

/// Connections that were left out, at one place.
#[derive(Clone, Debug, Default, Eq, PartialEq)]
pub struct Cross {
    /// Whether one names a block that is not on the plot.
    pub gone: bool,
    /// Whether one is no support: support is left out of every plot.
    pub matters: bool,
    /// The block at the other end of the first one.
    pub other: Option<ComponentId>,
    /// The line of the first one in the sheet.
    pub line: usize,
    /// What it says.
    pub said: Vec<String>,
}

/// All links of a plot.
#[derive(Clone, Debug, Default, Eq, PartialEq)]
pub struct Links {
    /// From a block to the next one East or South in its layer.
    pub arrows: BTreeMap<(ComponentId, ComponentId, Facing), Link>,
    /// At a block, on a side, to the layer above (or below).
    pub stubs: BTreeMap<(ComponentId, Facing, bool), Link>,
    /// At a block, straight up or down.
    pub uprights: BTreeMap<(ComponentId, Facing), Link>,
    /// What was left out.
    pub crosses: BTreeMap<Place, Cross>,
}

impl Link {
    fn add(&mut self, is_out: bool, other: ComponentId, said: &str) {
        self.out |= is_out;
        self.back |= !is_out;
        self.others.insert(other);
        if self.said.iter().all(|it| it != said) {
            self.said.push(said.to_string());
        }
    }
}

/// The links of a plot.
#[must_use]
pub fn links(plot: &Plot) -> Links {
    let mut links = Links::default();
    for it in &plot.kept {
        links.keep(plot, it);
    }
    for it in &plot.left_out {
        links.leave_out(plot, it);
    }
    links
}

impl Links {
    fn keep(&mut self, plot: &Plot, it: &KeptConnection) {
        let [source, sink] = [it.connection.source, it.connection.sink].map(|end| end.component);
        let Some(step) = step(plot, source, sink) else {
            return;
        };
        let given = plot.sheet.connections.get(it.item);
        let kind = given.map_or_else(String::new, |it| format!(": {}", it.kind));
        let [from, to] = [source, sink].map(|id| words::named(plot, id).1);
        let said = format!("{from} to {to}{kind}");
        let back = terms::opposite(step.face);
        let forth = step.face;
        if step.is_upright() {
            let uprights = &mut self.uprights;
            uprights
                .entry((source, forth))
                .or_default()
                .add(true, sink, &said);
            uprights
                .entry((sink, back))
                .or_default()
                .add(false, source, &said);
        } else if step.climb != 0 {
            let rises = step.climb > 0;
            let stubs = &mut self.stubs;
            stubs
                .entry((source, forth, rises))
                .or_default()
                .add(true, sink, &said);
            stubs
                .entry((sink, back, !rises))
                .or_default()
                .add(false, source, &said);
        } else if matches!(forth, Facing::East | Facing::South) {
            let key = (source, sink, forth);
            self.arrows.entry(key).or_default().add(true, sink, &said);
        } else {
            let key = (sink, source, back);
            self.arrows
                .entry(key)
                .or_default()
                .add(false, source, &said);
        }
    }

    fn leave_out(&mut self, plot: &Plot, it: &LeftOut) {
        let said = words::left_out(plot, it, "left out: ").text();
        let line = plot.lines.connection(it.item);
        for place in places(plot, it) {
            let cross = self.crosses.entry(place).or_default();
            cross.gone |= matches!(it.why, Why::NoSource | Why::NoSink | Why::Neither);
            cross.matters |= it.why != Why::Support;
            if cross.said.is_empty() {
                cross.line = line;
                let ends = [it.connection.source, it.connection.sink];
                cross.other = ends.into_iter().find(|id| *id != place.0);
            }
            cross.said.push(said.clone());
        }
    }
}

fn step(plot: &Plot, source: ComponentId, sink: ComponentId) -> Option<Step> {
    Step::between(plot.block(source)?.position, plot.block(sink)?.position)
}

/// Where a connection that was left out is crossed: between two blocks that touch; else
/// at each of its ends that is on the plot.
fn places(plot: &Plot, it: &LeftOut) -> Vec<Place> {
    let [source, sink] = [it.connection.source, it.connection.sink];
    match step(plot, source, sink) {
        Some(step) if step.is_upright() => vec![(source, None)],
        Some(step) if step.climb == 0 && matches!(step.face, Facing::West | Facing::North) => {
            vec![(sink, Some(terms::opposite(step.face)))]
        }
        Some(step) => vec![(source, Some(step.face))],
        None => {
            let mut ends = vec![source, sink];
            ends.dedup();
            ends.retain(|id| plot.block(*id).is_some());
            ends.into_iter().map(|id| (id, None)).collect()
        }
    }
}
