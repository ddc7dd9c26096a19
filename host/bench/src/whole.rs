//! A whole report: a sheet read, the plot analysed, the report printed.

use std::collections::{BTreeMap, BTreeSet};

use dustroute_physical::{ComponentId, PhysicalScene, VerifiedTopology};
use dustroute_translate::{SignalLivenessReport, analyze_signal_liveness};
use oracle::{Groups, Input, Liveness, Region, lists};
use paper::parse::parse;
use paper::report::print;
use probe::report::report;
use scenes::Scene;
use scenes::limits::{COMPONENT, RULES_OF_THE_RUST};
use scenes::sheets::{self, Limits, sheet_of};

use crate::measure::Times;
use crate::subjects::Subject;

/// A sheet, and what the proved entry is lent.
pub struct Whole {
    text: Vec<u8>,
    work: [Vec<i64>; 3],
    out: Vec<u8>,
}

impl Subject for Whole {
    fn new(scene: Scene) -> Self {
        let text = sheet_of(&scene);
        let out = vec![0; by_the_rust(&text).len()];
        let work = sheets::lists(&scene).map(|list| vec![0; list.len()]);
        Self { text, work, out }
    }

    fn run(&mut self, times: &mut Times) {
        times.rust(|| by_the_rust(&self.text));
        times.proved(|| {
            let [components, connections, frontiers] = &mut self.work;
            let work = [&mut components[..], connections, frontiers];
            let answer = report(&self.text, Limits::SCENE.each(), work, &mut self.out);
            assert_eq!(answer, Ok(self.out.len() as u64));
        });
    }
}

/// The restatement's reader and printer, and between them each function of the
/// Rust once. Nothing is checked but the lines.
fn by_the_rust(text: &[u8]) -> Vec<u8> {
    let read = parse(text, Limits::SCENE)
        .map(|it| it.scene)
        .unwrap_or_default();
    let topology = lists::topology(&read.components, &read.connections);
    let observation = lists::observation(&read.frontiers);
    let scene = PhysicalScene::from_unvalidated_topology(observation, &topology);
    let alive = analyze_signal_liveness(&scene);
    let ids: Vec<i64> = read.components.iter().step_by(COMPONENT).copied().collect();
    let groups = groups(&ids, &topology);
    print(
        RULES_OF_THE_RUST,
        &read.components,
        &groups,
        &kept(&scene),
        &liveness(&ids, &alive),
    )
}

fn number(id: ComponentId) -> i64 {
    i64::try_from(id.0).unwrap_or(i64::MAX)
}

fn numbers(ids: &BTreeSet<ComponentId>) -> Vec<i64> {
    ids.iter().copied().map(number).collect()
}

/// The place of the set that holds each id.
fn places<'a>(ids: &[i64], sets: impl Iterator<Item = &'a BTreeSet<ComponentId>>) -> Vec<i64> {
    let mut place = BTreeMap::new();
    for (index, set) in (0..).zip(sets) {
        place.extend(set.iter().map(|id| (number(*id), index)));
    }
    let place = |id: &i64| place.get(id).copied().unwrap_or(-1);
    ids.iter().map(place).collect()
}

/// As much of the groups as a report prints.
fn groups(ids: &[i64], topology: &VerifiedTopology) -> Groups {
    Groups {
        net: places(ids, topology.nets.iter().map(|it| &it.components)),
        fragment: places(ids, topology.fragments.iter().map(|it| &it.components)),
        ..Groups::default()
    }
}

fn kept(scene: &PhysicalScene) -> Vec<[i64; 5]> {
    let rows = scene.connections.iter().map(|it| {
        [
            number(it.source.component),
            i64::from(it.source.port.0),
            number(it.sink.component),
            i64::from(it.sink.port.0),
            it.transfer as i64,
        ]
    });
    rows.collect()
}

fn inputs(report: &SignalLivenessReport) -> Vec<Input> {
    let rows = report.required_input_assessments.iter();
    rows.map(|it| Input {
        device: number(it.device),
        port: i64::from(it.input.port.0),
        status: it.status as i64,
        immediate: numbers(&it.immediate_sources),
        inferred: numbers(&it.inferred_primary_inputs),
    })
    .collect()
}

/// As much of the analysis as a report prints.
fn liveness(ids: &[i64], report: &SignalLivenessReport) -> Liveness {
    let regions = || report.directed_regions.iter();
    let flags = |region: &dustroute_translate::DirectedSignalRegion| Region {
        cyclic: region.cyclic,
        contains_drive_source: region.contains_drive_source,
        members: Vec::new(),
    };
    let sources = report.sources.iter();
    Liveness {
        region: places(ids, regions().map(|it| &it.components)),
        regions: regions().map(flags).collect(),
        sources: sources
            .map(|it| [number(it.component), it.kind as i64])
            .collect(),
        drive: numbers(&report.drive_reachable),
        potential: numbers(&report.potential_drive_reachable),
        inputs: inputs(report),
    }
}
