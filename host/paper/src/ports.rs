//! "Ports": tables by kind, the step's face and slope, the first port that fits.

use std::collections::BTreeMap;

use scenes::limits::{COMPONENT, CONNECTION, UNREAD_BLANKS};

const INPUT: i64 = 0;
const OUTPUT: i64 = 1;
const BIDIRECTIONAL: i64 = 2;
const CONTROL: i64 = 3;
const SUPPORT: i64 = 4;

const SIGNAL: i64 = 0;
const WEAK: i64 = 1;
const STRONG: i64 = 2;
const MECHANICAL: i64 = 3;
const STRUCTURAL: i64 = 4;

const NORTH: i64 = 1;
const UP: i64 = 5;
const DOWN: i64 = 6;
const FOUR: [i64; 4] = [1, 2, 3, 4];

/// Role, face and channel.
type Port = [i64; 3];

const fn opposite(face: i64) -> i64 {
    match face {
        1 => 3,
        2 => 4,
        3 => 1,
        4 => 2,
        5 => 6,
        _ => 5,
    }
}

const fn or(face: i64, none: i64) -> i64 {
    if face == 0 { none } else { face }
}

fn four(role: i64, channel: i64) -> Vec<Port> {
    FOUR.map(|face| [role, face, channel]).to_vec()
}

fn six(channel: i64) -> Vec<Port> {
    let mut ports = four(BIDIRECTIONAL, channel);
    ports.extend([UP, DOWN].map(|face| [BIDIRECTIONAL, face, channel]));
    ports
}

/// Output at facing, Input opposite, Control on the rest of the four.
fn repeater(facing: i64) -> Vec<Port> {
    let ends = [facing, opposite(facing)];
    let mut ports = vec![[OUTPUT, ends[0], SIGNAL], [INPUT, ends[1], SIGNAL]];
    let sides = FOUR.into_iter().filter(|face| !ends.contains(face));
    ports.extend(sides.map(|face| [CONTROL, face, SIGNAL]));
    ports.push([SUPPORT, DOWN, STRUCTURAL]);
    ports
}

/// Repeater, Comparator and Piston.
const TURNING: [i64; 3] = [1, 2, PISTON];
const PISTON: i64 = 8;

/// Whether a device has no facing under rules by which that is not taken as North.
#[must_use]
pub fn is_unread(rules: i64, record: &[i64]) -> bool {
    rules >= UNREAD_BLANKS && record[5] == 0 && TURNING.contains(&record[4])
}

/// "Facing 0 gives a Repeater or Comparator its Support port only, as port 0, and
/// gives a Piston its four Inputs only."
fn unread(kind: i64) -> Vec<Port> {
    if kind == PISTON {
        four(INPUT, SIGNAL)
    } else {
        vec![[SUPPORT, DOWN, STRUCTURAL]]
    }
}

/// The ports of one component, under the rules of a number.
fn of(rules: i64, record: &[i64]) -> Vec<Port> {
    let (facing, support, conducts) = (record[5], record[6], record[7]);
    match record[4] {
        kind if is_unread(rules, record) => unread(kind),
        0 => {
            let mut ports = six(SIGNAL);
            ports.push([SUPPORT, DOWN, STRUCTURAL]);
            ports
        }
        1 | 2 => repeater(or(facing, NORTH)),
        3 => {
            let mut ports = four(OUTPUT, SIGNAL);
            ports.push([CONTROL, or(support, DOWN), SIGNAL]);
            ports
        }
        4..=7 => four(OUTPUT, STRONG),
        PISTON => {
            let mut ports = four(INPUT, SIGNAL);
            ports.push([OUTPUT, or(facing, NORTH), MECHANICAL]);
            ports
        }
        9..=11 if conducts == 1 => six(WEAK),
        _ => Vec::new(),
    }
}

/// The ports of each component.
#[must_use]
pub fn ports_of(rules: i64, components: &[i64]) -> Vec<Vec<Port>> {
    let records = components.chunks_exact(COMPONENT);
    records.map(|record| of(rules, record)).collect()
}

/// The face of a step, sink minus source.
fn face(source: &[i64], sink: &[i64]) -> Option<i64> {
    let step = [1, 2, 3].map(|axis| sink[axis] - source[axis]);
    match step {
        [1, -1..=1, 0] => Some(2),
        [-1, -1..=1, 0] => Some(4),
        [0, -1..=1, 1] => Some(3),
        [0, -1..=1, -1] => Some(1),
        [0, 1, 0] => Some(UP),
        [0, -1, 0] => Some(DOWN),
        _ => None,
    }
}

/// Level 0, rising 1, falling 2. "A pure Up step rises, a pure Down step falls
/// and one without a face is level."
fn slope(source: &[i64], sink: &[i64]) -> i64 {
    match (face(source, sink), sink[2] - source[2]) {
        (Some(_), 1) => 1,
        (Some(_), -1) => 2,
        _ => 0,
    }
}

/// The first port with the face that also fits.
fn choose(rules: i64, record: &[i64], face: i64, fits: impl Fn(Port) -> bool) -> Option<i64> {
    let ports = of(rules, record).into_iter().zip(0..);
    let mut fitting = ports.filter(|(port, _)| port[1] == face && fits(*port));
    fitting.next().map(|(_, number)| number)
}

fn fits_source(kind: i64, [role, _, channel]: Port) -> bool {
    match kind {
        9 => channel == STRUCTURAL,
        _ => role == OUTPUT || role == BIDIRECTIONAL,
    }
}

fn fits_sink(kind: i64, [role, _, channel]: Port) -> bool {
    match kind {
        9 => channel == STRUCTURAL,
        8 => role == CONTROL,
        _ => role == INPUT || role == BIDIRECTIONAL || role == CONTROL,
    }
}

const TRANSFERS: [i64; 10] = [0, 0, 0, 2, 3, 4, 4, 1, 5, 6];

/// The components by their ids.
fn by_id(components: &[i64]) -> BTreeMap<i64, &[i64]> {
    let records = components.chunks_exact(COMPONENT);
    records.map(|record| (record[0], record)).collect()
}

/// Rows of kept connections, each with the slope of its step behind it. The
/// Rust has none, so that its rows are given theirs here.
///
/// # Panics
/// Where an end is no component, which no kept connection has.
#[must_use]
pub fn sloped(components: &[i64], kept: &[[i64; 5]]) -> Vec<[i64; 6]> {
    let by_id = by_id(components);
    let row = |&[source, out, sink, into, transfer]: &[i64; 5]| {
        let slope = slope(by_id[&source], by_id[&sink]);
        [source, out, sink, into, transfer, slope]
    };
    kept.iter().map(row).collect()
}

/// The connections that are kept, in order.
#[must_use]
pub fn ports(rules: i64, components: &[i64], connections: &[i64]) -> Vec<[i64; 5]> {
    let by_id = by_id(components);
    let keep = |row: &[i64]| {
        let (source, sink, kind) = (by_id.get(&row[0])?, by_id.get(&row[1])?, row[2]);
        let face = face(source, sink)?;
        let out = choose(rules, source, face, |port| fits_source(kind, port))?;
        let into = choose(rules, sink, opposite(face), |port| fits_sink(kind, port))?;
        let transfer = TRANSFERS[usize::try_from(kind).ok()?];
        Some([row[0], out, row[1], into, transfer])
    };
    connections
        .chunks_exact(CONNECTION)
        .filter_map(keep)
        .collect()
}
