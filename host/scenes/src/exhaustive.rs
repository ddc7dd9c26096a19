//! Small cases, all of them: valid scenes for answers, and lists with every
//! combination of faults for refusals.

use crate::Scene;
use crate::limits::{COMPONENT, CONNECTION, FRONTIER, PORT_CONNECTION};

/// Wire, Repeater, RedstoneTorch, Lever, Solid, RedstoneLamp.
const KINDS: [i64; 6] = [0, 1, 3, 4, 9, 11];

/// Every order of the ids of up to three components.
const ORDERS: [&[i64]; 10] = [
    &[],
    &[0],
    &[0, 1],
    &[1, 0],
    &[0, 1, 2],
    &[0, 2, 1],
    &[1, 0, 2],
    &[1, 2, 0],
    &[2, 0, 1],
    &[2, 1, 0],
];

/// Grouping connections to choose from, ascending.
const CONNECTIONS: [[i64; CONNECTION]; 5] = [[0, 1, 0], [0, 7, 0], [1, 0, 5], [1, 2, 3], [2, 0, 0]];

/// Port connections to choose from, the support one with a missing end.
const PORTS: [[i64; PORT_CONNECTION]; 5] = [
    [0, 1, 1, 1, 4],
    [0, 6, 7, 0, 6],
    [1, 0, 0, 1, 0],
    [1, 0, 2, 4, 5],
    [2, 1, 0, 1, 0],
];

/// It faces East, so that a row of repeaters hangs together; a torch is held
/// from the East, and what can conduct does.
const fn component(id: i64, x: i64, kind: i64) -> [i64; COMPONENT] {
    [id, x, 0, 0, kind, 2, 2, 1]
}

/// Positions by two bits: each component in the cell of the one before it, or
/// in the next. A cell that two share must have them by rising id.
fn components(order: &[i64], cells: usize, kinds: usize) -> Option<Vec<i64>> {
    let (mut x, mut rest) = (0, kinds);
    let mut list = Vec::new();
    for (place, &id) in order.iter().enumerate() {
        let same_cell = place > 0 && (cells >> (place - 1)) & 1 == 1;
        if same_cell && order[place - 1] > id {
            return None;
        }
        x += i64::from(place > 0 && !same_cell);
        list.extend(component(id, x, KINDS[rest % KINDS.len()]));
        rest /= KINDS.len();
    }
    Some(list)
}

fn chosen<const W: usize>(rows: &[[i64; W]], subset: usize) -> Vec<[i64; W]> {
    let places = (0..rows.len()).filter(|place| (subset >> place) & 1 == 1);
    places.map(|place| rows[place]).collect()
}

/// The port connections whose ends exist, and the support one.
fn fed(order: &[i64], subset: usize) -> Vec<i64> {
    let rows = chosen(&PORTS, subset).into_iter();
    rows.filter(|row| row[4] == 6 || (order.contains(&row[0]) && order.contains(&row[2])))
        .flatten()
        .collect()
}

/// All valid scenes of up to three components in a row of cells, of six
/// kinds, with every subset of five connections and, for some, a frontier.
pub fn scenes() -> impl Iterator<Item = Scene> {
    ORDERS.into_iter().flat_map(|order| {
        let places = u32::try_from(order.len()).unwrap_or(0);
        let kinds = KINDS.len().pow(places);
        let cells = 1 << places.saturating_sub(1);
        (0..kinds * cells).flat_map(move |shape| {
            let list = components(order, shape / kinds, shape % kinds);
            list.into_iter().flat_map(move |components| {
                (0..1 << CONNECTIONS.len()).map(move |subset| Scene {
                    components: components.clone(),
                    connections: chosen(&CONNECTIONS, subset).concat(),
                    ports: fed(order, subset),
                    frontiers: if subset % 5 == 2 {
                        vec![1, 0, 0]
                    } else {
                        Vec::new()
                    },
                })
            })
        })
    })
}

/// Pairs of four places, each source with each other sink.
fn pairs_of_four() -> impl Iterator<Item = [i64; 2]> {
    let all = (0..4).flat_map(|source| (0..4).map(move |sink| [source, sink]));
    all.filter(|[source, sink]| source != sink)
}

/// Every order of the ids 0 to 3.
fn orders_of_four() -> impl Iterator<Item = [i64; 4]> {
    let all = (0..256).map(|code| [code / 64, code / 16 % 4, code / 4 % 4, code % 4]);
    all.filter(|order| (0..4).all(|id| order.contains(&id)))
}

/// All directed graphs over four wires, their ids in every order. The kinds of
/// the connections go round with the graph's number, so that nets, fragments
/// and support all occur; self connections do not.
pub fn graphs() -> impl Iterator<Item = Scene> {
    orders_of_four().flat_map(|order| {
        let places = (0..).zip(order);
        let components: Vec<i64> = places.flat_map(|(x, id)| component(id, x, 0)).collect();
        (0..1 << 12).map(move |graph: i64| {
            let pairs = (0..).zip(pairs_of_four());
            let chosen = pairs.filter(|(place, _)| (graph >> place) & 1 == 1);
            let row = |(place, [source, sink]): (i64, [i64; 2])| {
                let kind = match (graph + place) % 8 {
                    5 => 9,
                    6 | 7 => 5 + place % 4,
                    kind => kind,
                };
                [source, sink, kind]
            };
            Scene {
                components: components.clone(),
                connections: chosen.flat_map(row).collect(),
                ..Scene::default()
            }
        })
    })
}

/// All sequences of at most `most` of the records, as flat lists.
fn sequences<const W: usize>(records: &[[i64; W]], most: usize) -> Vec<Vec<i64>> {
    let mut all = vec![Vec::new()];
    let mut last = all.clone();
    for _ in 0..most {
        let longer = last.iter().flat_map(|list: &Vec<i64>| {
            let next = records.iter();
            next.map(move |record| [&list[..], &record[..]].concat())
        });
        last = longer.collect();
        all.extend(last.iter().cloned());
    }
    all
}

/// Components, some good, some equal, unordered or out of range in turn.
const ANY_COMPONENTS: [[i64; COMPONENT]; 8] = [
    [0, 0, 0, 0, 0, 0, 0, 0],
    [1, 0, 0, 0, 12, 6, 6, 1],
    [0, 1, 0, 0, 1, 2, 0, 0],
    [2, -30_000_000, 30_000_000, 0, 3, 0, 2, 0],
    [4_294_967_295, 0, 0, 1, 0, 0, 0, 0],
    [-1, 0, 0, 0, 0, 0, 0, 0],
    [3, 0, 30_000_001, 0, 0, 0, 0, 0],
    [3, 0, 0, 0, 13, 0, 0, 0],
];

const ANY_CONNECTIONS: [[i64; CONNECTION]; 6] = [
    [0, 1, 0],
    [0, 1, 9],
    [1, 0, 4],
    [0, 4_294_967_295, 0],
    [0, 4_294_967_296, 0],
    [0, 0, 10],
];

const ANY_PORTS: [[i64; PORT_CONNECTION]; 6] = [
    [0, 0, 1, 255, 0],
    [0, 0, 7, 0, 6],
    [7, 0, 0, 0, 5],
    [1, 1, 4_294_967_295, 0, 3],
    [0, 256, 1, 0, 6],
    [0, 0, 1, 0, 7],
];

const ANY_FRONTIERS: [[i64; FRONTIER]; 2] = [[30_000_000, 0, -30_000_000], [0, 0, 30_000_001]];

/// Lists of up to three components, two connections and one frontier, good
/// and bad in every combination. The lists of grouping connections and of port
/// connections go in step, since no entry takes both.
pub fn lists() -> impl Iterator<Item = Scene> {
    let connections = sequences(&ANY_CONNECTIONS, 2);
    let ports = sequences(&ANY_PORTS, 2);
    let frontiers = sequences(&ANY_FRONTIERS, 1);
    let components = sequences(&ANY_COMPONENTS, 3);
    components.into_iter().flat_map(move |components| {
        let frontiers = frontiers.clone();
        let edges: Vec<_> = connections.iter().cloned().zip(ports.clone()).collect();
        edges.into_iter().flat_map(move |(connections, ports)| {
            let scene = Scene {
                components: components.clone(),
                connections,
                ports,
                frontiers: Vec::new(),
            };
            let frontiers = frontiers.clone().into_iter();
            frontiers.map(move |frontiers| Scene {
                frontiers,
                ..scene.clone()
            })
        })
    })
}
