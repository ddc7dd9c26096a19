//! Plots for rings: all graphs over few wires, and drawn ones near a tree of
//! wires that are joined both ways.

use scenes::Scene;
use scenes::limits::{CONNECTIONS, PORT_CONNECTION, SUPPORT};
use scenes::random::Random;

/// Wires in a row of cells, with these ids.
fn wires(ids: &[i64]) -> Vec<i64> {
    let cells = (0..).zip(ids);
    let rows = cells.map(|(x, &id)| [id, x, 0, 0, 0, 0, 0, 0]);
    rows.collect::<Vec<_>>().concat()
}

/// So many wires, from each to each a connection where the bit of the pair is
/// set. Their ids and the transfers go round with the code.
pub fn graph(count: u32, code: u32) -> Scene {
    let id = |wire: u32| i64::from(10 * ((wire + code) % count) + 3);
    let ids: Vec<i64> = (0..count).map(id).collect();
    let pairs = (0..count * count).filter(|pair| (code >> pair) & 1 == 1);
    let row = |pair: u32| {
        let transfer = i64::from((code / 7 + pair) % 6);
        [id(pair / count), 1, id(pair % count), 3, transfer]
    };
    Scene {
        components: wires(&ids),
        ports: pairs.flat_map(row).collect(),
        ..Scene::default()
    }
}

/// All graphs over up to four wires, those that feed themselves among them.
pub fn graphs() -> impl Iterator<Item = Scene> {
    (1..=4).flat_map(|count| (0..1 << (count * count)).map(move |code| graph(count, code)))
}

/// Connections between places, of a shape that is drawn too.
fn drawn_pairs(count: usize, random: &mut Random) -> Vec<[usize; 2]> {
    let any = |random: &mut Random| [random.below(count), random.below(count)];
    let shape = random.below(4);
    if shape == 0 {
        let many = random.below(2 * count + 1);
        return (0..many).map(|_| any(random)).collect();
    }
    // Trees joined both ways: rows, or any.
    let mut pairs = Vec::new();
    for place in 1..count {
        if random.once_in(8) {
            continue;
        }
        let other = if shape == 1 {
            place - 1
        } else {
            random.below(place)
        };
        pairs.extend([[place, other], [other, place]]);
    }
    // A connection or two more, one less.
    if shape == 3 {
        pairs.extend((0..random.below(3)).map(|_| any(random)));
    }
    if random.once_in(2) && !pairs.is_empty() {
        pairs.swap_remove(random.below(pairs.len()));
    }
    pairs
}

/// Up to so many wires with ids in any order; supports, some with a missing end,
/// and repeats by other ports or transfers are among the connections.
pub fn drawn(most: usize, random: &mut Random) -> Scene {
    let count = 1 + random.below(most);
    let mut ids: Vec<i64> = (0..).step_by(7).take(count).collect();
    for id in &mut ids {
        *id += random.between(0, 6);
    }
    random.shuffle(&mut ids);
    let mut rows: Vec<[i64; PORT_CONNECTION]> = Vec::new();
    for [source, sink] in drawn_pairs(count, random) {
        let transfer = random.between(0, SUPPORT - 1);
        rows.push([ids[source], 1, ids[sink], 3, transfer]);
    }
    for _ in 0..random.below(5) {
        let [source, sink] = [random.below(count + 1), random.below(count + 1)];
        let id = |place: usize| ids.get(place).copied().unwrap_or(900_000);
        rows.push([id(source), 0, id(sink), 0, SUPPORT]);
        if !rows.is_empty() {
            let mut again = rows[random.below(rows.len())];
            again[1] = random.between(0, 255);
            rows.push(again);
        }
    }
    random.shuffle(&mut rows);
    rows.truncate(CONNECTIONS);
    Scene {
        components: wires(&ids),
        ports: rows.concat(),
        ..Scene::default()
    }
}
