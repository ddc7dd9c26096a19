//! `left_out` held to a plain restatement and, with `ports`, to be a partition of
//! the list; `block_ports` to the scope paper's tables; in `reason_slices`, by the
//! calls themselves, to what they refuse and may write.

mod reason_slices;
#[expect(
    dead_code,
    reason = "port connections and frontiers have no part in it"
)]
mod typed;

use std::collections::BTreeMap;
use std::iter;

use dustroute::{
    BlockKind, Component, ComponentId, Connection, ConnectionKind, Facing, LeftOut, Port, Position,
    Role, Rules, Why, block_ports, left_out, ports,
};
use scenes::damage::{pair, single};
use scenes::random::Random;
use scenes::sized::Shape;
use scenes::{Profile, Scene, blanks, exhaustive};
use typed::Lists;

const fn opposite(face: Facing) -> Facing {
    match face {
        Facing::North => Facing::South,
        Facing::East => Facing::West,
        Facing::South => Facing::North,
        Facing::West => Facing::East,
        Facing::Up => Facing::Down,
        Facing::Down => Facing::Up,
    }
}

/// One East, West, North or South, level or one up or down, or straight up or down.
const fn step(source: Position, sink: Position) -> Option<Facing> {
    let [x, y, z] = [sink.x - source.x, sink.y - source.y, sink.z - source.z];
    match (x, z) {
        _ if y.abs() > 1 => None,
        (1, 0) => Some(Facing::East),
        (-1, 0) => Some(Facing::West),
        (0, 1) => Some(Facing::South),
        (0, -1) => Some(Facing::North),
        (0, 0) if y == 1 => Some(Facing::Up),
        (0, 0) if y == -1 => Some(Facing::Down),
        _ => None,
    }
}

/// Each component by its id, with its ports.
type Blocks = BTreeMap<ComponentId, (Position, Vec<Port>)>;

fn blocks(rules: Rules, components: &[Component], case: &str) -> Blocks {
    let each = components.iter().map(|it| match block_ports(rules, it) {
        Ok(ports) => (it.id, (it.position, ports)),
        Err(refusal) => panic!("{case}: {refusal}"),
    });
    each.collect()
}

/// The header's words, in their order; none of what is kept.
fn restated(blocks: &Blocks, connection: Connection) -> Option<Why> {
    let ends = [connection.source, connection.sink].map(|id| blocks.get(&id));
    let [(from, outs), (to, ins)] = match ends {
        [Some(source), Some(sink)] => [source, sink],
        [None, Some(_)] => return Some(Why::NoSource),
        [Some(_), None] => return Some(Why::NoSink),
        [None, None] => return Some(Why::Neither),
    };
    if connection.kind == ConnectionKind::Support {
        return Some(Why::Support);
    }
    let Some(face) = step(*from, *to) else {
        return Some(Why::NoStep);
    };
    let has = |ports: &[Port], face, roles: &[Role]| {
        let mut each = ports.iter();
        each.any(|it| it.face == face && roles.contains(&it.role))
    };
    if !has(outs, face, &[Role::Output, Role::Bidirectional]) {
        return Some(Why::NoOutput);
    }
    let wanted: &[Role] = match connection.kind {
        ConnectionKind::Control => &[Role::Control],
        _ => &[Role::Input, Role::Bidirectional, Role::Control],
    };
    (!has(ins, opposite(face), wanted)).then_some(Why::NoInput)
}

/// How many calls were made, and what they said.
#[derive(Debug, Default)]
struct Asked {
    calls: u64,
    kept: u64,
    /// By number, from 1.
    left: [u64; 7],
    refused: u64,
}

impl Asked {
    /// A scene that the types can hold, by all rules.
    fn hold(&mut self, scene: &Scene, case: &str) {
        if let Some(lists) = Lists::of(scene) {
            for rules in Rules::ALL {
                self.hold_by(rules, &lists, &format!("{rules}, {case}{scene}"));
            }
        }
    }

    fn hold_by(&mut self, rules: Rules, lists: &Lists, case: &str) {
        let (components, connections) = (&lists.components, &lists.connections);
        self.calls += 1;
        let found = left_out(rules, components, connections);
        let kept = ports(rules, components, connections);
        let (found, kept) = match (found, kept) {
            (Ok(found), Ok(ports)) => (found, ports.kept),
            (found, kept) => {
                assert!(found.is_err(), "{case}");
                assert_eq!(found.err(), kept.err(), "{case}");
                self.refused += 1;
                return;
            }
        };
        let blocks = blocks(rules, components, case);
        let each = connections.iter().enumerate();
        let wanted = each.filter_map(|(item, &connection)| {
            let why = restated(&blocks, connection)?;
            Some(LeftOut {
                item,
                connection,
                why,
            })
        });
        assert!(found.iter().copied().eq(wanted), "{found:?}, {case}");
        let mut rest = connections.clone();
        for it in found.iter().rev() {
            assert_eq!(rest.remove(it.item), it.connection, "{case}");
            self.left[it.why as usize] += 1;
        }
        let ends = |source, sink| [source, sink];
        let rest = rest.iter().map(|it| ends(it.source, it.sink));
        let taken = kept.iter().map(|it| it.connection);
        let taken = taken.map(|it| ends(it.source.component, it.sink.component));
        assert!(rest.eq(taken), "{case}");
        self.kept += kept.len() as u64;
    }

    fn assert_met(&self, name: &str) {
        println!("left out, {name}: {self:?}");
        assert!(self.kept > 1_000);
    }
}

#[test]
fn every_small_scene_is_parted() {
    let mut asked = Asked::default();
    for (place, scene) in exhaustive::scenes().enumerate() {
        asked.hold(&scene, &format!("small scene {place}"));
    }
    asked.assert_met("small scenes");
    assert!(asked.refused == 0 && asked.calls > 270_000);
}

#[test]
fn every_profile_is_parted_and_large_plots() {
    let mut asked = Asked::default();
    for profile in Profile::ALL {
        let count = if profile.is_large() { 10 } else { 2_000 };
        for seed in 110_000..110_000 + count {
            let case = format!("{} seed {seed}", profile.name());
            asked.hold(&profile.scene(seed), &case);
        }
    }
    for seed in 0..10_000 {
        asked.hold(&blanks::scene(seed), &format!("blanks seed {seed}"));
    }
    for shape in Shape::ALL {
        for size in [8, 1_024] {
            let case = format!("{} of {size}", shape.name());
            asked.hold(&shape.scene(size, 7), &case);
        }
    }
    asked.assert_met("profiles and plots");
    assert!(asked.refused == 0 && asked.left.iter().all(|count| *count > 100));
}

/// One fault and two at once: the refusal is that of `ports`.
#[test]
fn refusals_are_those_of_ports() {
    let mut asked = Asked::default();
    let mut random = Random::new(31);
    for profile in Profile::ALL.into_iter().filter(|it| !it.is_large()) {
        for seed in 120_000..120_020 {
            let scene = profile.scene(seed);
            for damage in single(&scene) {
                let case = format!("{} seed {seed}, {damage:?}", profile.name());
                asked.hold(&damage.apply(&scene), &case);
            }
            if let Some([one, other]) = pair(&scene, &mut random) {
                let case = format!("{} seed {seed}, {one:?}, {other:?}", profile.name());
                asked.hold(&other.apply(&one.apply(&scene)), &case);
            }
        }
    }
    asked.assert_met("damaged");
    assert!(asked.refused > 1_000);
}

/// Every kind, facing and support, whether it conducts or not, by all rules.
#[test]
fn ports_are_those_of_the_tables() {
    let faces = || {
        let some = Facing::ALL.into_iter().map(Some);
        (0..).zip(iter::once(None).chain(some))
    };
    let mut seen = 0;
    for (code, kind) in (0..).zip(BlockKind::ALL) {
        for (facing, face) in faces() {
            for (support, below) in faces() {
                for conducts in [false, true] {
                    let component = Component {
                        facing: face,
                        support: below,
                        conducts,
                        // Where it is and what its id is have no part in it.
                        ..Component::new(ComponentId(9), Position::new(i32::MAX, 3, -7), kind)
                    };
                    let record = [9, 5, 3, -7, code, facing, support, i64::from(conducts)];
                    for rules in Rules::ALL {
                        let wanted = paper::ports_of(rules.number(), &record).concat();
                        let found = block_ports(rules, &component);
                        let found = found.unwrap_or_else(|it| panic!("{it} of {component:?}"));
                        let each = found.iter().map(|it| {
                            let face = it.face as i64 + 1;
                            [it.role as i64, face, it.channel as i64]
                        });
                        assert!(each.eq(wanted), "{rules}, {component:?}: {found:?}");
                        seen += 1;
                    }
                }
            }
        }
    }
    assert_eq!(seen, 13 * 7 * 7 * 2 * 3);
}
