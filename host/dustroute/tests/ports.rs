//! `ports` held to the scope paper's rules restated plainly, each kept
//! connection with the slope of its step, and to what `liveness` takes.

#[expect(
    dead_code,
    reason = "port connections and frontiers have no part in it"
)]
mod typed;

use dustroute::{
    Component, ComponentId, KeptConnection, List, Place, Ports, Position, Refusal, Rules, Slope,
    TransferKind, left_out, liveness, ports,
};
use scenes::damage::{pair, single};
use scenes::random::Random;
use scenes::sized::Shape;
use scenes::{Profile, Scene, exhaustive, refusals};
use typed::Lists;

/// As by rules 1: `unread` has what rules 3 change.
const RULES: Rules = Rules::Two;

fn numbers(kept: &KeptConnection) -> [i64; 6] {
    let [source, sink] = [kept.connection.source, kept.connection.sink]
        .map(|end| [i64::from(end.component.0), i64::from(end.port)]);
    [
        source[0],
        source[1],
        sink[0],
        sink[1],
        kept.connection.transfer as i64,
        kept.slope as i64,
    ]
}

fn place_of(components: &[Component], id: ComponentId) -> Position {
    let mut each = components.iter().filter(|it| it.id == id);
    each.next().map(|it| it.position).unwrap_or_default()
}

/// The height of the sink above the source.
fn climb(lists: &Lists, kept: &KeptConnection) -> i32 {
    let ends = [kept.connection.sink, kept.connection.source];
    let [to, from] = ends.map(|end| place_of(&lists.components, end.component));
    to.y - from.y
}

/// How many calls were made, and what they said.
#[derive(Debug, Default)]
struct Asked {
    calls: u64,
    connections: u64,
    /// Kept connections: level, rising and falling.
    kept: [u64; 3],
    /// By number, from 1.
    refused: [u64; 6],
}

impl Asked {
    /// A call on a scene that the types can hold.
    fn hold(&mut self, scene: &Scene, case: &str) {
        let Some(lists) = Lists::of(scene) else {
            return;
        };
        self.calls += 1;
        let (components, connections) = (&scene.components, &scene.connections);
        let given = ports(RULES, &lists.components, &lists.connections);
        match (
            given,
            refusals::ports(RULES.number(), components, connections, usize::MAX),
        ) {
            (Ok(found), None) => {
                let kept = &found.kept;
                let wanted = paper::ports(RULES.number(), components, connections);
                let wanted = paper::sloped(components, &wanted);
                let rows: Vec<[i64; 6]> = kept.iter().map(numbers).collect();
                assert_eq!(rows, wanted, "{case}{scene}");
                self.connections += lists.connections.len() as u64;
                kept.iter().for_each(|it| self.kept[it.slope as usize] += 1);
                hold_kept(&lists, kept, case);
                hold_parted(&lists, &found, case);
            }
            (Err(refusal), Some(wanted)) => {
                let wanted = [wanted.number, wanted.list, wanted.item];
                assert_eq!(plain(refusal), wanted, "{case}{scene}");
                self.refused[wanted[0] as usize - 1] += 1;
            }
            (given, wanted) => panic!("{given:?} for {wanted:?}, {case}{scene}"),
        }
    }
}

/// What holds of every kept connection, and that they are taken as they stand.
fn hold_kept(lists: &Lists, kept: &[KeptConnection], case: &str) {
    for it in kept.iter().step_by(1 + kept.len() / 64) {
        let wanted = match climb(lists, it) {
            0 => Slope::Level,
            1 => Slope::Rising,
            -1 => Slope::Falling,
            far => panic!("{far} high, {case}"),
        };
        assert_eq!(it.slope, wanted, "{case}");
        let transfer = it.connection.transfer;
        assert_ne!(transfer, TransferKind::StructuralSupport, "{case}");
    }
    let fed: Vec<_> = kept.iter().map(|it| it.connection).collect();
    let taken = liveness(RULES, &lists.components, &fed, &[]);
    assert_eq!(taken.err(), None, "{case}");
}

/// Each connection given is kept or left out, at its place.
fn hold_parted(lists: &Lists, found: &Ports, case: &str) {
    let ends = |item: usize| lists.connections.get(item).map(|it| [it.source, it.sink]);
    for it in &found.kept {
        let kept = [it.connection.source, it.connection.sink].map(|end| end.component);
        assert_eq!(ends(it.item), Some(kept), "{case}");
    }
    let left_out = left_out(RULES, &lists.components, &lists.connections);
    assert_eq!(left_out.as_ref(), Ok(&found.left_out), "{case}");
    let kept = found.kept.iter().map(|it| it.item);
    let mut items: Vec<usize> = kept
        .chain(found.left_out.iter().map(|it| it.item))
        .collect();
    items.sort_unstable();
    assert!(items.into_iter().eq(0..lists.connections.len()), "{case}");
}

/// Number, list and item, as the table has them.
fn plain(refusal: Refusal) -> [u64; 3] {
    let number = u64::from(refusal.reason.number());
    let Some(Place { list, item }) = refusal.place else {
        return [number, 3, 0];
    };
    let list = match list {
        List::Components => 0,
        List::Connections => 1,
        List::Frontiers => 2,
        List::Lines => 3,
    };
    [number, list, item as u64]
}

#[test]
fn on_every_small_scene() {
    let mut asked = Asked::default();
    for (place, scene) in exhaustive::scenes().enumerate() {
        asked.hold(&scene, &format!("small scene {place}"));
    }
    println!("ports, small scenes: {asked:?}");
    assert_eq!(asked.refused, [0; 6]);
    assert!(asked.calls > 90_000);
}

#[test]
fn on_every_profile_and_on_large_plots() {
    let mut asked = Asked::default();
    for profile in Profile::ALL {
        let count = if profile.is_large() { 30 } else { 1_500 };
        for seed in 40_000..40_000 + count {
            let case = format!("{} seed {seed}", profile.name());
            asked.hold(&profile.scene(seed), &case);
        }
    }
    for shape in Shape::ALL {
        for size in [8, 256, 1_023, 1_024] {
            let case = format!("{} of {size}", shape.name());
            asked.hold(&shape.scene(size, 7), &case);
        }
    }
    println!("ports, profiles and plots: {asked:?}");
    assert_eq!(asked.refused, [0; 6]);
    assert!(asked.kept.iter().all(|count| *count > 1_000));
}

/// 2 never comes up: what is lent is always enough.
#[test]
fn refusals_are_those_of_the_table() {
    let mut asked = Asked::default();
    for profile in Profile::ALL {
        let seeds = if profile.is_large() { 2 } else { 60 };
        for seed in 50_000..50_000 + seeds {
            let (scene, random) = (profile.scene(seed), &mut Random::new(seed));
            let case = format!("{} seed {seed}", profile.name());
            for damage in single(&scene).into_iter().step_by(2) {
                asked.hold(&damage.apply(&scene), &format!("{case} {damage:?}"));
            }
            for _ in 0..20 {
                if let Some([first, second]) = pair(&scene, random) {
                    let damaged = second.apply(&first.apply(&scene));
                    asked.hold(&damaged, &format!("{case} {first:?} {second:?}"));
                }
            }
        }
    }
    println!("ports, refusals: {asked:?}");
    let [one, two, rest @ ..] = asked.refused;
    assert!(one > 0 && two == 0 && rest.iter().all(|count| *count > 0));
}
