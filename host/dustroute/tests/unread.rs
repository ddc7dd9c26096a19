//! Facings left blank by the typed functions: under rules 3 the kept
//! connections and the verdicts are the restatement's, and what must not depend on
//! a blank facing does not.

mod answers;
mod typed;

use answers::hold_liveness;
use dustroute::{
    BlockKind, Component, ComponentId, PortConnection, Reason, Rules, driven, groups, light,
    liveness, ports, rings, trail,
};
use scenes::{Profile, Scene, blanks};
use typed::Lists;

const RULES: Rules = Rules::Three;

/// Plots with blank facings, small and drawn, and scenes of every profile.
fn plots(step: usize, drawn: u64) -> impl Iterator<Item = (Lists, Scene, String)> {
    let pairs = blanks::pairs().enumerate().step_by(step);
    let pairs = pairs.map(|(place, scene)| (scene, format!("pair {place}")));
    let scenes = (0..drawn).map(|seed| (blanks::scene(seed), format!("blanks seed {seed}")));
    let of_profiles = Profile::ALL.into_iter().flat_map(move |profile| {
        let seeds = if profile.is_large() { 2 } else { drawn / 200 };
        (0..seeds).map(move |seed| {
            let case = format!("{} seed {seed}", profile.name());
            (profile.scene(seed), case)
        })
    });
    let all = pairs.chain(scenes).chain(of_profiles);
    all.filter_map(|(scene, case)| Some((Lists::of(&scene)?, scene, case)))
}

fn record(it: &PortConnection) -> [i64; 5] {
    let [source, sink] = [it.source, it.sink].map(|end| {
        let id = i64::from(end.component.0);
        [id, i64::from(end.port)]
    });
    let transfer = it.transfer as i64;
    [source[0], source[1], sink[0], sink[1], transfer]
}

/// A device of this id that nobody saw the facing of.
fn unread(components: &[Component], id: ComponentId) -> Option<BlockKind> {
    let found = components.iter().find(|it| it.id == id)?;
    let turns = [
        BlockKind::Repeater,
        BlockKind::Comparator,
        BlockKind::Piston,
    ];
    let is_unread = found.facing.is_none() && turns.contains(&found.kind);
    is_unread.then_some(found.kind)
}

#[test]
fn kept_connections_are_the_restatement() {
    let (mut scenes, mut kept) = (0_u64, [0; 2]);
    for (lists, scene, case) in plots(1, 60_000) {
        let typed = |rules| match ports(rules, &lists.components, &lists.connections) {
            Ok(found) => found.connections(),
            Err(refusal) => panic!("{case}: {refusal}{scene}"),
        };
        let [before, after] = [Rules::Two, RULES].map(typed);
        let rows: Vec<[i64; 5]> = after.iter().map(record).collect();
        let wanted = paper::ports(RULES.number(), &scene.components, &scene.connections);
        assert_eq!(rows, wanted, "{case}{scene}");
        assert_eq!(before, typed(Rules::One), "{case}{scene}");
        let stays = |it: &PortConnection| {
            let [source, sink] = [it.source, it.sink].map(|end| end.component);
            let sink = unread(&lists.components, sink);
            unread(&lists.components, source).is_none()
                && sink.is_none_or(|kind| kind == BlockKind::Piston)
        };
        let mut wanted = before.clone();
        wanted.retain(stays);
        assert_eq!(after, wanted, "{case}{scene}");
        scenes += 1;
        kept = [kept[0] + before.len(), kept[1] + after.len()];
    }
    println!("kept connections of {scenes} scenes, by rules 2 and 3: {kept:?}");
    assert!(kept[1] < kept[0] && kept[1] > 10_000);
}

/// With the connections kept of the plot, and with those that it was given.
#[test]
fn verdicts_are_the_restatement() {
    let (mut calls, mut rows, mut missing) = (0_u64, 0, 0);
    for (lists, mut scene, case) in plots(5, 40_000) {
        let kept = match ports(RULES, &lists.components, &lists.connections) {
            Ok(found) => found.connections(),
            Err(refusal) => panic!("{case}: {refusal}{scene}"),
        };
        for ports in [kept, lists.ports] {
            scene.ports = ports.iter().flat_map(record).collect();
            let wanted = paper::liveness(
                RULES.number(),
                &scene.components,
                &scene.ports,
                &scene.frontiers,
            );
            let typed = |rules| liveness(rules, &lists.components, &ports, &lists.frontiers);
            let (Ok(before), Ok(after)) = (typed(Rules::Two), typed(RULES)) else {
                panic!("{case}: refused{scene}");
            };
            hold_liveness(&after, &wanted, &format!("{case}{scene}"));
            assert_eq!(before.regions, after.regions, "{case}{scene}");
            assert_eq!(before.components, after.components, "{case}{scene}");
            assert_eq!(before.sources, after.sources, "{case}{scene}");
            let mut inputs = before.inputs.clone();
            inputs.retain(|row| {
                let kind = unread(&lists.components, row.input.component);
                kind.is_none_or(|kind| kind == BlockKind::Piston)
            });
            assert_eq!(after.inputs, inputs, "{case}{scene}");
            rows += before.inputs.len();
            missing += before.inputs.len() - inputs.len();
            calls += 1;
        }
    }
    println!("verdicts of {calls} calls: {rows} by rules 2, {missing} fewer by rules 3");
    assert!(missing > 1_000);
}

/// An input that nobody could see is no input: 8. Those that are still there have
/// one answer under rules 2 and 3.
#[test]
fn an_unread_input_is_no_input() {
    let (mut refused, mut asked) = (0_u64, 0_u64);
    for (lists, scene, case) in plots(11, 20_000) {
        let (components, fed, frontiers) = (&lists.components, &lists.ports, &lists.frontiers);
        let Ok(found) = liveness(Rules::Two, components, fed, frontiers) else {
            panic!("{case}: refused{scene}");
        };
        for row in &found.inputs {
            let by = |rules| {
                let yes = driven(rules, components, fed, frontiers, row.input);
                (yes, trail(rules, components, fed, frontiers, row.input))
            };
            let kind = unread(components, row.input.component);
            if kind.is_none_or(|kind| kind == BlockKind::Piston) {
                assert_eq!(by(Rules::Two), by(RULES), "{case} {row:?}{scene}");
                asked += 1;
                continue;
            }
            let (yes, way) = by(RULES);
            let said = [yes.err(), way.err()].map(|it| it.map(|it| it.reason));
            assert_eq!(said, [Some(Reason::NoVerdict); 2], "{case} {row:?}{scene}");
            refused += 1;
        }
        let grouped = |rules| groups(rules, components, &lists.connections);
        assert_eq!(grouped(Rules::Two), grouped(RULES), "{case}{scene}");
        let lit = |rules| light(rules, components, fed, frontiers);
        assert_eq!(lit(Rules::Two), lit(RULES), "{case}{scene}");
        let looped = |rules| rings(rules, components, fed, frontiers);
        assert_eq!(looped(Rules::Two), looped(RULES), "{case}{scene}");
    }
    println!("inputs asked for: {asked} by rules 2 and 3, {refused} refused by rules 3");
    assert!(refused > 1_000 && asked > 1_000);
}
