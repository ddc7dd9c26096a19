//! `what_if` and `what_if_joined` held to what is proved of one connection more
//! and to the answers that they compare.

mod typed;

use std::collections::BTreeSet;

use dustroute::{
    Change, ComponentId, Connection, ConnectionKind, Joined, List, Liveness, Place, PortConnection,
    PortRef, Reason, Refusal, RequiredInputStatus, Rules, TransferKind, groups, limits, liveness,
    what_if, what_if_joined,
};
use scenes::Profile;
use scenes::random::Random;
use typed::Lists;

/// Connections drawn for each scene.
const EXTRA: usize = 4;

/// Lists of every profile, each with numbers to draw from.
fn on_profiles(mut check: impl FnMut(&Lists, &mut Random, &str)) {
    for profile in Profile::ALL {
        let seeds = if profile.is_large() { 10 } else { 400 };
        for seed in 40_000..40_000 + seeds {
            let case = format!("{} seed {seed}", profile.name());
            match Lists::of(&profile.scene(seed)) {
                Some(lists) => check(&lists, &mut Random::new(seed), &case),
                None => panic!("{case} cannot be typed"),
            }
        }
    }
}

/// They go round with the lists.
const fn rules(lists: &Lists) -> Rules {
    Rules::ALL[lists.components.len() % 3]
}

/// Mostly a component's, else any.
fn any_id(lists: &Lists, random: &mut Random) -> ComponentId {
    let ids: Vec<ComponentId> = lists.components.iter().map(|it| it.id).collect();
    if ids.is_empty() || random.once_in(20) {
        return ComponentId(random.below(9) as u32);
    }
    random.pick(&ids)
}

fn any_port(lists: &Lists, random: &mut Random) -> PortRef {
    PortRef::new(any_id(lists, random), random.below(5) as u8)
}

fn refused(reason: Reason, item: usize) -> Refusal {
    let list = List::Connections;
    let place = Some(Place { list, item });
    Refusal { reason, place }
}

fn driven(found: &Liveness) -> BTreeSet<ComponentId> {
    let driven = found.components.iter().filter(|it| it.drive);
    driven.map(|it| it.id).collect()
}

/// Whatever a walk from the id along connections that are no support comes to.
fn reachable(connections: &[PortConnection], from: ComponentId) -> BTreeSet<ComponentId> {
    let mut reached = BTreeSet::from([from]);
    let mut open = vec![from];
    while let Some(at) = open.pop() {
        let signals = connections.iter();
        let signals = signals.filter(|it| it.transfer != TransferKind::StructuralSupport);
        for feed in signals.filter(|it| it.source.component == at) {
            if reached.insert(feed.sink.component) {
                open.push(feed.sink.component);
            }
        }
    }
    reached
}

/// The claims, of what was answered and of the lists without the connection.
fn hold_claims(
    change: &Change,
    lists: &Lists,
    extra: PortConnection,
    found: &Liveness,
    case: &str,
) {
    let reached = reachable(&lists.ports, extra.sink.component);
    let newly = &change.newly_driven;
    assert!(newly.iter().all(|it| reached.contains(it)), "{case}");
    assert!(newly.len() <= reached.len(), "{case}");
    let driven = driven(found);
    assert!(newly.iter().all(|it| !driven.contains(it)), "{case}");
    let fed = driven.contains(&extra.source.component);
    assert!(fed || newly.is_empty(), "{case}");
    for changed in &change.changed_inputs {
        let disconnected = changed.before == RequiredInputStatus::Disconnected;
        assert!(!disconnected || changed.input == extra.sink, "{case}");
        assert_ne!(changed.after, RequiredInputStatus::Disconnected, "{case}");
        assert_ne!(changed.before, changed.after, "{case}");
    }
    let repeat = lists.ports.contains(&extra);
    if repeat || extra.transfer == TransferKind::StructuralSupport {
        assert_eq!(*change, Change::default(), "{case}");
    }
}

/// The change makes the answer without the connection into that with it.
fn hold_answers(change: &Change, before: &Liveness, after: &Liveness, case: &str) {
    let mut drive = driven(before);
    drive.extend(&change.newly_driven);
    assert_eq!(drive, driven(after), "{case}");
    let mut rows = before.inputs.clone();
    for changed in &change.changed_inputs {
        let row = rows.iter_mut().find(|it| it.input == changed.input);
        match row {
            Some(row) if row.status == changed.before => row.status = changed.after,
            _ => panic!("{case}: {changed:?}"),
        }
    }
    assert_eq!(rows, after.inputs, "{case}");
}

/// What was met.
#[derive(Debug, Default)]
struct Met {
    asked: u64,
    missing_ends: u64,
    full: u64,
    some_newly_driven: u64,
    newly_driven: usize,
    inputs_changed: usize,
    left_disconnected: usize,
    repeats: u64,
    support: u64,
}

fn any_feed(lists: &Lists, found: &Liveness, random: &mut Random) -> PortConnection {
    let source = any_port(lists, random);
    let sink = match found.inputs.get(random.below(2 * found.inputs.len())) {
        Some(row) => row.input,
        None => any_port(lists, random),
    };
    let place = random.below(TransferKind::ALL.len());
    let drawn = PortConnection {
        source,
        sink,
        transfer: TransferKind::ALL[place],
    };
    let there = lists.ports.get(random.below(5 * lists.ports.len()));
    there.copied().unwrap_or(drawn)
}

#[test]
fn what_changes_is_what_is_proved() {
    let mut met = Met::default();
    on_profiles(|lists, random, case| {
        let Lists {
            components,
            ports,
            frontiers,
            ..
        } = lists;
        let rules = rules(lists);
        let Ok(before) = liveness(rules, components, ports, frontiers) else {
            panic!("{case} is refused");
        };
        for _ in 0..EXTRA {
            let extra = any_feed(lists, &before, random);
            let case = format!("{case} {extra:?}");
            // In any order: here it is the first.
            let after = liveness(
                rules,
                components,
                &[&[extra], &ports[..]].concat(),
                frontiers,
            );
            let given = what_if(rules, components, ports, frontiers, extra);
            met.asked += 1;
            let (change, after) = match (given, after) {
                (Ok(change), Ok(after)) => (change, after),
                (Err(refusal), Err(_)) if ports.len() == limits::CONNECTIONS => {
                    assert_eq!(refusal, refused(Reason::Length, ports.len()), "{case}");
                    met.full += 1;
                    continue;
                }
                (Err(refusal), Err(_)) => {
                    let missing = refused(Reason::MissingEndpoint, ports.len());
                    assert_eq!(refusal, missing, "{case}");
                    met.missing_ends += 1;
                    continue;
                }
                (given, after) => panic!("{case}: {given:?}, {after:?}"),
            };
            hold_claims(&change, lists, extra, &before, &case);
            hold_answers(&change, &before, &after, &case);
            let changed = change.changed_inputs.iter();
            let left = changed.filter(|it| it.before == RequiredInputStatus::Disconnected);
            met.some_newly_driven += u64::from(!change.newly_driven.is_empty());
            met.newly_driven += change.newly_driven.len();
            met.inputs_changed += change.changed_inputs.len();
            met.left_disconnected += left.count();
            met.repeats += u64::from(ports.contains(&extra));
            met.support += u64::from(extra.transfer == TransferKind::StructuralSupport);
        }
    });
    println!("what if: {met:?}");
    assert!(met.asked > 16_000);
    let counts = [met.missing_ends, met.full, met.some_newly_driven];
    assert!(counts.iter().all(|count| *count > 0));
    assert!([met.repeats, met.support].iter().all(|count| *count > 0));
    assert!(met.inputs_changed > met.left_disconnected && met.left_disconnected > 0);
}

/// Two components in one net, or in one fragment, are joined already.
#[test]
fn what_is_joined_is_what_was_apart() {
    let (mut asked, mut joined, mut repeats, mut full) = (0, [0; 3], 0, 0);
    on_profiles(|lists, random, case| {
        let (components, connections) = (&lists.components, &lists.connections);
        let rules = rules(lists);
        let Ok(before) = groups(rules, components, connections) else {
            panic!("{case} is refused");
        };
        for _ in 0..EXTRA {
            let (source, sink) = (any_id(lists, random), any_id(lists, random));
            let kind = ConnectionKind::ALL[random.below(ConnectionKind::ALL.len())];
            let drawn = Connection { source, sink, kind };
            let there = connections.get(random.below(5 * connections.len()));
            let extra = there.copied().unwrap_or(drawn);
            let case = format!("{case} {extra:?}");
            let given = what_if_joined(rules, components, connections, extra);
            asked += 1;
            if connections.len() == limits::CONNECTIONS {
                let long = refused(Reason::Length, connections.len());
                assert_eq!(given, Err(long), "{case}");
                full += 1;
                continue;
            }
            if let Ok(place) = connections.binary_search(&extra) {
                let again = refused(Reason::ConnectionOrder, place + 1);
                assert_eq!(given, Err(again), "{case}");
                repeats += 1;
                continue;
            }
            let of = |id| before.components.iter().find(|it| it.id == id);
            let ends = of(extra.source).zip(of(extra.sink));
            let wanted = ends.map_or(Joined::default(), |(source, sink)| Joined {
                nets: extra.kind <= ConnectionKind::StrongPower && source.net != sink.net,
                fragments: extra.kind < ConnectionKind::Support && source.fragment != sink.fragment,
            });
            assert_eq!(given, Ok(wanted), "{case}");
            let Joined { nets, fragments } = wanted;
            let met = [nets, fragments, !nets && !fragments];
            for (count, met) in joined.iter_mut().zip(met) {
                *count += u64::from(met);
            }
        }
    });
    println!(
        "what if joined: {asked} asked; nets, fragments, nothing joined {joined:?}; \
         {repeats} there already, {full} full"
    );
    assert!(asked > 16_000 && repeats > 0 && full > 0);
    assert!(joined.iter().all(|count| *count > 0));
}

/// A list that was refused without it is refused with it: nothing is sorted.
#[test]
fn what_was_refused_stays_refused() {
    let (mut components_turned, mut connections_turned) = (0, 0);
    on_profiles(|lists, random, case| {
        let id = any_id(lists, random);
        let full = lists.ports.len().max(lists.connections.len()) == limits::CONNECTIONS;
        if full || lists.components.len() < 2 {
            return;
        }
        let feed = PortConnection {
            source: PortRef::new(id, 0),
            sink: PortRef::new(id, 1),
            transfer: TransferKind::StructuralSupport,
        };
        let join = Connection {
            source: id,
            sink: id,
            kind: ConnectionKind::Support,
        };
        let components: Vec<_> = lists.components.iter().rev().copied().collect();
        let refusal = Refusal {
            reason: Reason::ComponentOrder,
            place: Some(Place {
                list: List::Components,
                item: 1,
            }),
        };
        let given = what_if(
            Rules::Two,
            &components,
            &lists.ports,
            &lists.frontiers,
            feed,
        );
        assert_eq!(given, Err(refusal), "{case}");
        let given = what_if_joined(Rules::Two, &components, &lists.connections, join);
        assert_eq!(given, Err(refusal), "{case}");
        components_turned += 1;
        if lists.connections.len() > 1 {
            let connections: Vec<_> = lists.connections.iter().rev().copied().collect();
            let given = what_if_joined(Rules::Two, &lists.components, &connections, join);
            let reason = given.map_err(|refusal| refusal.reason);
            assert_eq!(reason, Err(Reason::ConnectionOrder), "{case}");
            connections_turned += 1;
        }
    });
    println!("what if, turned: {components_turned} components, {connections_turned} connections");
    assert!(components_turned > 1_000 && connections_turned > 1_000);
}
