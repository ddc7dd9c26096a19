//! Calls every entry on slices of the heap that are just long enough, so that
//! valgrind would see a byte that is read or written beside one.
//!
//!     valgrind --error-exitcode=1 --leak-check=full target/release/memory

use std::process::ExitCode;

use checks::{ByteLists, LivenessLists};
use dustroute::bytes::{self, Lent};
use probe::blocks::{block_ports, input, reasons};
use probe::entries::{self, Port};
use probe::ports::port_connections;
use probe::sheets::{convert, join, report, sheet};
use scenes::limits::{
    COMPONENT, CONNECTION, DROPPED_ROW, KEPT_ROW, LAST_RULES, PORT_CONNECTION, SET_WORDS,
    STACK_PAIR,
};
use scenes::random::Random;
use scenes::sheets::forms::{Form, write_form};
use scenes::sheets::parts::parts;
use scenes::sheets::{Limits, lists};
use scenes::{Profile, Scene};

/// A slice of its own on the heap.
fn room<T: Clone>(length: usize, filling: T) -> Box<[T]> {
    vec![filling; length].into_boxed_slice()
}

fn is_accepted(answer: u64) -> bool {
    answer.is_multiple_of(65_536)
}

fn grouped(scene: &Scene) -> bool {
    let lists = ByteLists::of(scene);
    let [components, connections] =
        [lists.components, lists.connections].map(Vec::into_boxed_slice);
    let mut nets = room(lists.nets, 0xa5);
    let mut fragments = room(lists.fragments, 0xa5);
    is_accepted(bytes::groups(
        LAST_RULES,
        &components,
        &connections,
        &mut nets,
        &mut fragments,
    ))
}

fn analyzed(scene: &Scene) -> bool {
    let lists = LivenessLists::of(scene);
    let [components, ports, frontiers] =
        [lists.components, lists.ports, lists.frontiers].map(Vec::into_boxed_slice);
    let lent = lists.lent;
    is_accepted(bytes::liveness(
        LAST_RULES,
        &components,
        &ports,
        &frontiers,
        Lent {
            regions: &mut room(lent.regions, 0xa5),
            sources: &mut room(lent.sources, 0xa5),
            inputs: &mut room(lent.inputs, 0xa5),
            sets: &mut room(lent.sets, 0xa5),
            stack: &mut room(lent.stack, 0xa5),
        },
    ))
}

fn connected(scene: &Scene) -> bool {
    let mut out = room(scene.connections.len() / CONNECTION * KEPT_ROW, -1);
    port_connections(LAST_RULES, &scene.components, &scene.connections, &mut out).is_ok()
}

fn told_why(scene: &Scene) -> bool {
    let mut out = room(scene.connections.len() / CONNECTION, 9);
    let (components, connections) = (&scene.components, &scene.connections);
    is_accepted(reasons(LAST_RULES, components, connections, &mut out))
}

/// The ports of the last component, or of a wire where there is none.
fn has_ports(scene: &Scene) -> bool {
    let last = scene.components.rchunks(COMPONENT).next();
    let codes = last.map_or(Some(&[0; 4][..]), |record| record.get(4..8));
    let block = codes.and_then(|codes| codes.try_into().ok());
    let out = &mut room(7 * 3, 9);
    block.is_some_and(|block| is_accepted(block_ports(LAST_RULES, block, out)))
}

fn lists_of(scene: &Scene) -> entries::Lists<'_> {
    entries::Lists {
        rules: LAST_RULES,
        components: &scene.components,
        ports: &scene.ports,
        frontiers: &scene.frontiers,
    }
}

fn count(scene: &Scene) -> usize {
    scene.components.len() / COMPONENT
}

fn set() -> Box<[u64]> {
    room(SET_WORDS, u64::MAX)
}

fn stack(scene: &Scene) -> Box<[usize]> {
    room(count(scene) * STACK_PAIR, usize::MAX)
}

/// The second port of the last component, which may have no row.
fn port(scene: &Scene) -> Port {
    let last = scene.components.rchunks_exact(COMPONENT).next();
    [last.map_or(0, |record| record[0].unsigned_abs()), 1]
}

/// Accepted, or refused for want of a verdict row, or of a way.
fn is_answered(answer: u64) -> bool {
    is_accepted(answer) || [8, 10].contains(&(answer % 256))
}

fn asked(scene: &Scene) -> bool {
    let sets = [&mut *set(), &mut *set()];
    is_answered(input(lists_of(scene), port(scene), sets, &mut stack(scene)))
}

fn searched(scene: &Scene) -> bool {
    let (lists, port) = (lists_of(scene), port(scene));
    is_answered(entries::driven(lists, port, &mut set(), &mut stack(scene)))
}

fn led(scene: &Scene) -> bool {
    let (lists, port) = (lists_of(scene), port(scene));
    let ids = &mut room(count(scene), 9);
    is_answered(entries::trail(lists, port, ids))
        && is_answered(entries::check_trail(lists, port, ids))
}

fn cleared(scene: &Scene) -> bool {
    let ports = scene.ports.len() / PORT_CONNECTION;
    let kept = &mut room(ports * PORT_CONNECTION, -1);
    is_accepted(entries::clear(
        lists_of(scene),
        kept,
        &mut room(ports * DROPPED_ROW, 9),
    ))
}

fn lit(scene: &Scene) -> bool {
    let regions = &mut room(count(scene), 9);
    let lists = lists_of(scene);
    is_accepted(entries::light(
        lists,
        regions,
        &mut set(),
        &mut set(),
        &mut stack(scene),
    ))
}

fn ringed(scene: &Scene) -> bool {
    let regions = &mut room(count(scene), 9);
    is_accepted(entries::rings(
        lists_of(scene),
        regions,
        &mut set(),
        &mut stack(scene),
    ))
}

fn tabled(scene: &Scene) -> bool {
    let (side, regions) = (count(scene), &mut room(count(scene), 9));
    let square = &mut room(side * side, 0xa5);
    is_accepted(entries::reach_table(
        lists_of(scene),
        square,
        regions,
        &mut stack(scene),
    ))
}

/// Bytes that are enough for the report of any scene here.
const REPORT: usize = 1 << 22;

/// Lists, report and the other form of the scene's sheet in a form; the lists and
/// the other form have just room enough.
fn sheeted(form: Form, scene: &Scene) -> bool {
    let text = write_form(form, LAST_RULES, scene).into_boxed_slice();
    let other = write_form(form.other(), LAST_RULES, scene).len();
    let work = || lists(scene).map(|list| room(list.len(), -1));
    let (mut first, mut second, mut third) = (work(), work(), work());
    let limits = Limits::SCENE.each();
    let read = sheet(&text, first.each_mut().map(|it| &mut **it), &mut room(2, 9));
    let out = &mut room(REPORT, 0xa5);
    let told = report(&text, limits, second.each_mut().map(|it| &mut **it), out);
    let out = &mut room(other, 0xa5);
    let turned = convert(&text, limits, third.each_mut().map(|it| &mut **it), out);
    read.is_ok() && told.is_ok() && turned.is_ok()
}

fn old_sheet(scene: &Scene) -> bool {
    sheeted(Form::Old, scene)
}

fn short_sheet(scene: &Scene) -> bool {
    sheeted(Form::Short, scene)
}

/// The scene's halves joined, in room that is just enough.
fn joined(scene: &Scene) -> bool {
    let halves = parts(scene, 2, &mut Random::new(8));
    let sheet = |form, half| write_form(form, LAST_RULES, half).into_boxed_slice();
    let first = sheet(Form::Short, &halves[0]);
    let second = sheet(Form::Old, &halves[1]);
    let [one, other] = [&halves[0], &halves[1]].map(lists);
    let mut work = [0, 1, 2].map(|list| room(one[list].len() + other[list].len(), -1));
    let whole = write_form(Form::Old, LAST_RULES, scene).into_boxed_slice();
    let mut out = room(whole.len(), 0xa5);
    let count = join(
        &first,
        &second,
        work.each_mut().map(|it| &mut **it),
        &mut out,
    );
    count == Ok(whole.len() as u64) && out == whole
}

/// The entries, each with whether it accepts.
const ENTRIES: [fn(&Scene) -> bool; 15] = [
    grouped,
    analyzed,
    connected,
    told_why,
    has_ports,
    asked,
    searched,
    led,
    cleared,
    lit,
    ringed,
    tabled,
    old_sheet,
    short_sheet,
    joined,
];

/// Every entry on scenes of every profile, and refused with a number missing.
fn main() -> ExitCode {
    let (mut accepted, mut refused) = (0, 0);
    for profile in Profile::ALL {
        for seed in 0..2 {
            let mut scene = profile.scene(seed);
            scene.components.shrink_to_fit();
            accepted += ENTRIES.iter().filter(|entry| entry(&scene)).count();
            scene.components.pop();
            refused += ENTRIES.iter().filter(|entry| !entry(&scene)).count();
        }
    }
    println!("{accepted} calls accepted, {refused} refused");
    let all = ENTRIES.len() * Profile::ALL.len() * 2;
    if accepted == all && refused > 0 {
        ExitCode::SUCCESS
    } else {
        ExitCode::FAILURE
    }
}
