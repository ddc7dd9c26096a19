//! The refusals and the id table of one scene, compared with the restatement.

use std::fmt::Display;

use probe::blocks::input;
use probe::capi::WORDS;
use probe::entries::Lists;
use probe::ports::port_connections;
use scenes::bytes::{self, NUMBER, SET_WORDS};
use scenes::damage::List;
use scenes::limits::COMPONENT;
use scenes::{Lent, Scene, members, refusals};

use crate::{Counted, UNKNOWN_RULES};

/// How many comparisons were made, how often each refusal's number came up
/// (0 for acceptance), and how many places the id table had.
#[derive(Clone, Debug, Default)]
pub struct Tally {
    scenes: u64,
    compared: u64,
    by_number: [u64; UNKNOWN_RULES + 1],
    places: u64,
}

type Plain = Option<(u64, u64, u64)>;

fn restated(refusal: Option<scenes::Refusal>) -> Plain {
    refusal.map(|it| (it.number, it.list, it.item))
}

fn probed(refusal: Option<probe::Refusal>) -> Plain {
    refusal.map(|it| (it.number, it.list, it.item))
}

fn is_sheet_fit(scene: &Scene) -> bool {
    [List::Components, List::Connections, List::Frontiers]
        .into_iter()
        .all(|list| {
            let length = list.of(scene).len();
            length.is_multiple_of(list.width()) && length / list.width() <= list.limit()
        })
}

impl Tally {
    /// Compares all refusals of a scene with slices of these lengths, under the
    /// first rules. `case` is printed where they differ.
    ///
    /// # Panics
    /// Where an answer differs from the restatement's.
    pub fn refusals(&mut self, scene: &Scene, lent: &Lent, case: &dyn Display) {
        self.refusals_by(1, scene, lent, case);
    }

    /// The same under the rules of a number, known or not.
    ///
    /// # Panics
    /// Where an answer differs from the restatement's.
    pub fn refusals_by(&mut self, rules: i64, scene: &Scene, lent: &Lent, case: &dyn Display) {
        self.scenes += 1;
        let case = &format_args!("rules {rules}, {case}");
        let (wanted, given) = entries(rules, scene, lent);
        self.hold("grouping", wanted[0], given[0], scene, lent, case);
        self.hold("ports", wanted[1], given[1], scene, lent, case);
        self.hold("liveness", wanted[2], given[2], scene, lent, case);
        self.hold("query", wanted[3], given[3], scene, lent, case);
        if is_sheet_fit(scene) {
            let (c, e, f) = (&scene.components, &scene.connections, &scene.frontiers);
            let wanted = restated(refusals::sheet_lists(rules, c, e, f));
            let given = probed(probe::sheet_lists(rules, c, e, f));
            self.hold("sheet", wanted, given, scene, lent, case);
        }
    }

    fn hold(
        &mut self,
        entry: &str,
        wanted: Plain,
        given: Plain,
        scene: &Scene,
        lent: &Lent,
        case: &dyn Display,
    ) {
        self.compared += 1;
        let number = wanted.map_or(0, |it| usize::try_from(it.0).unwrap_or(0));
        self.by_number[number] += 1;
        assert!(
            wanted == given,
            "{entry}: wanted {wanted:?}, given {given:?}\n  {case}, {lent:?}{scene}"
        );
    }

    /// Compares the id table of a scene's components, at ids that are there
    /// and beside them.
    ///
    /// # Panics
    /// Where a place differs from the restatement's.
    pub fn id_table(&mut self, scene: &Scene, case: &dyn Display) {
        self.scenes += 1;
        let list = &scene.components;
        for id in asked_ids(list) {
            self.place(
                members::place_of(list, id),
                probe::place_of(list, id),
                || format!("place of id {id}\n  {case}{scene}"),
            );
        }
        for k in asked_members(list) {
            self.place(
                members::place_of_member(list, k),
                probe::place_of_member(list, k),
                || format!("place of member {k}\n  {case}{scene}"),
            );
        }
    }

    fn place(&mut self, wanted: Option<u64>, given: Option<u64>, case: impl Fn() -> String) {
        self.compared += 1;
        self.places += u64::from(wanted.is_some());
        assert!(
            wanted == given,
            "wanted {wanted:?}, given {given:?}: {}",
            case()
        );
    }

    /// Prints the counts of places under a title.
    ///
    /// # Panics
    /// Where no place was ever found, so that nothing was compared.
    pub fn print_places(&self, title: &str) {
        let (scenes, compared, places) = (self.scenes, self.compared, self.places);
        println!("{title}: {scenes} scenes, {compared} answers, {places} of them a place");
        assert!(places > 0, "{title}: no place was ever found");
    }
}

impl Counted for Tally {
    const LAST: usize = 7;

    fn count_of(&self, number: usize) -> u64 {
        self.by_number.get(number).copied().unwrap_or(0)
    }

    fn print(&self, title: &str) {
        let (scenes, compared, by_number) = (self.scenes, self.compared, self.by_number);
        println!("{title}: {scenes} scenes, {compared} answers, by number {by_number:?}");
    }
}

/// Grouping, ports, liveness and query: what is wanted and what is given.
fn entries(rules: i64, scene: &Scene, lent: &Lent) -> ([Plain; 4], [Plain; 4]) {
    let Scene {
        components: c,
        connections: e,
        ports: p,
        frontiers: f,
    } = scene;
    let lent = &lent.within(&Lent::enough(scene));
    let wanted = [
        refusals::grouping(rules, c, e, lent.nets, lent.fragments),
        refusals::ports(rules, c, e, lent.ports),
        refusals::liveness(rules, c, p, f, lent),
        refusals::query(rules, c, p, f, lent.stack),
    ];
    let given = [
        grouped(rules, scene, lent),
        connected(rules, scene, lent),
        analyzed(rules, scene, lent),
        asked(rules, scene, lent),
    ];
    (wanted.map(restated), given.map(probed))
}

fn room(numbers: usize) -> Vec<u8> {
    vec![0; numbers * NUMBER]
}

fn grouped(rules: i64, scene: &Scene, lent: &Lent) -> Option<probe::Refusal> {
    let [components, connections] = [&scene.components, &scene.connections].map(|it| bytes::of(it));
    let (mut nets, mut fragments) = (room(lent.nets), room(lent.fragments));
    probe::capi::groups(rules, &components, &connections, &mut nets, &mut fragments).err()
}

fn connected(rules: i64, scene: &Scene, lent: &Lent) -> Option<probe::Refusal> {
    let mut rows = vec![0; lent.ports];
    port_connections(rules, &scene.components, &scene.connections, &mut rows).err()
}

fn analyzed(rules: i64, scene: &Scene, lent: &Lent) -> Option<probe::Refusal> {
    let lists = [&scene.components, &scene.ports, &scene.frontiers].map(|it| bytes::of(it));
    let [components, ports, frontiers] = &lists;
    let slices = probe::capi::Lent {
        regions: &mut room(lent.regions),
        sources: &mut room(lent.sources),
        inputs: &mut room(lent.inputs),
        sets: &mut room(SET_WORDS),
        stack: &mut room(lent.stack),
    };
    probe::capi::liveness_bytes(rules, components, ports, frontiers, slices).err()
}

/// At a port that is nobody's, so that 8 stands for acceptance.
fn asked(rules: i64, scene: &Scene, lent: &Lent) -> Option<probe::Refusal> {
    let lists = Lists {
        rules,
        components: &scene.components,
        ports: &scene.ports,
        frontiers: &scene.frontiers,
    };
    let (mut immediate, mut inferred) = ([0; WORDS], [0; WORDS]);
    let mut stack = vec![0; lent.stack];
    let sets = [&mut immediate[..], &mut inferred[..]];
    let answer = input(lists, [u64::MAX, 0], sets, &mut stack);
    probe::refusal_of(answer).filter(|refusal| refusal.number != 8)
}

/// Some ids of the list with their neighbours, and the ends of the types.
fn asked_ids(components: &[i64]) -> Vec<u64> {
    let records = components.len() / COMPONENT;
    let step = 1 + records / 8;
    let used = components.chunks_exact(COMPONENT).step_by(step);
    let mut ids = vec![0, 1, 1 << 32, u64::MAX, 1 << 63];
    for record in used {
        let id = record[0] as u64;
        ids.extend([id, id.wrapping_add(1), id.wrapping_sub(1), id ^ (1 << 32)]);
    }
    ids
}

fn asked_members(components: &[i64]) -> Vec<u64> {
    let records = (components.len() / COMPONENT) as u64;
    let mut members = vec![records, records + 1, u64::MAX, 1 << 32];
    let step = 1 + records / 8;
    members.extend((0..records).step_by(usize::try_from(step).unwrap_or(1)));
    members.extend(records.checked_sub(1));
    members
}
