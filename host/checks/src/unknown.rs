//! Rules that are not known: every entry refuses them before all else and writes
//! nothing, whatever its lists and its slices.

use std::fmt::Display;

use dustroute::bytes;
use probe::blocks;
use probe::entries::{self, Lists, Port};
use probe::ports::port_connections;
use scenes::Scene;
use scenes::limits::{
    COMPONENT, CONNECTION, DROPPED_ROW, KEPT_ROW, PORT_CONNECTION, SET_WORDS, STACK_PAIR,
};
use scenes::refusals::{NO_LIST, unknown_rules};

use crate::guarded::Filling;
use crate::{ByteLists, Guarded, LivenessLists, UNKNOWN_RULES};

/// 11 as it is packed.
const REFUSED: u64 = UNKNOWN_RULES as u64 + 256 * NO_LIST;

const fn packed(refusal: probe::Refusal) -> u64 {
    refusal.number + 256 * refusal.list + 65_536 * refusal.item
}

/// One call: the rules, the lists, and how many numbers, or bytes, each slice is
/// short of what is enough.
#[derive(Clone, Copy)]
struct Call<'a> {
    rules: i64,
    scene: &'a Scene,
    short: usize,
}

/// The answer, and whether every slice is as it was before.
type Answer = (u64, bool);

/// An entry with its name.
type Entry = (&'static str, fn(Call<'_>) -> Answer);

/// Numbers that the slice of a block's ports must have.
const BLOCK_PORTS: usize = 7 * 3;

/// How many entries there are.
const COUNT: usize = 13;

const ENTRIES: [Entry; COUNT] = [
    ("groups", |call| call.groups()),
    ("liveness", |call| call.liveness()),
    ("ports", |call| call.ports()),
    ("driven", |call| call.driven()),
    ("trail", |call| call.trail()),
    ("check_trail", |call| call.check_trail()),
    ("clear", |call| call.clear()),
    ("light", |call| call.light()),
    ("rings", |call| call.rings()),
    ("reach_table", |call| call.reach_table()),
    ("reasons", |call| call.reasons()),
    ("block_ports", |call| call.block_ports()),
    ("input", |call| call.input()),
];

impl<'a> Call<'a> {
    fn lists(self) -> Lists<'a> {
        Lists {
            rules: self.rules,
            components: &self.scene.components,
            ports: &self.scene.ports,
            frontiers: &self.scene.frontiers,
        }
    }

    fn components(self) -> usize {
        self.scene.components.len() / COMPONENT
    }

    /// The second port of the first component, which seldom has a verdict row.
    fn port(self) -> Port {
        let first = self.scene.components.first();
        [first.map_or(0, |id| id.cast_unsigned()), 1]
    }

    fn slice<T: Filling>(self, enough: usize) -> Guarded<T> {
        Guarded::new(enough.saturating_sub(self.short), enough)
    }

    fn groups(self) -> Answer {
        let lists = ByteLists::of(self.scene);
        let (mut nets, mut fragments) = (self.slice(lists.nets), self.slice(lists.fragments));
        let (components, connections) = (&lists.components, &lists.connections);
        let lent = (nets.lent(), fragments.lent());
        let answer = bytes::groups(self.rules, components, connections, lent.0, lent.1);
        (answer, nets.holds(&[]) && fragments.holds(&[]))
    }

    fn liveness(self) -> Answer {
        let lists = LivenessLists::of(self.scene);
        let lent = lists.lent;
        let lengths = [
            lent.regions,
            lent.sources,
            lent.inputs,
            lent.sets,
            lent.stack,
        ];
        let mut slices = lengths.map(|length| self.slice(length));
        let [regions, sources, inputs, sets, stack] = slices.each_mut().map(Guarded::lent);
        let (components, ports) = (&lists.components, &lists.ports);
        let lent = bytes::Lent {
            regions,
            sources,
            inputs,
            sets,
            stack,
        };
        let answer = bytes::liveness(self.rules, components, ports, &lists.frontiers, lent);
        (answer, slices.iter().all(|slice| slice.holds(&[])))
    }

    fn ports(self) -> Answer {
        let mut rows = self.slice(self.scene.connections.len() / CONNECTION * KEPT_ROW);
        let (components, connections) = (&self.scene.components, &self.scene.connections);
        let given = port_connections(self.rules, components, connections, rows.lent());
        let answer = given.map_or_else(packed, |count| 65_536 * count);
        (answer, rows.holds(&[]))
    }

    fn driven(self) -> Answer {
        let mut met = self.slice(SET_WORDS);
        let mut stack = self.slice(self.components() * STACK_PAIR);
        let answer = entries::driven(self.lists(), self.port(), met.lent(), stack.lent());
        (answer, met.holds(&[]) && stack.holds(&[]))
    }

    fn trail(self) -> Answer {
        let mut ids = self.slice(self.components());
        let answer = entries::trail(self.lists(), self.port(), ids.lent());
        (answer, ids.holds(&[]))
    }

    fn check_trail(self) -> Answer {
        let [id, _] = self.port();
        (entries::check_trail(self.lists(), self.port(), &[id]), true)
    }

    fn clear(self) -> Answer {
        let places = self.scene.ports.len() / PORT_CONNECTION;
        let mut kept = self.slice(places * PORT_CONNECTION);
        let mut dropped = self.slice(places * DROPPED_ROW);
        let answer = entries::clear(self.lists(), kept.lent(), dropped.lent());
        (answer, kept.holds(&[]) && dropped.holds(&[]))
    }

    fn light(self) -> Answer {
        let [mut regions, mut lit, mut driven] =
            [self.components(), SET_WORDS, SET_WORDS].map(|length| self.slice(length));
        let mut stack = self.slice(self.components() * STACK_PAIR);
        let answer = entries::light(
            self.lists(),
            regions.lent(),
            lit.lent(),
            driven.lent(),
            stack.lent(),
        );
        let sets = [regions, lit, driven];
        (
            answer,
            sets.iter().all(|it| it.holds(&[])) && stack.holds(&[]),
        )
    }

    fn rings(self) -> Answer {
        let [mut regions, mut rings] =
            [self.components(), SET_WORDS].map(|length| self.slice(length));
        let mut stack = self.slice(self.components() * STACK_PAIR);
        let lists = self.lists();
        let answer = entries::rings(lists, regions.lent(), rings.lent(), stack.lent());
        let held = regions.holds(&[]) && rings.holds(&[]) && stack.holds(&[]);
        (answer, held)
    }

    fn reach_table(self) -> Answer {
        // Longer lists are over the limit, and then no square is looked at.
        let side = self.components().min(64);
        let mut square = self.slice(side * side);
        let mut regions = self.slice(self.components());
        let mut stack = self.slice(self.components() * STACK_PAIR);
        let lists = self.lists();
        let answer = entries::reach_table(lists, square.lent(), regions.lent(), stack.lent());
        let held = square.holds(&[]) && regions.holds(&[]) && stack.holds(&[]);
        (answer, held)
    }

    fn reasons(self) -> Answer {
        let mut reasons = self.slice(self.scene.connections.len() / CONNECTION);
        let (components, connections) = (&self.scene.components, &self.scene.connections);
        let answer = blocks::reasons(self.rules, components, connections, reasons.lent());
        (answer, reasons.holds(&[]))
    }

    /// The ports of the first component.
    fn block_ports(self) -> Answer {
        let mut ports = self.slice(BLOCK_PORTS);
        let codes = self.scene.components.get(4..8);
        let block = codes.and_then(|codes| codes.try_into().ok());
        let answer = blocks::block_ports(self.rules, block.unwrap_or([0; 4]), ports.lent());
        (answer, ports.holds(&[]))
    }

    fn input(self) -> Answer {
        let [mut immediate, mut inferred] = [SET_WORDS; 2].map(|length| self.slice(length));
        let mut stack = self.slice(self.components() * STACK_PAIR);
        let sets = [immediate.lent(), inferred.lent()];
        let answer = blocks::input(self.lists(), self.port(), sets, stack.lent());
        let held = immediate.holds(&[]) && inferred.holds(&[]) && stack.holds(&[]);
        (answer, held)
    }
}

/// Counts of what was called.
#[derive(Clone, Debug, Default)]
pub struct Unknown {
    calls: u64,
    /// By entry, what it says under known rules of the same lists and slices, by
    /// number, 0 for acceptance.
    beside: [[u64; UNKNOWN_RULES]; COUNT],
}

impl Unknown {
    /// Every entry under rules of this number, which are not known, with slices
    /// that are so many numbers short.
    ///
    /// # Panics
    /// Where an entry answers something else or writes; `case` is printed then.
    pub fn call(&mut self, rules: i64, scene: &Scene, short: usize, case: &dyn Display) {
        assert!(unknown_rules(rules).is_some(), "rules {rules} are known");
        let call = Call {
            rules,
            scene,
            short,
        };
        for ((name, entry), beside) in ENTRIES.into_iter().zip(&mut self.beside) {
            let given = entry(call);
            assert_eq!(
                given,
                (REFUSED, true),
                "{name}, rules {rules}, {case}{scene}"
            );
            let (known, _) = entry(Call { rules: 1, ..call });
            let number = known.to_le_bytes()[0];
            assert_ne!(usize::from(number), UNKNOWN_RULES, "{name}, {case}{scene}");
            beside[usize::from(number)] += 1;
            self.calls += 1;
        }
    }

    /// Prints the counts.
    ///
    /// # Panics
    /// Where 11 never stood beside one of the other numbers of a list's entry.
    pub fn assert_stood_beside_every_number(&self, title: &str) {
        let Self { calls, beside } = self;
        println!("{title}: {calls} calls of {COUNT} entries, all refused with 11");
        for ((name, _), counts) in ENTRIES.iter().zip(beside) {
            println!("  {name}: under rules 1 by number {counts:?}");
        }
        for number in 0..9 {
            let mut counts = beside.iter().map(|counts| counts[number]);
            assert!(
                counts.any(|count| count > 0),
                "11 never stood beside {number}"
            );
        }
    }
}
