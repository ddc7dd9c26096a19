//! The library allocates nothing: what a typed call allocates is this crate's
//! own, and a call on lent bytes has none.

use std::alloc::{GlobalAlloc, Layout, System};
use std::cell::Cell;

use dustroute::bytes::{self, Lent, NUMBER, SETS, WORDS};
use dustroute::{Refusal, Rules};
use scenes::limits::{COMPONENT, COMPONENTS};
use scenes::{Profile, Scene};

thread_local! {
    /// Allocations of this thread.
    static COUNT: Cell<u64> = const { Cell::new(0) };
}

struct Counting;

// SAFETY: everything is handed on to the system's allocator.
unsafe impl GlobalAlloc for Counting {
    unsafe fn alloc(&self, layout: Layout) -> *mut u8 {
        COUNT.set(COUNT.get() + 1);
        // SAFETY: the caller's.
        unsafe { System.alloc(layout) }
    }

    unsafe fn dealloc(&self, pointer: *mut u8, layout: Layout) {
        // SAFETY: the caller's.
        unsafe { System.dealloc(pointer, layout) }
    }
}

#[global_allocator]
static COUNTING: Counting = Counting;

/// A call with buffers for the largest scene, and how often it allocated.
struct Buffers {
    nets: Vec<u8>,
    fragments: Vec<u8>,
    regions: Vec<u8>,
    sources: Vec<u8>,
    inputs: Vec<u8>,
    sets: [u8; SETS * WORDS * NUMBER],
    stack: Vec<u8>,
}

impl Buffers {
    fn new() -> Self {
        let room = |numbers: usize| vec![0; COMPONENTS * numbers * NUMBER];
        Self {
            nets: room(1),
            fragments: room(1),
            regions: room(1),
            sources: room(4),
            inputs: room(12),
            sets: [0; SETS * WORDS * NUMBER],
            stack: room(2),
        }
    }

    /// Both answers, and how many allocations were made for them.
    fn call(&mut self, scene: &Scene) -> ([u64; 2], u64) {
        let [components, connections, ports, frontiers] = [
            &scene.components,
            &scene.connections,
            &scene.ports,
            &scene.frontiers,
        ]
        .map(|list| scenes::bytes::of(list));
        let before = COUNT.get();
        let rules = Rules::Two.number();
        let grouped = bytes::groups(
            rules,
            &components,
            &connections,
            &mut self.nets,
            &mut self.fragments,
        );
        let lent = Lent {
            regions: &mut self.regions,
            sources: &mut self.sources,
            inputs: &mut self.inputs,
            sets: &mut self.sets,
            stack: &mut self.stack,
        };
        let analyzed = bytes::liveness(rules, &components, &ports, &frontiers, lent);
        ([grouped, analyzed], COUNT.get() - before)
    }
}

#[test]
fn none_in_a_call_on_lent_bytes() {
    let mut buffers = Buffers::new();
    let mut refused = 0;
    for profile in Profile::ALL {
        for seed in 0..20 {
            let mut scene = profile.scene(seed);
            let (answers, count) = buffers.call(&scene);
            assert_eq!(count, 0, "{} seed {seed}", profile.name());
            assert_eq!(answers.map(Refusal::of), [None; 2]);
            scene
                .components
                .truncate(scene.components.len() / COMPONENT * COMPONENT / 2 + 1);
            let (answers, count) = buffers.call(&scene);
            assert_eq!(count, 0, "{} seed {seed}, cut", profile.name());
            refused += answers
                .iter()
                .filter(|it| Refusal::of(**it).is_some())
                .count();
        }
    }
    println!("no allocation in 560 calls that were accepted and {refused} that were refused");
    assert!(refused > 0 && COUNT.get() > 0);
}
