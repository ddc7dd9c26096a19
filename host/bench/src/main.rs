//! Times of the unchanged Rust and of the proved library on the same scenes,
//! taken in turn in one run, as Markdown tables. Words choose: `liveness 1024
//! random` times that table at that size and of that shape only.

mod measure;
mod subjects;
mod tables;
mod whole;

use scenes::Scene;
use scenes::sized::Shape;

use measure::Times;
use subjects::{Groups, Liveness, Ports, Subject, with_kept, without_supports};
use tables::Row;
use whole::Whole;

const SIZES: [usize; 5] = [64, 128, 256, 512, 1_024];

/// Scenes of each shape and size. They go round, so that no processor can
/// learn one by heart.
const SCENES: u64 = 16;

/// Rounds over those scenes.
const ROUNDS: usize = 31;

fn medians<S: Subject>(scenes: impl Iterator<Item = Scene>) -> measure::Medians {
    let mut subjects: Vec<S> = scenes.map(S::new).collect();
    let mut times = Times::default();
    for _ in 0..ROUNDS {
        for subject in &mut subjects {
            subject.run(&mut times);
        }
    }
    times.medians()
}

/// What the words of the command line choose.
struct Chosen {
    words: Vec<String>,
}

impl Chosen {
    fn has(&self, word: &str) -> bool {
        self.words.iter().any(|given| given == word)
    }

    /// The sizes among the words, or all.
    fn sizes(&self) -> Vec<usize> {
        let named = |size: &usize| self.has(&size.to_string());
        let sizes: Vec<usize> = SIZES.into_iter().filter(named).collect();
        if sizes.is_empty() {
            SIZES.to_vec()
        } else {
            sizes
        }
    }

    /// The shapes among the words, or all.
    fn shapes(&self) -> Vec<Shape> {
        let named = |shape: &Shape| self.has(shape.name());
        let shapes: Vec<Shape> = Shape::ALL.into_iter().filter(named).collect();
        if shapes.is_empty() {
            Shape::ALL.to_vec()
        } else {
            shapes
        }
    }

    /// Whether a table is among the words, or none is.
    fn table(&self, name: &str) -> bool {
        self.has(name) || !TABLES.into_iter().any(|other| self.has(other))
    }
}

const TABLES: [&str; 4] = ["groups", "ports", "liveness", "whole"];

/// Times both sides on scenes of every shape and size.
fn measured<S: Subject>(chosen: &Chosen, make: impl Fn(Shape, usize, u64) -> Scene) -> Vec<Row> {
    let mut rows = Vec::new();
    for shape in chosen.shapes() {
        for size in chosen.sizes() {
            let scenes: Vec<Scene> = (0..SCENES).map(|seed| make(shape, size, seed)).collect();
            let connections = scenes.iter().map(S::connections).sum::<usize>() / scenes.len();
            rows.push(Row {
                shape,
                size,
                connections,
                medians: medians::<S>(scenes.into_iter()),
            });
        }
    }
    rows
}

fn main() {
    if cfg!(debug_assertions) {
        eprintln!("these times mean nothing without --profile bench");
    }
    let chosen = Chosen {
        words: std::env::args().skip(1).collect(),
    };
    if chosen.table("groups") {
        let groups = measured::<Groups>(&chosen, Shape::scene);
        tables::print("Groups: `from_parts` and `dustroute_groups`", &groups);
    }
    if chosen.table("ports") {
        let ports = measured::<Ports>(&chosen, Shape::scene);
        tables::print("Ports: scene builder and `port_connections`", &ports);
        let bare = |shape: Shape, size, seed| without_supports(shape.scene(size, seed));
        let ports = measured::<Ports>(&chosen, bare);
        tables::print("Ports, no component with a support", &ports);
    }
    if chosen.table("liveness") {
        let kept = |shape: Shape, size, seed| with_kept(shape.scene(size, seed));
        let liveness = measured::<Liveness>(&chosen, kept);
        let title = "Liveness: `analyze_signal_liveness` and `dustroute_liveness`";
        tables::print(title, &liveness);
        let liveness = measured::<Liveness>(&chosen, Shape::fed_scene);
        tables::print("Liveness, four port connections to a component", &liveness);
    }
    if chosen.table("whole") {
        let whole = measured::<Whole>(&chosen, Shape::scene);
        let title = "Whole report: the Rust between a reader and a printer, and the entry";
        tables::print(title, &whole);
    }
    println!("{}", tables::NOTES);
}
