//! A lesson in demonstration mode: two levers, the wires behind them, a loop of
//! wires and two lamps light region by region, each once. No lamp comes before
//! a lever that feeds it. To be copied and changed.
//!
//!     cargo run --offline --example lesson

use std::error::Error;

use dustroute::{
    BlockKind, Component, ComponentId, Lighting, PortConnection, PortRef, Position, Rules,
    TransferKind, light,
};

/// Names of the blocks, in list order, with their ids.
const BLOCKS: [(&str, u32, BlockKind); 8] = [
    ("lamp behind both", 1, BlockKind::RedstoneLamp),
    ("first wire of the loop", 2, BlockKind::RedstoneWire),
    ("left lever", 8, BlockKind::Lever),
    ("right lever", 7, BlockKind::Lever),
    ("second wire of the loop", 5, BlockKind::RedstoneWire),
    ("lonely wire", 3, BlockKind::RedstoneWire),
    ("lamp behind the lonely wire", 4, BlockKind::RedstoneLamp),
    ("wire before the lamp", 6, BlockKind::RedstoneWire),
];

/// What feeds what.
const FEEDS: [(u32, u32); 7] = [(8, 2), (2, 5), (5, 2), (5, 6), (7, 6), (6, 1), (3, 4)];

fn plot() -> (Vec<Component>, Vec<PortConnection>) {
    let blocks = (0..).zip(BLOCKS);
    let components = blocks
        .map(|(x, (_, id, kind))| Component::new(ComponentId(id), Position::new(x, 0, 0), kind));
    let connections = FEEDS.map(|(source, sink)| PortConnection {
        source: PortRef::new(ComponentId(source), 1),
        sink: PortRef::new(ComponentId(sink), 1),
        transfer: TransferKind::DustPropagation,
    });
    (components.collect(), connections.to_vec())
}

fn name(id: ComponentId) -> &'static str {
    let block = BLOCKS.iter().find(|(_, number, _)| *number == id.0);
    block.map_or("?", |(name, ..)| name)
}

/// The lines that a lesson shows.
fn lesson(lighting: &Lighting) -> Vec<String> {
    let steps = lighting.steps().map(|step| {
        let blocks: Vec<&str> = step.blocks.into_iter().map(name).collect();
        let light = if step.lights { "lit" } else { "dark" };
        format!("step {}, {light}: {}", step.region + 1, blocks.join(", "))
    });
    steps.collect()
}

/// Whether each block stands after all that feed it, or in the same step.
fn is_in_order(lighting: &Lighting, connections: &[PortConnection]) -> bool {
    let step = |id| lighting.steps().position(|step| step.blocks.contains(&id));
    let mut each = connections.iter();
    each.all(|it| step(it.source.component) <= step(it.sink.component))
}

fn main() -> Result<(), Box<dyn Error>> {
    let (components, connections) = plot();
    let lighting = light(Rules::Two, &components, &connections, &[])?;
    for line in lesson(&lighting) {
        println!("{line}");
    }
    assert!(is_in_order(&lighting, &connections));
    Ok(())
}
