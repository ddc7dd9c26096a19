//! A plot held open: a lever, a wire and a repeater are placed and connected click
//! by click and marked; the lever is broken, no connection names it, and the plot is
//! marked again. To be copied and changed.
//!
//!     cargo run --offline --example held

use std::error::Error;

use dustroute::{
    BlockKind, Component, ComponentId, Facing, HeldPlot, PortConnection, PortRef, Position, Rules,
    TransferKind,
};

const LEVER: ComponentId = ComponentId(1);
const WIRE: ComponentId = ComponentId(2);
const REPEATER: ComponentId = ComponentId(3);

fn clicked() -> Result<HeldPlot, Box<dyn Error>> {
    let at = |id, x, kind| Component::new(id, Position::new(x, 0, 0), kind);
    let mut plot = HeldPlot::open(Rules::Two, &[])?;
    plot.place(&Component {
        facing: Some(Facing::East),
        ..at(REPEATER, 2, BlockKind::Repeater)
    })?;
    plot.place(&at(LEVER, 0, BlockKind::Lever))?;
    plot.place(&at(WIRE, 1, BlockKind::RedstoneWire))?;
    for (source, sink) in [(LEVER, WIRE), (WIRE, REPEATER)] {
        plot.connect(&PortConnection {
            source: PortRef::new(source, 1),
            sink: PortRef::new(sink, 1),
            transfer: TransferKind::DustPropagation,
        })?;
    }
    Ok(plot)
}

fn print(plot: &HeldPlot, when: &str) -> Result<(), Box<dyn Error>> {
    println!(
        "{when}: {} blocks, {} connections",
        plot.present(),
        plot.connections().len()
    );
    for it in plot.liveness()?.inputs {
        println!(
            "  input {} of block {}: {:?}",
            it.input.port, it.input.component.0, it.status
        );
    }
    Ok(())
}

fn main() -> Result<(), Box<dyn Error>> {
    let mut plot = clicked()?;
    print(&plot, "built")?;
    plot.break_block(LEVER)?;
    print(&plot, "without the lever")?;
    let names = |it: &PortConnection| {
        [it.source, it.sink]
            .iter()
            .any(|end| end.component == LEVER)
    };
    assert!(!plot.connections().iter().any(names));
    let again = HeldPlot::load(&plot.save())?;
    assert_eq!(again, plot);
    Ok(())
}
