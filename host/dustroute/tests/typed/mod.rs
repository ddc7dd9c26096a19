//! Generated lists of numbers as the typed lists that a caller hands in.

use dustroute::{
    BlockKind, Component, ComponentId, Connection, ConnectionKind, Facing, PortConnection, PortRef,
    Position, TransferKind,
};
use scenes::Scene;

/// The lists of a scene.
#[derive(Debug)]
pub struct Lists {
    pub components: Vec<Component>,
    pub connections: Vec<Connection>,
    pub ports: Vec<PortConnection>,
    pub frontiers: Vec<Position>,
}

impl Lists {
    /// None where a number is none that the types can hold, or a list is not
    /// of whole records.
    pub fn of(scene: &Scene) -> Option<Self> {
        Some(Self {
            components: list(&scene.components, component)?,
            connections: list(&scene.connections, connection)?,
            ports: list(&scene.ports, port_connection)?,
            frontiers: list(&scene.frontiers, position)?,
        })
    }
}

fn list<T, const WIDTH: usize>(
    numbers: &[i64],
    record: fn([i64; WIDTH]) -> Option<T>,
) -> Option<Vec<T>> {
    let (records, rest) = numbers.as_chunks();
    let list = records.iter().map(|it| record(*it)).collect();
    if rest.is_empty() { list } else { None }
}

fn id(number: i64) -> Option<ComponentId> {
    u32::try_from(number).ok().map(ComponentId)
}

fn at<T: Copy>(table: &[T], code: i64) -> Option<T> {
    table.get(usize::try_from(code).ok()?).copied()
}

fn face(code: i64) -> Option<Option<Facing>> {
    if code == 0 {
        return Some(None);
    }
    at(&Facing::ALL, code.checked_sub(1)?).map(Some)
}

fn position([x, y, z]: [i64; 3]) -> Option<Position> {
    let axis = |number| i32::try_from(number).ok();
    Some(Position::new(axis(x)?, axis(y)?, axis(z)?))
}

fn component([number, x, y, z, kind, facing, support, conducts]: [i64; 8]) -> Option<Component> {
    Some(Component {
        id: id(number)?,
        position: position([x, y, z])?,
        kind: at(&BlockKind::ALL, kind)?,
        facing: face(facing)?,
        support: face(support)?,
        conducts: at(&[false, true], conducts)?,
    })
}

fn connection([source, sink, kind]: [i64; 3]) -> Option<Connection> {
    Some(Connection {
        source: id(source)?,
        sink: id(sink)?,
        kind: at(&ConnectionKind::ALL, kind)?,
    })
}

fn port_connection(record: [i64; 5]) -> Option<PortConnection> {
    let [source, source_port, sink, sink_port, transfer] = record;
    let port = |component, port| Some(PortRef::new(id(component)?, u8::try_from(port).ok()?));
    Some(PortConnection {
        source: port(source, source_port)?,
        sink: port(sink, sink_port)?,
        transfer: at(&TransferKind::ALL, transfer)?,
    })
}
