//! The records of the lists that the functions take.

use crate::{BlockKind, ConnectionKind, Facing, TransferKind};

/// A component's id. Ids need not follow list order; no two are alike.
#[derive(Clone, Copy, Debug, Default, Eq, Hash, Ord, PartialEq, PartialOrd)]
pub struct ComponentId(pub u32);

/// A cell. Positions are ordered by x, then y, then z. East is x+1, Up is y+1,
/// South is z+1.
#[derive(Clone, Copy, Debug, Default, Eq, Hash, Ord, PartialEq, PartialOrd)]
pub struct Position {
    /// From -30,000,000 to 30,000,000, as the others.
    pub x: i32,
    /// The height.
    pub y: i32,
    /// The third axis.
    pub z: i32,
}

impl Position {
    /// The cell with these coordinates.
    #[must_use]
    pub const fn new(x: i32, y: i32, z: i32) -> Self {
        Self { x, y, z }
    }

    pub(crate) fn record(&self) -> [i64; 3] {
        [self.x, self.y, self.z].map(i64::from)
    }
}

/// A block of the plot.
#[derive(Clone, Copy, Debug, Eq, Hash, PartialEq)]
pub struct Component {
    /// No other component has it.
    pub id: ComponentId,
    /// Where it is. Several components may share a cell.
    pub position: Position,
    /// What it is.
    pub kind: BlockKind,
    /// Where a repeater, comparator or piston faces.
    pub facing: Option<Facing>,
    /// On which side the block that holds it up is.
    pub support: Option<Facing>,
    /// Whether weak power goes through it.
    pub conducts: bool,
}

impl Component {
    /// A component that faces nowhere, stands on nothing and does not conduct.
    ///
    /// ```
    /// use dustroute::{BlockKind, Component, ComponentId, Position};
    ///
    /// let stone = Component {
    ///     conducts: true,
    ///     ..Component::new(ComponentId(7), Position::new(0, 64, 0), BlockKind::Solid)
    /// };
    /// assert_eq!(stone.facing, None);
    /// ```
    #[must_use]
    pub const fn new(id: ComponentId, position: Position, kind: BlockKind) -> Self {
        Self {
            id,
            position,
            kind,
            facing: None,
            support: None,
            conducts: false,
        }
    }

    /// By what components ascend in a list.
    ///
    /// ```
    /// # use dustroute::{BlockKind, Component, ComponentId, Position};
    /// # let wire = |id, x| {
    /// #     Component::new(ComponentId(id), Position::new(x, 0, 0), BlockKind::RedstoneWire)
    /// # };
    /// let mut components = vec![wire(1, 5), wire(2, 0), wire(0, 5)];
    /// components.sort_by_key(Component::order);
    /// assert_eq!(components, [wire(2, 0), wire(0, 5), wire(1, 5)]);
    /// ```
    #[must_use]
    pub const fn order(&self) -> (Position, ComponentId) {
        (self.position, self.id)
    }

    pub(crate) fn record(&self) -> [i64; 8] {
        let [x, y, z] = self.position.record();
        [
            i64::from(self.id.0),
            x,
            y,
            z,
            self.kind as i64,
            Facing::code(self.facing),
            Facing::code(self.support),
            i64::from(self.conducts),
        ]
    }
}

/// A grouping connection. They are ordered by source, then sink, then kind, and
/// ascend strictly so in a list. An end may be no component: then the
/// connection joins nothing.
#[derive(Clone, Copy, Debug, Eq, Hash, Ord, PartialEq, PartialOrd)]
pub struct Connection {
    /// Where it starts.
    pub source: ComponentId,
    /// Where it ends.
    pub sink: ComponentId,
    /// How it joins.
    pub kind: ConnectionKind,
}

impl Connection {
    pub(crate) fn record(&self) -> [i64; 3] {
        let [source, sink] = [self.source, self.sink].map(|id| i64::from(id.0));
        [source, sink, self.kind as i64]
    }
}

/// A port of a component.
#[derive(Clone, Copy, Debug, Eq, Hash, Ord, PartialEq, PartialOrd)]
pub struct PortRef {
    /// Whose port it is.
    pub component: ComponentId,
    /// Its number among the component's ports, from 0.
    pub port: u8,
}

impl PortRef {
    /// The port of a component with this number.
    #[must_use]
    pub const fn new(component: ComponentId, port: u8) -> Self {
        Self { component, port }
    }
}

/// A connection from port to port. They come in any order, and repeats change
/// nothing. But for support both ends must be components.
#[derive(Clone, Copy, Debug, Eq, Hash, PartialEq)]
pub struct PortConnection {
    /// The port that feeds.
    pub source: PortRef,
    /// The port that is fed.
    pub sink: PortRef,
    /// What is handed on.
    pub transfer: TransferKind,
}

impl PortConnection {
    pub(crate) fn record(&self) -> [i64; 5] {
        let end = |end: PortRef| [i64::from(end.component.0), i64::from(end.port)];
        let [source, source_port] = end(self.source);
        let [sink, sink_port] = end(self.sink);
        [source, source_port, sink, sink_port, self.transfer as i64]
    }

    /// None where a number is none that the types can hold.
    pub(crate) fn of_record(record: [i64; 5]) -> Option<Self> {
        let [source, source_port, sink, sink_port, transfer] = record;
        let end = |id, port| {
            let id = u32::try_from(id).ok().map(ComponentId)?;
            Some(PortRef::new(id, u8::try_from(port).ok()?))
        };
        let transfer = usize::try_from(transfer).ok()?;
        Some(Self {
            source: end(source, source_port)?,
            sink: end(sink, sink_port)?,
            transfer: *TransferKind::ALL.get(transfer)?,
        })
    }
}

/// No answer depends on every number of a record, so these are held here.
#[cfg(test)]
mod tests {
    use super::{Component, ComponentId, Connection, PortConnection, PortRef, Position};
    use crate::{BlockKind, ConnectionKind, Facing, TransferKind};

    const LAST: ComponentId = ComponentId(u32::MAX);

    #[test]
    fn components_are_eight_numbers() {
        let position = Position::new(-30_000_000, 64, 30_000_000);
        for (code, kind) in (0..).zip(BlockKind::ALL) {
            let record = Component::new(LAST, position, kind).record();
            let wanted = [4_294_967_295, -30_000_000, 64, 30_000_000, code, 0, 0, 0];
            assert_eq!(record, wanted);
        }
        for (code, face) in (1..).zip(Facing::ALL) {
            let component = Component {
                facing: Some(face),
                ..Component::new(ComponentId(0), Position::default(), BlockKind::Air)
            };
            assert_eq!(component.record(), [0, 0, 0, 0, 12, code, 0, 0]);
            let component = Component {
                facing: None,
                support: Some(face),
                conducts: true,
                ..component
            };
            assert_eq!(component.record(), [0, 0, 0, 0, 12, 0, code, 1]);
        }
    }

    #[test]
    fn connections_are_three_numbers_and_port_connections_five() {
        let (source, sink) = (ComponentId(3), LAST);
        for (code, kind) in (0..).zip(ConnectionKind::ALL) {
            let connection = Connection { source, sink, kind };
            assert_eq!(connection.record(), [3, 4_294_967_295, code]);
        }
        for (code, transfer) in (0..).zip(TransferKind::ALL) {
            let connection = PortConnection {
                source: PortRef::new(source, 255),
                sink: PortRef::new(sink, 1),
                transfer,
            };
            assert_eq!(connection.record(), [3, 255, 4_294_967_295, 1, code]);
        }
    }
}
