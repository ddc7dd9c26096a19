//! The port connections that grouping connections make, and those that make none.

use crate::numbers::{counts, records, rows};
use crate::{
    Component, Connection, LeftOut, PortConnection, Refusal, Rules, Slope, left_out, limits,
};

mod raw {
    //! As in `include/dustroute.h`: a slice passes as a pointer and then a count
    //! of its numbers.

    unsafe extern "C" {
        pub fn dustroute_ports(
            rules: i64,
            components: *const i64,
            components_len: usize,
            connections: *const i64,
            connections_len: usize,
            ports: *mut i64,
            ports_len: usize,
        ) -> u64;
    }
}

/// What becomes of the grouping connections of a scene: each is in one of the two.
#[derive(Clone, Debug, Default, Eq, PartialEq)]
pub struct Ports {
    /// Those that go from port to port, in order.
    pub kept: Vec<KeptConnection>,
    /// The others, in order, each with why.
    pub left_out: Vec<LeftOut>,
}

impl Ports {
    /// The port connections, as [`liveness`](crate::liveness) and the other
    /// functions take them.
    #[must_use]
    pub fn connections(&self) -> Vec<PortConnection> {
        self.kept.iter().map(|it| it.connection).collect()
    }
}

/// A grouping connection that goes from a port to a port.
#[derive(Clone, Copy, Debug, Eq, Hash, PartialEq)]
pub struct KeptConnection {
    /// Its place in the list given, from 0.
    pub item: usize,
    /// As [`liveness`](crate::liveness) takes it.
    pub connection: PortConnection,
    /// Whether the step from source to sink climbs: by their positions alone,
    /// whatever the kind of the connection.
    pub slope: Slope,
}

/// The grouping connections that go from port to port, each with the slope of its
/// step, and the others, each with why it is none. At either end it is the first
/// port with the face of the step that also fits. A connection with an end that has
/// no component, face or port is left out, and so is support. Under rules 3 a device
/// whose facing was left blank has fewer ports, see [`Rules`], so that the
/// connections at them are left out; else they are the same under all rules.
///
/// # Errors
/// A list that is not as it must be.
///
/// ```
/// use dustroute::{
///     BlockKind, Component, ComponentId, Connection, ConnectionKind, Position, Rules, Slope,
///     liveness, ports,
/// };
///
/// // Dust up a step and down again.
/// let wire = |id, x, y| {
///     let position = Position::new(x, y, 0);
///     Component::new(ComponentId(id), position, BlockKind::RedstoneWire)
/// };
/// let joined = |source, sink, kind| Connection {
///     source: ComponentId(source),
///     sink: ComponentId(sink),
///     kind,
/// };
/// let components = [wire(1, 0, 64), wire(2, 1, 65), wire(3, 2, 64)];
/// let connections = [
///     joined(1, 2, ConnectionKind::DustRise),
///     joined(2, 3, ConnectionKind::DustFallThroughConductor),
///     joined(3, 9, ConnectionKind::Dust),
/// ];
///
/// let found = ports(Rules::Two, &components, &connections)?;
/// let slopes: Vec<Slope> = found.kept.iter().map(|it| it.slope).collect();
/// assert_eq!(slopes, [Slope::Rising, Slope::Falling]);
///
/// // The last one leads to a block that is not there.
/// let said: Vec<String> = found.left_out.iter().map(ToString::to_string).collect();
/// assert_eq!(said, ["3 to 9: there is no block 9"]);
///
/// // Liveness takes those kept.
/// let fed = found.connections();
/// assert_eq!(liveness(Rules::Two, &components, &fed, &[])?.regions.len(), 3);
/// # Ok::<(), dustroute::Refusal>(())
/// ```
pub fn ports(
    rules: Rules,
    components: &[Component],
    connections: &[Connection],
) -> Result<Ports, Refusal> {
    let rows = kept_rows(rules, components, connections)?;
    let left_out = left_out(rules, components, connections)?;
    let mut given = vec![true; connections.len()];
    for it in &left_out {
        if let Some(given) = given.get_mut(it.item) {
            *given = false;
        }
    }
    let items: Vec<usize> = (0..).zip(given).filter(|it| it.1).map(|it| it.0).collect();
    if items.len() != rows.len() {
        return Err(Refusal::UNREADABLE);
    }
    let kept = items.into_iter().zip(rows);
    Ok(Ports {
        kept: kept
            .map(|(item, row)| read_kept(item, row))
            .collect::<Result<_, _>>()?,
        left_out,
    })
}

/// The rows of those kept, in order.
fn kept_rows(
    rules: Rules,
    components: &[Component],
    connections: &[Connection],
) -> Result<Vec<[i64; 6]>, Refusal> {
    let component_rows = records(components, limits::COMPONENTS, Component::record);
    let connection_rows = records(connections, limits::CONNECTIONS, Connection::record);
    let mut kept = vec![[0; 6]; connections.len().min(limits::CONNECTIONS)];
    let answer = ask(
        rules,
        component_rows.as_flattened(),
        connection_rows.as_flattened(),
        kept.as_flattened_mut(),
    );
    let [count, 0, 0] = counts(answer)? else {
        return Err(Refusal::UNREADABLE);
    };
    rows(&kept, count).map(<[_]>::to_vec)
}

fn read_kept(item: usize, row: [i64; 6]) -> Result<KeptConnection, Refusal> {
    let [source, source_port, sink, sink_port, transfer, slope] = row;
    let read = || {
        let connection = [source, source_port, sink, sink_port, transfer];
        Some(KeptConnection {
            item,
            connection: PortConnection::of_record(connection)?,
            slope: *Slope::ALL.get(usize::try_from(slope).ok()?)?,
        })
    };
    read().ok_or(Refusal::UNREADABLE)
}

/// The call.
fn ask(rules: Rules, components: &[i64], connections: &[i64], ports: &mut [i64]) -> u64 {
    // SAFETY: each pointer is to a whole slice of the length beside it. The
    // callee only reads the first two, and the borrow keeps the third apart.
    unsafe {
        raw::dustroute_ports(
            rules.number(),
            components.as_ptr(),
            components.len(),
            connections.as_ptr(),
            connections.len(),
            ports.as_mut_ptr(),
            ports.len(),
        )
    }
}

#[cfg(test)]
mod tests {
    use super::{KeptConnection, read_kept};
    use crate::{ComponentId, PortConnection, PortRef, Refusal, Slope, TransferKind};

    #[test]
    fn what_no_contract_allows_is_unreadable() {
        let connection = PortConnection {
            source: PortRef::new(ComponentId(u32::MAX), 6),
            sink: PortRef::new(ComponentId(3), 1),
            transfer: TransferKind::DustPropagation,
        };
        for (code, slope) in (0..).zip(Slope::ALL) {
            let row = [4_294_967_295, 6, 3, 1, 0, code];
            let wanted = KeptConnection {
                item: 9,
                connection,
                slope,
            };
            assert_eq!(read_kept(9, row), Ok(wanted));
        }
        for row in [
            [-1, 6, 3, 1, 0, 0],
            [1, 256, 3, 1, 0, 0],
            [1, 6, 3, 1, 7, 0],
            [1, 6, 3, 1, 0, 3],
            [1, 6, 3, 1, 0, -1],
        ] {
            assert_eq!(read_kept(0, row), Err(Refusal::UNREADABLE), "{row:?}");
        }
    }
}
