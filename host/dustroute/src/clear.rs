//! A plot cleared up after digging.

use crate::numbers::{counts, rows};
use crate::rows::Rows;
use crate::{Component, PortConnection, Position, Refusal, Rules, limits};

mod raw {
    //! As in `include/dustroute.h`: a slice passes as a pointer and then a count
    //! of its numbers.

    unsafe extern "C" {
        pub fn dustroute_clear(
            rules: i64,
            components: *const i64,
            components_len: usize,
            ports: *const i64,
            ports_len: usize,
            frontiers: *const i64,
            frontiers_len: usize,
            kept: *mut i64,
            kept_len: usize,
            dropped: *mut u64,
            dropped_len: usize,
        ) -> u64;
    }
}

/// Port connections parted into those that stay and those that named a block
/// which is gone.
#[derive(Clone, Debug, Default, Eq, PartialEq)]
pub struct Cleared {
    /// Those that stay, in the order given: a list that
    /// [`liveness`](crate::liveness) accepts.
    pub kept: Vec<PortConnection>,
    /// The others, in the order given.
    pub dropped: Vec<Dropped>,
}

/// A port connection that was dropped.
#[derive(Clone, Copy, Debug, Eq, Hash, PartialEq)]
pub struct Dropped {
    /// Its place in the list given, from 0.
    pub item: usize,
    /// Which of its ends are no component.
    pub missing: Missing,
}

/// Which ends of a port connection are no component.
#[derive(Clone, Copy, Debug, Eq, Hash, Ord, PartialEq, PartialOrd)]
pub enum Missing {
    /// Code 0.
    Source,
    /// Code 1.
    Sink,
    /// Code 2.
    Both,
}

impl Missing {
    /// Every case, by rising code.
    pub const ALL: [Self; 3] = [Self::Source, Self::Sink, Self::Both];
}

/// Drops the port connections with an end that is no component, and keeps the
/// others in order. Support connections stay, whatever their ends. These are
/// the connections for which [`liveness`](crate::liveness) refuses a plot with
/// [`Reason::MissingEndpoint`](crate::Reason::MissingEndpoint); what is kept it
/// accepts. Cleared again, the plot stays as it is. All this is the same under
/// all rules.
///
/// # Errors
/// Every other refusal of the lists, as of [`liveness`](crate::liveness).
///
/// ```
/// use dustroute::{
///     BlockKind, Component, ComponentId, Dropped, Missing, PortConnection, PortRef, Position,
///     Reason, Rules, TransferKind, clear, liveness,
/// };
///
/// // Three wires in a row, and a connection from a block that was dug away.
/// let wire = |k: u16| {
///     let position = Position::new(i32::from(k), 0, 0);
///     Component::new(ComponentId(k.into()), position, BlockKind::RedstoneWire)
/// };
/// let feed = |source, sink| PortConnection {
///     source: PortRef::new(ComponentId(source), 1),
///     sink: PortRef::new(ComponentId(sink), 3),
///     transfer: TransferKind::DustPropagation,
/// };
/// let components = [wire(0), wire(1), wire(2)];
/// let saved = [feed(0, 1), feed(1, 2), feed(9, 0)];
/// let refused = liveness(Rules::Two, &components, &saved, &[]);
/// assert_eq!(refused.map_err(|it| it.reason), Err(Reason::MissingEndpoint));
///
/// let cleared = clear(Rules::Two, &components, &saved, &[])?;
/// assert_eq!(cleared.kept, [feed(0, 1), feed(1, 2)]);
/// assert_eq!(cleared.dropped, [Dropped { item: 2, missing: Missing::Source }]);
///
/// let found = liveness(Rules::Two, &components, &cleared.kept, &[])?;
/// assert_eq!(found.regions.len(), 3);
/// assert!(found.regions.iter().all(|region| !region.cyclic));
/// # Ok::<(), dustroute::Refusal>(())
/// ```
pub fn clear(
    rules: Rules,
    components: &[Component],
    connections: &[PortConnection],
    frontiers: &[Position],
) -> Result<Cleared, Refusal> {
    let lists = Rows::of(rules, components, connections, frontiers);
    let places = connections.len().min(limits::CONNECTIONS);
    let mut kept = vec![[0; 5]; places];
    let mut dropped = vec![[0; 2]; places];
    let answer = ask(&lists, kept.as_flattened_mut(), dropped.as_flattened_mut());
    let [kept_count, dropped_count, 0] = counts(answer)? else {
        return Err(Refusal::UNREADABLE);
    };
    let kept = rows(&kept, kept_count)?.iter();
    let dropped = rows(&dropped, dropped_count)?.iter();
    Ok(Cleared {
        kept: kept.map(|&row| read_kept(row)).collect::<Result<_, _>>()?,
        dropped: dropped
            .map(|&row| read_dropped(row, places))
            .collect::<Result<_, _>>()?,
    })
}

fn read_kept(row: [i64; 5]) -> Result<PortConnection, Refusal> {
    PortConnection::of_record(row).ok_or(Refusal::UNREADABLE)
}

/// A row of a list with so many places.
fn read_dropped([item, missing]: [u64; 2], places: usize) -> Result<Dropped, Refusal> {
    let read = || {
        let item = usize::try_from(item).ok().filter(|&item| item < places)?;
        let missing = usize::try_from(missing).ok()?;
        let missing = *Missing::ALL.get(missing)?;
        Some(Dropped { item, missing })
    };
    read().ok_or(Refusal::UNREADABLE)
}

/// The call.
fn ask(lists: &Rows, kept: &mut [i64], dropped: &mut [u64]) -> u64 {
    let (components, ports, frontiers) = (lists.components(), lists.ports(), lists.frontiers());
    // SAFETY: each pointer is to a whole slice of the length beside it. The
    // callee only reads the first three, and the borrows keep the others apart.
    unsafe {
        raw::dustroute_clear(
            lists.rules,
            components.as_ptr(),
            components.len(),
            ports.as_ptr(),
            ports.len(),
            frontiers.as_ptr(),
            frontiers.len(),
            kept.as_mut_ptr(),
            kept.len(),
            dropped.as_mut_ptr(),
            dropped.len(),
        )
    }
}

#[cfg(test)]
mod tests {
    use super::{Dropped, Missing, read_dropped, read_kept};
    use crate::{ComponentId, PortConnection, PortRef, Refusal, TransferKind};

    #[test]
    fn what_no_contract_allows_is_unreadable() {
        let wanted = PortConnection {
            source: PortRef::new(ComponentId(3), 255),
            sink: PortRef::new(ComponentId(u32::MAX), 1),
            transfer: TransferKind::StructuralSupport,
        };
        assert_eq!(read_kept(wanted.record()), Ok(wanted));
        let [a, b, c, d, e] = wanted.record();
        for row in [
            [-1, b, c, d, e],
            [a, 256, c, d, e],
            [a, b, 1 << 32, d, e],
            [a, b, c, -1, e],
            [a, b, c, d, 7],
        ] {
            assert_eq!(read_kept(row), Err(Refusal::UNREADABLE), "{row:?}");
        }
        for (code, missing) in (0..).zip(Missing::ALL) {
            let item = 4;
            assert_eq!(read_dropped([4, code], 5), Ok(Dropped { item, missing }));
        }
        for row in [[5, 0], [u64::MAX, 0], [4, 3]] {
            assert_eq!(read_dropped(row, 5), Err(Refusal::UNREADABLE), "{row:?}");
        }
    }
}
