//! The way from a lever to an input that it drives.

use crate::numbers::counts;
use crate::rows::Rows;
use crate::{Component, ComponentId, PortConnection, PortRef, Position, Refusal, Rules, limits};

mod raw {
    //! As in `include/dustroute.h`: a slice passes as a pointer and then a count
    //! of its numbers.

    unsafe extern "C" {
        pub fn dustroute_trail(
            rules: i64,
            components: *const i64,
            components_len: usize,
            ports: *const i64,
            ports_len: usize,
            frontiers: *const i64,
            frontiers_len: usize,
            id: u64,
            port: u64,
            trail: *mut u64,
            trail_len: usize,
        ) -> u64;

        pub fn dustroute_check_trail(
            rules: i64,
            components: *const i64,
            components_len: usize,
            ports: *const i64,
            ports_len: usize,
            frontiers: *const i64,
            frontiers_len: usize,
            id: u64,
            port: u64,
            trail: *const u64,
            trail_len: usize,
        ) -> u64;
    }
}

/// Finds the way from a drive source to a driven input: the components that the
/// signal goes through, the drive source first and one that feeds the input
/// last, as few as there can be. Among equally short ways it is the one with
/// the smaller id where they first differ, from the drive source on. It is the
/// same under all rules.
///
/// # Errors
/// The refusal of the lists, as of [`liveness`](crate::liveness); then
/// [`Reason::NoVerdict`](crate::Reason::NoVerdict) where the port is no required
/// input; then [`Reason::NotDriven`](crate::Reason::NotDriven) where its verdict
/// is not
/// [`DrivenByKnownSource`](crate::RequiredInputStatus::DrivenByKnownSource).
///
/// Which of two levers drives the repeater?
///
/// ```
/// use dustroute::{
///     BlockKind, Component, ComponentId, Facing, PortConnection, PortRef, Position, Reason,
///     Rules, TransferKind, check_trail, trail,
/// };
///
/// // A lever, two wires beside it, and a repeater that the second wire feeds.
/// // Another lever stands by the first wire, and nothing leads on from it.
/// let [lever, first, second, repeater, other] = [5, 3, 9, 1, 2].map(ComponentId);
/// let at = |id, x, z, kind| Component::new(id, Position::new(x, 0, z), kind);
/// let components = [
///     at(lever, 0, 0, BlockKind::Lever),
///     at(first, 1, 0, BlockKind::RedstoneWire),
///     at(other, 1, 1, BlockKind::Lever),
///     at(second, 2, 0, BlockKind::RedstoneWire),
///     Component {
///         facing: Some(Facing::East),
///         ..at(repeater, 3, 0, BlockKind::Repeater)
///     },
/// ];
/// let feed = |source, sink| PortConnection {
///     source: PortRef::new(source, 1),
///     sink: PortRef::new(sink, 1),
///     transfer: TransferKind::DirectSignal,
/// };
/// let mut connections = vec![feed(lever, first), feed(first, second), feed(second, repeater)];
/// let input = PortRef::new(repeater, 1);
///
/// let rules = Rules::Two;
/// let way = trail(rules, &components, &connections, &[], input)?;
/// assert_eq!(way, [lever, first, second]);
/// assert!(check_trail(rules, &components, &connections, &[], input, &way)?);
///
/// // A pupil's answer that begins at the other lever is no way.
/// let given = [other, first, second];
/// assert!(!check_trail(rules, &components, &connections, &[], input, &given)?);
///
/// // Once the other lever is connected too, both ways are as short: its id is
/// // the smaller one. The first lever's way is still one.
/// connections.push(feed(other, first));
/// assert_eq!(trail(rules, &components, &connections, &[], input)?, given);
/// assert!(check_trail(rules, &components, &connections, &[], input, &way)?);
///
/// // Without the second wire's connection nothing drives the repeater.
/// let refused = trail(rules, &components, &[feed(lever, first)], &[], input);
/// assert_eq!(refused.map_err(|refusal| refusal.reason), Err(Reason::NotDriven));
/// # Ok::<(), dustroute::Refusal>(())
/// ```
pub fn trail(
    rules: Rules,
    components: &[Component],
    connections: &[PortConnection],
    frontiers: &[Position],
    input: PortRef,
) -> Result<Vec<ComponentId>, Refusal> {
    let rows = Rows::of(rules, components, connections, frontiers);
    let mut ids = vec![0; components.len().min(limits::COMPONENTS)];
    let [count, 0, 0] = counts(find(&rows, input, &mut ids))? else {
        return Err(Refusal::UNREADABLE);
    };
    let found = ids.get(..count).ok_or(Refusal::UNREADABLE)?;
    let id = |number: &u64| u32::try_from(*number).map(ComponentId);
    let found: Result<_, _> = found.iter().map(id).collect();
    found.map_err(|_| Refusal::UNREADABLE)
}

/// Tells of a list of components whether it is a way from a drive source to an
/// input: whether its first member is a drive source, each next one is fed by
/// the one before, and the last feeds the input. Any list may be asked about: a
/// detour and a member that comes twice are allowed, and no list at all is no
/// way. The answer is the same under all rules.
///
/// # Errors
/// The refusal of the lists, as of [`liveness`](crate::liveness); then
/// [`Reason::NoVerdict`](crate::Reason::NoVerdict) where the port is no required
/// input.
pub fn check_trail(
    rules: Rules,
    components: &[Component],
    connections: &[PortConnection],
    frontiers: &[Position],
    input: PortRef,
    trail: &[ComponentId],
) -> Result<bool, Refusal> {
    let rows = Rows::of(rules, components, connections, frontiers);
    let ids: Vec<u64> = trail.iter().map(|id| u64::from(id.0)).collect();
    match counts(check(&rows, input, &ids))? {
        [0, 0, 0] => Ok(false),
        [1, 0, 0] => Ok(true),
        _ => Err(Refusal::UNREADABLE),
    }
}

/// The call of the finder.
fn find(rows: &Rows, input: PortRef, trail: &mut [u64]) -> u64 {
    let (components, ports, frontiers) = (rows.components(), rows.ports(), rows.frontiers());
    // SAFETY: each pointer is to a whole slice of the length beside it. The
    // callee only reads the first three, and the borrows keep the last apart.
    unsafe {
        raw::dustroute_trail(
            rows.rules,
            components.as_ptr(),
            components.len(),
            ports.as_ptr(),
            ports.len(),
            frontiers.as_ptr(),
            frontiers.len(),
            u64::from(input.component.0),
            u64::from(input.port),
            trail.as_mut_ptr(),
            trail.len(),
        )
    }
}

/// The call of the check.
fn check(rows: &Rows, input: PortRef, trail: &[u64]) -> u64 {
    let (components, ports, frontiers) = (rows.components(), rows.ports(), rows.frontiers());
    // SAFETY: each pointer is to a whole slice of the length beside it, and the
    // callee only reads them.
    unsafe {
        raw::dustroute_check_trail(
            rows.rules,
            components.as_ptr(),
            components.len(),
            ports.as_ptr(),
            ports.len(),
            frontiers.as_ptr(),
            frontiers.len(),
            u64::from(input.component.0),
            u64::from(input.port),
            trail.as_ptr(),
            trail.len(),
        )
    }
}
