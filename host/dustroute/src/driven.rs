//! Whether one required input is driven.

use crate::bytes::WORDS;
use crate::liveness::{Set, members};
use crate::numbers::counts;
use crate::rows::Rows;
use crate::{Component, ComponentId, PortConnection, PortRef, Position, Refusal, Rules, limits};

mod raw {
    //! As in `include/dustroute.h`: a slice passes as a pointer and then a count
    //! of its numbers.

    unsafe extern "C" {
        pub fn dustroute_driven(
            rules: i64,
            components: *const i64,
            components_len: usize,
            ports: *const i64,
            ports_len: usize,
            frontiers: *const i64,
            frontiers_len: usize,
            id: u64,
            port: u64,
            met: *mut u64,
            met_len: usize,
            stack: *mut usize,
            stack_len: usize,
        ) -> u64;
    }
}

/// What is found of one required input.
#[derive(Clone, Debug, Default, Eq, PartialEq)]
pub struct DrivenInput {
    /// Whether it is fed by a component that is driven: whether its verdict is
    /// [`DrivenByKnownSource`](crate::RequiredInputStatus::DrivenByKnownSource).
    pub driven: bool,
    /// The components that the search met, in list order: each feeds the input
    /// or is upstream of one that does. If driven exactly one of them is a drive
    /// source; if not they are all of these, and none is.
    pub met: Vec<ComponentId>,
}

/// Finds whether one required input is driven: goes upstream from it until it
/// meets a drive source. The verdict is that of [`liveness`](crate::liveness),
/// without an analysis of the rest of the plot, and the same under all rules.
///
/// # Errors
/// The refusal of the lists, as of [`liveness`](crate::liveness); then
/// [`Reason::NoVerdict`](crate::Reason::NoVerdict) where the port is no required
/// input.
///
/// ```
/// use dustroute::{
///     BlockKind, Component, ComponentId, Facing, PortConnection, PortRef, Position, Reason,
///     Rules, TransferKind, driven,
/// };
///
/// // A lever, a wire beside it, and a repeater that the wire feeds.
/// let [lever, wire, repeater] = [ComponentId(3), ComponentId(2), ComponentId(1)];
/// let components = [
///     Component::new(lever, Position::new(0, 0, 0), BlockKind::Lever),
///     Component::new(wire, Position::new(1, 0, 0), BlockKind::RedstoneWire),
///     Component {
///         facing: Some(Facing::East),
///         ..Component::new(repeater, Position::new(2, 0, 0), BlockKind::Repeater)
///     },
/// ];
/// let feed = |source, sink| PortConnection {
///     source: PortRef::new(source, 1),
///     sink: PortRef::new(sink, 1),
///     transfer: TransferKind::DirectSignal,
/// };
/// let connections = [feed(lever, wire), feed(wire, repeater)];
/// let input = PortRef::new(repeater, 1);
///
/// let found = driven(Rules::Two, &components, &connections, &[], input)?;
/// assert!(found.driven);
/// assert_eq!(found.met, [lever, wire]);
///
/// // Without the lever's connection the wire is all there is upstream.
/// let found = driven(Rules::Two, &components, &[feed(wire, repeater)], &[], input)?;
/// assert!(!found.driven);
/// assert_eq!(found.met, [wire]);
///
/// // A wire has no required input.
/// let refused = driven(Rules::Two, &components, &connections, &[], PortRef::new(wire, 1));
/// assert_eq!(refused.map_err(|refusal| refusal.reason), Err(Reason::NoVerdict));
/// # Ok::<(), dustroute::Refusal>(())
/// ```
pub fn driven(
    rules: Rules,
    components: &[Component],
    connections: &[PortConnection],
    frontiers: &[Position],
    input: PortRef,
) -> Result<DrivenInput, Refusal> {
    let rows = Rows::of(rules, components, connections, frontiers);
    let mut met = [0; WORDS];
    let mut stack = vec![0; 2 * components.len().min(limits::COMPONENTS)];
    let driven = match counts(ask(&rows, input, &mut met, &mut stack))? {
        [0, 0, 0] => false,
        [1, 0, 0] => true,
        _ => return Err(Refusal::UNREADABLE),
    };
    let met = Set(met);
    let each = components.iter().zip(members(components));
    let each = each.filter(|&(_, member)| met.contains(member));
    Ok(DrivenInput {
        driven,
        met: each.map(|(component, _)| component.id).collect(),
    })
}

/// The call.
fn ask(rows: &Rows, input: PortRef, met: &mut [u64], stack: &mut [usize]) -> u64 {
    let (components, ports, frontiers) = (rows.components(), rows.ports(), rows.frontiers());
    // SAFETY: each pointer is to a whole slice of the length beside it. The
    // callee only reads the first three, and the borrows keep the others apart.
    unsafe {
        raw::dustroute_driven(
            rows.rules,
            components.as_ptr(),
            components.len(),
            ports.as_ptr(),
            ports.len(),
            frontiers.as_ptr(),
            frontiers.len(),
            u64::from(input.component.0),
            u64::from(input.port),
            met.as_mut_ptr(),
            met.len(),
            stack.as_mut_ptr(),
            stack.len(),
        )
    }
}
