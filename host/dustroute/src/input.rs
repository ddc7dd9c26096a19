//! What feeds one required input.

use std::collections::BTreeSet;

use crate::bytes::WORDS;
use crate::liveness::{Set, members};
use crate::numbers::counts;
use crate::rows::Rows;
use crate::{Component, ComponentId, PortConnection, PortRef, Position, Refusal, Rules, limits};

mod raw {
    //! As in `include/dustroute_blocks.h`: a slice passes as a pointer and then a
    //! count of its numbers.

    unsafe extern "C" {
        pub fn dustroute_input(
            rules: i64,
            components: *const i64,
            components_len: usize,
            ports: *const i64,
            ports_len: usize,
            frontiers: *const i64,
            frontiers_len: usize,
            id: u64,
            port: u64,
            immediate: *mut u64,
            immediate_len: usize,
            inferred: *mut u64,
            inferred_len: usize,
            stack: *mut usize,
            stack_len: usize,
        ) -> u64;
    }
}

/// The components that matter to one required input.
#[derive(Clone, Debug, Default, Eq, PartialEq)]
pub struct InputSources {
    /// Those that feed it. If there are none its verdict is
    /// [`Disconnected`](crate::RequiredInputStatus::Disconnected).
    pub immediate: BTreeSet<ComponentId>,
    /// The inferred inputs among these and all that is upstream of them: wires at
    /// which a lever may still be laid. If the input is not driven its verdict is
    /// [`AwaitingExternalInput`](crate::RequiredInputStatus::AwaitingExternalInput)
    /// exactly if there is one.
    pub inferred: BTreeSet<ComponentId>,
}

/// Finds what feeds one required input, and which inferred inputs are upstream of
/// it. Those depend on the [`Rules`], as of [`liveness`](crate::liveness).
///
/// # Errors
/// The refusal of the lists, as of [`liveness`](crate::liveness); then
/// [`Reason::NoVerdict`](crate::Reason::NoVerdict) where the port is no required
/// input.
///
/// ```
/// use dustroute::{
///     BlockKind, Component, ComponentId, Facing, PortConnection, PortRef, Position, Reason,
///     Rules, TransferKind, input,
/// };
///
/// // Two wires in a row, and a repeater that the second feeds.
/// let [first, second, repeater] = [ComponentId(3), ComponentId(2), ComponentId(1)];
/// let at = |id, x, kind| Component::new(id, Position::new(x, 0, 0), kind);
/// let components = [
///     at(first, 0, BlockKind::RedstoneWire),
///     at(second, 1, BlockKind::RedstoneWire),
///     Component {
///         facing: Some(Facing::East),
///         ..at(repeater, 2, BlockKind::Repeater)
///     },
/// ];
/// let feed = |source, sink| PortConnection {
///     source: PortRef::new(source, 1),
///     sink: PortRef::new(sink, 1),
///     transfer: TransferKind::DirectSignal,
/// };
/// let connections = [feed(first, second), feed(second, repeater)];
///
/// let found = input(Rules::Three, &components, &connections, &[], PortRef::new(repeater, 1))?;
/// assert_eq!(found.immediate, [second].into());
/// assert_eq!(found.inferred, [first].into());
///
/// // A wire has no required input.
/// let refused = input(Rules::Three, &components, &connections, &[], PortRef::new(first, 1));
/// assert_eq!(refused.map_err(|refusal| refusal.reason), Err(Reason::NoVerdict));
/// # Ok::<(), dustroute::Refusal>(())
/// ```
pub fn input(
    rules: Rules,
    components: &[Component],
    connections: &[PortConnection],
    frontiers: &[Position],
    port: PortRef,
) -> Result<InputSources, Refusal> {
    let rows = Rows::of(rules, components, connections, frontiers);
    let (mut immediate, mut inferred) = ([0; WORDS], [0; WORDS]);
    let mut stack = vec![0; 2 * components.len().min(limits::COMPONENTS)];
    let answer = ask(&rows, port, &mut immediate, &mut inferred, &mut stack);
    let [0, 0, 0] = counts(answer)? else {
        return Err(Refusal::UNREADABLE);
    };
    let members = members(components);
    let ids = |words| {
        let set = Set(words);
        let each = components.iter().zip(&members);
        let each = each.filter(|&(_, &member)| set.contains(member));
        each.map(|(component, _)| component.id).collect()
    };
    Ok(InputSources {
        immediate: ids(immediate),
        inferred: ids(inferred),
    })
}

/// The call.
fn ask(
    rows: &Rows,
    input: PortRef,
    immediate: &mut [u64],
    inferred: &mut [u64],
    stack: &mut [usize],
) -> u64 {
    let (components, ports, frontiers) = (rows.components(), rows.ports(), rows.frontiers());
    // SAFETY: each pointer is to a whole slice of the length beside it. The
    // callee only reads the first three, and the borrows keep the others apart.
    unsafe {
        raw::dustroute_input(
            rows.rules,
            components.as_ptr(),
            components.len(),
            ports.as_ptr(),
            ports.len(),
            frontiers.as_ptr(),
            frontiers.len(),
            u64::from(input.component.0),
            u64::from(input.port),
            immediate.as_mut_ptr(),
            immediate.len(),
            inferred.as_mut_ptr(),
            inferred.len(),
            stack.as_mut_ptr(),
            stack.len(),
        )
    }
}
