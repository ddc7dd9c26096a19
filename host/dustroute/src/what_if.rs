//! What one connection more changes.

use crate::{
    Component, ComponentId, Connection, Liveness, PortConnection, PortRef, Position, Refusal,
    RequiredInputStatus, Rules, groups, liveness,
};

/// What one port connection more changes.
#[derive(Clone, Debug, Default, Eq, PartialEq)]
pub struct Change {
    /// The components that are driven with it and not without, in list order.
    /// Each is reachable from its sink; none ceases to be driven.
    pub newly_driven: Vec<ComponentId>,
    /// The required inputs whose verdict is another one with it, in the order
    /// of [`Liveness::inputs`].
    pub changed_inputs: Vec<ChangedInput>,
}

/// A required input whose verdict changes.
#[derive(Clone, Copy, Debug, Eq, Hash, PartialEq)]
pub struct ChangedInput {
    /// The device and its port.
    pub input: PortRef,
    /// The verdict without the connection. `Disconnected` only at the very port
    /// that the connection feeds.
    pub before: RequiredInputStatus,
    /// The verdict with it, never `Disconnected`.
    pub after: RequiredInputStatus,
}

/// What one grouping connection more joins.
#[derive(Clone, Copy, Debug, Default, Eq, Hash, PartialEq)]
pub struct Joined {
    /// Whether it makes one net of two.
    pub nets: bool,
    /// Whether it makes one fragment of two.
    pub fragments: bool,
}

/// Finds what would change if the plot had one port connection more: the
/// answers of [`liveness`] under the same rules with it and without, compared.
///
/// It may be a repeat of one that is there, or support: then nothing changes.
///
/// # Errors
/// The refusal of the lists with the connection, which stands last. Where it is
/// itself at fault, the item is the count of those that are there.
///
/// ```
/// use dustroute::{
///     BlockKind, Component, ComponentId, Facing, PortConnection, PortRef, Position, Reason,
///     RequiredInputStatus, Rules, TransferKind, what_if,
/// };
///
/// // A lever, a repeater beside it and a wire behind that, which the repeater feeds.
/// let [lever, repeater, wire] = [ComponentId(1), ComponentId(2), ComponentId(3)];
/// let components = [
///     Component::new(lever, Position::new(0, 0, 0), BlockKind::Lever),
///     Component {
///         facing: Some(Facing::East),
///         ..Component::new(repeater, Position::new(1, 0, 0), BlockKind::Repeater)
///     },
///     Component::new(wire, Position::new(2, 0, 0), BlockKind::RedstoneWire),
/// ];
/// let feed = |source, sink| PortConnection {
///     source: PortRef::new(source, 1),
///     sink: PortRef::new(sink, 1),
///     transfer: TransferKind::DirectionalDevice,
/// };
/// let connections = [feed(repeater, wire)];
///
/// let change = what_if(Rules::Two, &components, &connections, &[], feed(lever, repeater))?;
/// assert_eq!(change.newly_driven, [repeater, wire]);
/// assert_eq!(change.changed_inputs.len(), 1);
/// let changed = change.changed_inputs[0];
/// assert_eq!(changed.input, PortRef::new(repeater, 1));
/// assert_eq!(changed.before, RequiredInputStatus::Disconnected);
/// assert_eq!(changed.after, RequiredInputStatus::DrivenByKnownSource);
///
/// // What is not driven drives nothing.
/// let change = what_if(Rules::Two, &components, &connections, &[], feed(wire, repeater))?;
/// assert_eq!(change.newly_driven, []);
///
/// // To a block that is not there.
/// let lost = feed(lever, ComponentId(9));
/// let refused = what_if(Rules::Two, &components, &connections, &[], lost);
/// assert_eq!(refused.map_err(|refusal| refusal.reason), Err(Reason::MissingEndpoint));
/// # Ok::<(), dustroute::Refusal>(())
/// ```
pub fn what_if(
    rules: Rules,
    components: &[Component],
    connections: &[PortConnection],
    frontiers: &[Position],
    extra: PortConnection,
) -> Result<Change, Refusal> {
    let with = put_in(connections, connections.len(), extra);
    let with = liveness(rules, components, &with, frontiers)?;
    let without = liveness(rules, components, connections, frontiers)?;
    // The rows are of the components alone.
    if !inputs(&without).eq(inputs(&with)) {
        return Err(Refusal::UNREADABLE);
    }
    let each = without.components.iter().zip(&with.components);
    let newly = each.filter(|(before, after)| after.drive && !before.drive);
    let rows = without.inputs.iter().zip(&with.inputs);
    let changed = rows.filter(|(before, after)| before.status != after.status);
    Ok(Change {
        newly_driven: newly.map(|(_, after)| after.id).collect(),
        changed_inputs: changed
            .map(|(before, after)| ChangedInput {
                input: after.input,
                before: before.status,
                after: after.status,
            })
            .collect(),
    })
}

/// Finds what one grouping connection more would join: the counts of [`groups`]
/// with it and without, compared. Either falls by one or not at all.
///
/// # Errors
/// The refusal of the lists with the connection, put in at its place in the
/// order. So one that is there already is refused, with
/// [`Reason::ConnectionOrder`](crate::Reason::ConnectionOrder).
///
/// ```
/// use dustroute::{
///     BlockKind, Component, ComponentId, Connection, ConnectionKind, Joined, Position, Reason,
///     Rules, what_if_joined,
/// };
///
/// let wire = |id, x| {
///     Component::new(ComponentId(id), Position::new(x, 0, 0), BlockKind::RedstoneWire)
/// };
/// let components = [wire(1, 0), wire(2, 1), wire(3, 2)];
/// let join = |source, sink, kind| Connection {
///     source: ComponentId(source),
///     sink: ComponentId(sink),
///     kind,
/// };
/// let connections = [join(1, 2, ConnectionKind::Dust)];
/// let asked = |extra| what_if_joined(Rules::Two, &components, &connections, extra);
///
/// let dust = asked(join(2, 3, ConnectionKind::Dust))?;
/// assert_eq!(dust, Joined { nets: true, fragments: true });
/// let control = asked(join(2, 3, ConnectionKind::Control))?;
/// assert_eq!(control, Joined { nets: false, fragments: true });
/// // They are joined already.
/// let back = asked(join(2, 1, ConnectionKind::Dust))?;
/// assert_eq!(back, Joined { nets: false, fragments: false });
///
/// let again = asked(join(1, 2, ConnectionKind::Dust));
/// assert_eq!(again.map_err(|refusal| refusal.reason), Err(Reason::ConnectionOrder));
/// # Ok::<(), dustroute::Refusal>(())
/// ```
pub fn what_if_joined(
    rules: Rules,
    components: &[Component],
    connections: &[Connection],
    extra: Connection,
) -> Result<Joined, Refusal> {
    let place = connections.partition_point(|it| *it < extra);
    let with = groups(rules, components, &put_in(connections, place, extra))?;
    let without = groups(rules, components, connections)?;
    Ok(Joined {
        nets: fell(without.net_count, with.net_count)?,
        fragments: fell(without.fragment_count, with.fragment_count)?,
    })
}

/// The list with an item put in at a place.
fn put_in<T: Copy>(list: &[T], place: usize, item: T) -> Vec<T> {
    let before = list.iter().take(place);
    let after = list.iter().skip(place);
    before.chain([&item]).chain(after).copied().collect()
}

fn inputs(found: &Liveness) -> impl Iterator<Item = PortRef> {
    found.inputs.iter().map(|it| it.input)
}

/// Whether a count fell, by one; more than that it cannot.
fn fell(before: usize, after: usize) -> Result<bool, Refusal> {
    match before.checked_sub(after) {
        Some(0) => Ok(false),
        Some(1) => Ok(true),
        _ => Err(Refusal::UNREADABLE),
    }
}

#[cfg(test)]
mod tests {
    use super::{fell, put_in};
    use crate::Refusal;

    #[test]
    fn a_count_falls_by_one_or_not_at_all() {
        assert_eq!(fell(3, 3), Ok(false));
        assert_eq!(fell(3, 2), Ok(true));
        assert_eq!(fell(3, 1), Err(Refusal::UNREADABLE));
        assert_eq!(fell(3, 4), Err(Refusal::UNREADABLE));
    }

    #[test]
    fn an_item_is_put_in_at_its_place() {
        assert_eq!(put_in(&[], 0, 'x'), ['x']);
        assert_eq!(put_in(&['a', 'b'], 0, 'x'), ['x', 'a', 'b']);
        assert_eq!(put_in(&['a', 'b'], 1, 'x'), ['a', 'x', 'b']);
        assert_eq!(put_in(&['a', 'b'], 2, 'x'), ['a', 'b', 'x']);
    }
}
