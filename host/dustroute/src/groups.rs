//! Nets and fragments.

use std::collections::BTreeSet;

use crate::bytes::{self, NUMBER};
use crate::numbers::{below, counts, lend};
use crate::{Component, ComponentId, Connection, Refusal, Rules, limits};

/// The nets and fragments of an accepted scene.
#[derive(Clone, Debug, Default, Eq, PartialEq)]
pub struct Groups {
    /// The net and the fragment of each component, in list order.
    pub components: Vec<ComponentGroups>,
    /// How many nets there are; they are numbered from 0 without a gap.
    pub net_count: usize,
    /// How many fragments there are, numbered likewise.
    pub fragment_count: usize,
}

/// The groups that a component is in.
#[derive(Clone, Copy, Debug, Eq, Hash, PartialEq)]
pub struct ComponentGroups {
    /// The component.
    pub id: ComponentId,
    /// Its net: all that dust and power join, either way.
    pub net: usize,
    /// Its fragment: all that any connection but support joins.
    pub fragment: usize,
}

/// Joins components into nets, by the first five kinds of connections, and into
/// fragments, by all but the last. They are the same under all rules.
///
/// # Errors
/// The refusal of lists that are not as they must be; see [`Reason`](crate::Reason).
///
/// ```
/// use dustroute::{BlockKind, Component, ComponentId, Connection, ConnectionKind, Position, Rules};
///
/// let [lever, wire, lamp] = [ComponentId(1), ComponentId(2), ComponentId(3)];
/// let components = [
///     Component::new(lever, Position::new(0, 0, 0), BlockKind::Lever),
///     Component::new(wire, Position::new(1, 0, 0), BlockKind::RedstoneWire),
///     Component::new(lamp, Position::new(2, 0, 0), BlockKind::RedstoneLamp),
/// ];
/// let connections = [
///     Connection { source: lever, sink: wire, kind: ConnectionKind::DirectSource },
///     Connection { source: wire, sink: lamp, kind: ConnectionKind::WeakPower },
/// ];
///
/// let groups = dustroute::groups(Rules::Two, &components, &connections)?;
/// assert_eq!(groups.nets(), [[lever].into(), [wire, lamp].into()]);
/// assert_eq!(groups.fragments(), [[lever, wire, lamp].into()]);
/// assert_eq!(groups.fragment_nets(), [[0, 1].into()]);
/// # Ok::<(), dustroute::Refusal>(())
/// ```
pub fn groups(
    rules: Rules,
    components: &[Component],
    connections: &[Connection],
) -> Result<Groups, Refusal> {
    let room = components.len().min(limits::COMPONENTS);
    let mut nets = vec![[0; NUMBER]; room];
    let mut fragments = vec![[0; NUMBER]; room];
    let component_rows = lend(components, limits::COMPONENTS, Component::record);
    let connection_rows = lend(connections, limits::CONNECTIONS, Connection::record);
    let answer = bytes::groups(
        rules.number(),
        component_rows.as_flattened().as_flattened(),
        connection_rows.as_flattened().as_flattened(),
        nets.as_flattened_mut(),
        fragments.as_flattened_mut(),
    );
    let [net_count, fragment_count, _] = counts(answer)?;
    let numbers = nets.into_iter().zip(fragments);
    let each = components.iter().zip(numbers);
    let each = each.map(|(component, (net, fragment))| {
        Ok(ComponentGroups {
            id: component.id,
            net: below(net_count, net)?,
            fragment: below(fragment_count, fragment)?,
        })
    });
    Ok(Groups {
        components: each.collect::<Result<_, _>>()?,
        net_count,
        fragment_count,
    })
}

impl Groups {
    /// The members of each net.
    #[must_use]
    pub fn nets(&self) -> Vec<BTreeSet<ComponentId>> {
        let members = self.components.iter().map(|it| (it.net, it.id));
        gathered(self.net_count, members)
    }

    /// The members of each fragment.
    #[must_use]
    pub fn fragments(&self) -> Vec<BTreeSet<ComponentId>> {
        let members = self.components.iter().map(|it| (it.fragment, it.id));
        gathered(self.fragment_count, members)
    }

    /// The nets that share a member with each fragment. Every net lies in
    /// exactly one.
    #[must_use]
    pub fn fragment_nets(&self) -> Vec<BTreeSet<usize>> {
        let nets = self.components.iter().map(|it| (it.fragment, it.net));
        gathered(self.fragment_count, nets)
    }
}

/// Items gathered by the numbers of their groups.
pub fn gathered<T: Ord>(count: usize, items: impl Iterator<Item = (usize, T)>) -> Vec<BTreeSet<T>> {
    let mut groups: Vec<BTreeSet<T>> = Vec::new();
    groups.resize_with(count, BTreeSet::new);
    for (number, item) in items {
        if let Some(group) = groups.get_mut(number) {
            group.insert(item);
        }
    }
    groups
}
