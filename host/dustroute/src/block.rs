//! The ports of one block.

use std::fmt;

use crate::numbers::{counts, rows};
use crate::{Component, Facing, Refusal, Rules};

mod raw {
    //! As in `include/dustroute_blocks.h`: the slice passes as a pointer and then
    //! a count of its numbers.

    unsafe extern "C" {
        pub fn dustroute_block_ports(
            rules: i64,
            kind: i64,
            facing: i64,
            support: i64,
            conducts: i64,
            ports: *mut u64,
            ports_len: usize,
        ) -> u64;
    }
}

/// The most ports that a block has.
const PORTS: usize = 7;

/// A port of a block. Its number is its place in [`block_ports`].
#[derive(Clone, Copy, Debug, Eq, Hash, PartialEq)]
pub struct Port {
    /// Which way a signal goes.
    pub role: Role,
    /// On which face it is.
    pub face: Facing,
    /// What goes through.
    pub channel: Channel,
}

/// Which way a signal goes through a port. The codes are the places in
/// [`Role::ALL`].
#[derive(Clone, Copy, Debug, Eq, Hash, Ord, PartialEq, PartialOrd)]
pub enum Role {
    /// Code 0.
    Input,
    /// Code 1.
    Output,
    /// Code 2.
    Bidirectional,
    /// Code 3: the side of a repeater or comparator, or the support of a torch.
    Control,
    /// Code 4: no signal goes this way.
    Support,
}

impl Role {
    /// Every role, by rising code.
    pub const ALL: [Self; 5] = [
        Self::Input,
        Self::Output,
        Self::Bidirectional,
        Self::Control,
        Self::Support,
    ];
}

impl fmt::Display for Role {
    fn fmt(&self, out: &mut fmt::Formatter<'_>) -> fmt::Result {
        out.write_str(match self {
            Self::Input => "input",
            Self::Output => "output",
            Self::Bidirectional => "both ways",
            Self::Control => "control",
            Self::Support => "support",
        })
    }
}

/// What goes through a port. The codes are the places in [`Channel::ALL`].
#[derive(Clone, Copy, Debug, Eq, Hash, Ord, PartialEq, PartialOrd)]
pub enum Channel {
    /// Code 0.
    RedstoneSignal,
    /// Code 1.
    WeakPower,
    /// Code 2.
    StrongPower,
    /// Code 3: the push of a piston.
    Mechanical,
    /// Code 4: that of support.
    Structural,
}

impl Channel {
    /// Every channel, by rising code.
    pub const ALL: [Self; 5] = [
        Self::RedstoneSignal,
        Self::WeakPower,
        Self::StrongPower,
        Self::Mechanical,
        Self::Structural,
    ];
}

impl fmt::Display for Channel {
    fn fmt(&self, out: &mut fmt::Formatter<'_>) -> fmt::Result {
        out.write_str(match self {
            Self::RedstoneSignal => "redstone signal",
            Self::WeakPower => "weak power",
            Self::StrongPower => "strong power",
            Self::Mechanical => "mechanical",
            Self::Structural => "structural",
        })
    }
}

/// The ports of a block, by rising number, which is how a
/// [`PortRef`](crate::PortRef) names them.
///
/// They depend on its kind, facing, support and whether it conducts, and on the
/// [`Rules`] where its facing was left blank.
///
/// # Errors
/// Only [`Reason::Unreadable`](crate::Reason::Unreadable).
///
/// ```
/// use dustroute::{
///     BlockKind, Channel, Component, ComponentId, Facing, Port, Position, Role, Rules,
///     block_ports,
/// };
///
/// let blank = Component::new(ComponentId(1), Position::new(0, 0, 0), BlockKind::Repeater);
/// let repeater = Component { facing: Some(Facing::East), ..blank };
/// let ports = block_ports(Rules::Three, &repeater)?;
/// let said = ports.iter().map(|port| (port.role, port.face));
/// let wanted = [
///     (Role::Output, Facing::East),
///     (Role::Input, Facing::West),
///     (Role::Control, Facing::North),
///     (Role::Control, Facing::South),
///     (Role::Support, Facing::Down),
/// ];
/// assert!(said.eq(wanted));
///
/// // Nobody saw how it faces.
/// let down = Port { role: Role::Support, face: Facing::Down, channel: Channel::Structural };
/// assert_eq!(block_ports(Rules::Three, &blank)?, [down]);
/// # Ok::<(), dustroute::Refusal>(())
/// ```
pub fn block_ports(rules: Rules, component: &Component) -> Result<Vec<Port>, Refusal> {
    let mut ports = [[0; 3]; PORTS];
    let answer = ask(rules, component.record(), ports.as_flattened_mut());
    let [count, 0, 0] = counts(answer)? else {
        return Err(Refusal::UNREADABLE);
    };
    let ports = rows(&ports, count)?.iter();
    ports.map(|&row| read_port(row)).collect()
}

fn read_port([role, face, channel]: [u64; 3]) -> Result<Port, Refusal> {
    let read = || {
        let [role, face, channel] = [role, face.checked_sub(1)?, channel];
        Some(Port {
            role: *Role::ALL.get(usize::try_from(role).ok()?)?,
            face: *Facing::ALL.get(usize::try_from(face).ok()?)?,
            channel: *Channel::ALL.get(usize::try_from(channel).ok()?)?,
        })
    };
    read().ok_or(Refusal::UNREADABLE)
}

/// The call, on the record of a component.
fn ask(rules: Rules, record: [i64; 8], ports: &mut [u64]) -> u64 {
    let [.., kind, facing, support, conducts] = record;
    // SAFETY: the pointer is to a whole slice of the length beside it, which is
    // borrowed for this call alone.
    unsafe {
        raw::dustroute_block_ports(
            rules.number(),
            kind,
            facing,
            support,
            conducts,
            ports.as_mut_ptr(),
            ports.len(),
        )
    }
}

#[cfg(test)]
mod tests {
    use super::{Channel, Port, Role, read_port};
    use crate::{Facing, Refusal};

    #[test]
    fn what_no_contract_allows_is_unreadable() {
        let wanted = Port {
            role: Role::Support,
            face: Facing::Down,
            channel: Channel::Structural,
        };
        assert_eq!(read_port([4, 6, 4]), Ok(wanted));
        for row in [[5, 6, 4], [4, 0, 4], [4, 7, 4], [4, 6, 5], [u64::MAX; 3]] {
            assert_eq!(read_port(row), Err(Refusal::UNREADABLE), "{row:?}");
        }
    }
}
