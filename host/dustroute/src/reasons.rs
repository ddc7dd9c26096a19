//! Why a grouping connection is left out.

use std::fmt;

use crate::numbers::{counts, records};
use crate::{Component, Connection, Refusal, Rules, limits};

mod raw {
    //! As in `include/dustroute_blocks.h`: a slice passes as a pointer and then a
    //! count of its numbers.

    unsafe extern "C" {
        pub fn dustroute_reasons(
            rules: i64,
            components: *const i64,
            components_len: usize,
            connections: *const i64,
            connections_len: usize,
            reasons: *mut u64,
            reasons_len: usize,
        ) -> u64;
    }
}

/// Why [`ports`](crate::ports()) leaves a grouping connection out. Where several
/// hold it is the first of these: no block with an id, then
/// [`Support`](Why::Support), then the others by rising number.
#[derive(Clone, Copy, Debug, Eq, Hash, Ord, PartialEq, PartialOrd)]
pub enum Why {
    /// Number 1: of the source alone.
    NoSource,
    /// Number 2: of the sink alone.
    NoSink,
    /// Number 3: of both.
    Neither,
    /// Number 4: a step is one East, West, North or South, level or one up or
    /// down, or one straight up or down.
    NoStep,
    /// Number 5: the source has no output, and nothing that goes both ways, on the
    /// face of the step.
    NoOutput,
    /// Number 6: the sink has nothing on the opposite face that a connection of
    /// this kind goes into.
    NoInput,
    /// Number 7: it joins nothing.
    Support,
}

impl Why {
    /// Every one, by rising number; the first has number 1.
    pub const ALL: [Self; 7] = [
        Self::NoSource,
        Self::NoSink,
        Self::Neither,
        Self::NoStep,
        Self::NoOutput,
        Self::NoInput,
        Self::Support,
    ];
}

impl fmt::Display for Why {
    fn fmt(&self, out: &mut fmt::Formatter<'_>) -> fmt::Result {
        out.write_str(match self {
            Self::NoSource => "there is no block with the source's id",
            Self::NoSink => "there is no block with the sink's id",
            Self::Neither => "there is no block with either id",
            Self::NoStep => "the blocks do not touch as a step must",
            Self::NoOutput => "nothing comes out of the source on that side",
            Self::NoInput => "nothing goes into the sink on that side",
            Self::Support => "it is support, which carries no signal",
        })
    }
}

/// A grouping connection that is left out.
#[derive(Clone, Copy, Debug, Eq, Hash, PartialEq)]
pub struct LeftOut {
    /// Its place in the list given, from 0.
    pub item: usize,
    /// The connection.
    pub connection: Connection,
    /// Why it is.
    pub why: Why,
}

impl fmt::Display for LeftOut {
    fn fmt(&self, out: &mut fmt::Formatter<'_>) -> fmt::Result {
        let [source, sink] = [self.connection.source, self.connection.sink].map(|id| id.0);
        write!(out, "{source} to {sink}: ")?;
        match self.why {
            Why::NoSource => write!(out, "there is no block {source}"),
            Why::Neither if source == sink => write!(out, "there is no block {source}"),
            Why::NoSink => write!(out, "there is no block {sink}"),
            Why::Neither => write!(out, "there is no block {source} and no block {sink}"),
            Why::NoOutput => write!(out, "nothing comes out of block {source} on that side"),
            Why::NoInput => write!(out, "nothing goes into block {sink} on that side"),
            why @ (Why::NoStep | Why::Support) => write!(out, "{why}"),
        }
    }
}

/// The grouping connections that [`ports`](crate::ports()) leaves out under these
/// rules, in order, each with why. All others it keeps.
///
/// # Errors
/// The refusal of the lists, as of [`ports`](crate::ports()).
///
/// ```
/// use dustroute::{
///     BlockKind, Component, ComponentId, Connection, ConnectionKind, Position, Rules, left_out,
/// };
///
/// // A row of five wires, of which the fourth was dug away.
/// let wire = |k: u16| {
///     let position = Position::new(i32::from(k), 0, 0);
///     Component::new(ComponentId(k.into()), position, BlockKind::RedstoneWire)
/// };
/// let dust = |source| Connection {
///     source: ComponentId(source),
///     sink: ComponentId(source + 1),
///     kind: ConnectionKind::Dust,
/// };
/// let components = [wire(1), wire(2), wire(3), wire(5)];
/// let connections = [dust(1), dust(2), dust(3), dust(4)];
///
/// let found = left_out(Rules::Three, &components, &connections)?;
/// let said: Vec<String> = found.iter().map(ToString::to_string).collect();
/// assert_eq!(said, ["3 to 4: there is no block 4", "4 to 5: there is no block 4"]);
/// assert_eq!(found[0].why.to_string(), "there is no block with the sink's id");
/// assert_eq!(found[1].why.to_string(), "there is no block with the source's id");
/// # Ok::<(), dustroute::Refusal>(())
/// ```
pub fn left_out(
    rules: Rules,
    components: &[Component],
    connections: &[Connection],
) -> Result<Vec<LeftOut>, Refusal> {
    let component_rows = records(components, limits::COMPONENTS, Component::record);
    let connection_rows = records(connections, limits::CONNECTIONS, Connection::record);
    let mut reasons = vec![0; connections.len().min(limits::CONNECTIONS)];
    let answer = ask(
        rules,
        component_rows.as_flattened(),
        connection_rows.as_flattened(),
        &mut reasons,
    );
    let [kept, 0, 0] = counts(answer)? else {
        return Err(Refusal::UNREADABLE);
    };
    read(connections, &reasons, kept)
}

/// Numbers of which so many are to be 0.
fn read(connections: &[Connection], reasons: &[u64], kept: usize) -> Result<Vec<LeftOut>, Refusal> {
    let each = connections.iter().zip(reasons).enumerate();
    let some = each.filter(|(_, (_, number))| **number != 0);
    let some = some.map(|(item, (&connection, &number))| {
        let why = read_why(number)?;
        Ok(LeftOut {
            item,
            connection,
            why,
        })
    });
    let found: Vec<LeftOut> = some.collect::<Result<_, _>>()?;
    if found.len().checked_add(kept) == Some(reasons.len()) {
        Ok(found)
    } else {
        Err(Refusal::UNREADABLE)
    }
}

fn read_why(number: u64) -> Result<Why, Refusal> {
    let place = usize::try_from(number).ok();
    let place = place.and_then(|number| number.checked_sub(1));
    let why = place.and_then(|place| Why::ALL.get(place));
    why.copied().ok_or(Refusal::UNREADABLE)
}

/// The call.
fn ask(rules: Rules, components: &[i64], connections: &[i64], reasons: &mut [u64]) -> u64 {
    // SAFETY: each pointer is to a whole slice of the length beside it. The
    // callee only reads the first two, and the borrow keeps the third apart.
    unsafe {
        raw::dustroute_reasons(
            rules.number(),
            components.as_ptr(),
            components.len(),
            connections.as_ptr(),
            connections.len(),
            reasons.as_mut_ptr(),
            reasons.len(),
        )
    }
}

#[cfg(test)]
mod tests {
    use super::{LeftOut, Why, read, read_why};
    use crate::{ComponentId, Connection, ConnectionKind, Refusal};

    const fn joined(source: u32, sink: u32) -> Connection {
        Connection {
            source: ComponentId(source),
            sink: ComponentId(sink),
            kind: ConnectionKind::Dust,
        }
    }

    #[test]
    fn what_no_contract_allows_is_unreadable() {
        for (number, why) in (1..).zip(Why::ALL) {
            assert_eq!(read_why(number), Ok(why));
        }
        for number in [0, 8, u64::MAX] {
            assert_eq!(read_why(number), Err(Refusal::UNREADABLE));
        }
        let connections = [joined(1, 2), joined(2, 3)];
        let found = LeftOut {
            item: 1,
            connection: joined(2, 3),
            why: Why::NoStep,
        };
        assert_eq!(read(&connections, &[0, 4], 1), Ok(vec![found]));
        for (reasons, kept) in [([0, 4], 0), ([0, 4], 2), ([0, 8], 1), ([0, 0], 1)] {
            let said = read(&connections, &reasons, kept);
            assert_eq!(said, Err(Refusal::UNREADABLE), "{reasons:?} {kept}");
        }
    }

    #[test]
    fn it_is_told_with_the_ids() {
        let told = |why, source, sink| {
            let connection = joined(source, sink);
            let item = 0;
            let found = LeftOut {
                item,
                connection,
                why,
            };
            found.to_string()
        };
        let said = Why::ALL.map(|why| told(why, 3, 4));
        let wanted = [
            "3 to 4: there is no block 3",
            "3 to 4: there is no block 4",
            "3 to 4: there is no block 3 and no block 4",
            "3 to 4: the blocks do not touch as a step must",
            "3 to 4: nothing comes out of block 3 on that side",
            "3 to 4: nothing goes into block 4 on that side",
            "3 to 4: it is support, which carries no signal",
        ];
        assert_eq!(said, wanted);
        let both = told(Why::Neither, 9, 9);
        assert_eq!(both, "9 to 9: there is no block 9");
    }
}
