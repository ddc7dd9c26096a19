//! Who reaches whom, by a table that is plain enough to be printed.

use std::collections::BTreeMap;
use std::fmt;

use crate::numbers::counts;
use crate::rows::Rows;
use crate::{Component, ComponentId, PortConnection, Position, Refusal, Rules, limits};

mod raw {
    //! As in `include/dustroute.h`: a slice passes as a pointer and then a count
    //! of its numbers, of the square of its bytes.

    unsafe extern "C" {
        pub fn dustroute_reach_table(
            rules: i64,
            components: *const i64,
            components_len: usize,
            ports: *const i64,
            ports_len: usize,
            frontiers: *const i64,
            frontiers_len: usize,
            square: *mut u8,
            square_len: usize,
            regions: *mut u64,
            regions_len: usize,
            stack: *mut usize,
            stack_len: usize,
        ) -> u64;
    }
}

/// Which components reach which, and the regions that come out of it.
///
/// Printed, it is a table: a row for each component, in list order, with a 1
/// under each component that it reaches, and its region at the end. Components
/// of one region have equal rows.
#[derive(Clone, Debug, Default, Eq, PartialEq)]
pub struct ReachTable {
    /// The region of each component, in list order.
    pub regions: Vec<usize>,
    /// How many regions there are.
    pub count: usize,
    components: Vec<ComponentId>,
    places: BTreeMap<ComponentId, usize>,
    /// Row after row.
    square: Vec<bool>,
}

impl ReachTable {
    /// Whether a chain of port connections that are no support leads from the
    /// one component to the other. Each component reaches itself; one that is
    /// not in the plot reaches nothing and is not reached.
    #[must_use]
    pub fn reaches(&self, from: ComponentId, to: ComponentId) -> bool {
        let places = [from, to].map(|id| self.places.get(&id));
        let [Some(row), Some(column)] = places else {
            return false;
        };
        let place = row * self.components.len() + column;
        self.square.get(place).is_some_and(|reached| *reached)
    }
}

impl fmt::Display for ReachTable {
    fn fmt(&self, out: &mut fmt::Formatter<'_>) -> fmt::Result {
        let widths = self.components.iter().map(|id| id.0.to_string().len());
        let wide = widths.max().unwrap_or(1);
        write!(out, "{:wide$}", "")?;
        for id in &self.components {
            write!(out, " {:>wide$}", id.0)?;
        }
        writeln!(out, "  region")?;
        let rows = self.square.chunks(self.components.len().max(1));
        for ((id, row), region) in self.components.iter().zip(rows).zip(&self.regions) {
            write!(out, "{:>wide$}", id.0)?;
            for reached in row {
                write!(out, " {:>wide$}", u8::from(*reached))?;
            }
            writeln!(out, "  {region:>6}")?;
        }
        Ok(())
    }
}

/// Finds regions the slow way, for lessons: a table says which component
/// reaches which, at first each itself and what it is connected to. Then one
/// component after another is admitted as a middle: whoever reaches it reaches
/// what it reaches. At the end two components share a region exactly when their
/// rows are equal.
///
/// The regions and their numbers are those of [`liveness`](crate::liveness), and
/// the same under all rules.
/// The time grows with the third power of the components.
///
/// # Errors
/// The refusal of the lists, as of [`liveness`](crate::liveness).
///
/// ```
/// use dustroute::{
///     BlockKind, Component, ComponentId, PortConnection, PortRef, Position, Rules, TransferKind,
///     reach_table,
/// };
///
/// // A lever feeds the first of two wires, and the wires feed each other.
/// let [lever, near, far] = [ComponentId(7), ComponentId(3), ComponentId(4)];
/// let components = [
///     Component::new(lever, Position::new(0, 0, 0), BlockKind::Lever),
///     Component::new(near, Position::new(1, 0, 0), BlockKind::RedstoneWire),
///     Component::new(far, Position::new(2, 0, 0), BlockKind::RedstoneWire),
/// ];
/// let feed = |source, sink| PortConnection {
///     source: PortRef::new(source, 1),
///     sink: PortRef::new(sink, 3),
///     transfer: TransferKind::DustPropagation,
/// };
/// let connections = [feed(lever, near), feed(near, far), feed(far, near)];
///
/// let table = reach_table(Rules::Two, &components, &connections, &[])?;
/// // The lever reaches the far wire over the near one, and nothing leads back.
/// assert!(table.reaches(lever, far));
/// assert!(!table.reaches(far, lever));
/// // The rows of the wires are equal: two regions.
/// assert_eq!(table.count, 2);
/// assert_eq!(table.regions, [0, 1, 1]);
/// let printed = table.to_string();
/// let lines: Vec<&str> = printed.lines().collect();
/// assert_eq!(
///     lines,
///     [
///         "  7 3 4  region",
///         "7 1 1 1       0",
///         "3 0 1 1       1",
///         "4 0 1 1       1",
///     ]
/// );
/// # Ok::<(), dustroute::Refusal>(())
/// ```
pub fn reach_table(
    rules: Rules,
    components: &[Component],
    connections: &[PortConnection],
    frontiers: &[Position],
) -> Result<ReachTable, Refusal> {
    let rows = Rows::of(rules, components, connections, frontiers);
    let side = components.len().min(limits::COMPONENTS);
    let mut square = vec![0; side * side];
    let mut regions = vec![0; side];
    let mut stack = vec![0; 2 * side];
    let answer = fill(&rows, &mut square, &mut regions, &mut stack);
    let [count, 0, 0] = counts(answer)? else {
        return Err(Refusal::UNREADABLE);
    };
    let ids: Vec<ComponentId> = components.iter().map(|component| component.id).collect();
    Ok(ReachTable {
        regions: read(&regions, |region| {
            let region = usize::try_from(region).ok();
            region.filter(|region| *region < count)
        })?,
        count,
        places: ids.iter().copied().zip(0..).collect(),
        components: ids,
        square: read(&square, |place| match place {
            0 => Some(false),
            1 => Some(true),
            _ => None,
        })?,
    })
}

/// Each number of a slice.
fn read<N: Copy, T>(slice: &[N], number: impl Fn(N) -> Option<T>) -> Result<Vec<T>, Refusal> {
    let each = slice.iter().map(|it| number(*it));
    each.collect::<Option<_>>().ok_or(Refusal::UNREADABLE)
}

/// The call.
fn fill(rows: &Rows, square: &mut [u8], regions: &mut [u64], stack: &mut [usize]) -> u64 {
    let (components, ports, frontiers) = (rows.components(), rows.ports(), rows.frontiers());
    // SAFETY: each pointer is to a whole slice of the length beside it. The
    // callee only reads the first three, and the borrows keep the others apart.
    unsafe {
        raw::dustroute_reach_table(
            rows.rules,
            components.as_ptr(),
            components.len(),
            ports.as_ptr(),
            ports.len(),
            frontiers.as_ptr(),
            frontiers.len(),
            square.as_mut_ptr(),
            square.len(),
            regions.as_mut_ptr(),
            regions.len(),
            stack.as_mut_ptr(),
            stack.len(),
        )
    }
}
