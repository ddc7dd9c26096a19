//! Which regions have a ring.

use crate::bytes::WORDS;
use crate::liveness::Set;
use crate::numbers::{below, counts};
use crate::rows::Rows;
use crate::{Component, ComponentId, PortConnection, Position, Refusal, Rules, limits};

mod raw {
    //! As in `include/dustroute.h`: a slice passes as a pointer and then a count
    //! of its numbers.

    unsafe extern "C" {
        pub fn dustroute_rings(
            rules: i64,
            components: *const i64,
            components_len: usize,
            ports: *const i64,
            ports_len: usize,
            frontiers: *const i64,
            frontiers_len: usize,
            regions: *mut u64,
            regions_len: usize,
            rings: *mut u64,
            rings_len: usize,
            stack: *mut usize,
            stack_len: usize,
        ) -> u64;
    }
}

/// The regions, and which of them have a ring.
#[derive(Clone, Debug, Default, Eq, PartialEq)]
pub struct Rings {
    /// The region of each component, in list order.
    pub components: Vec<ComponentRegion>,
    /// Whether each region has a ring, by its number.
    pub rings: Vec<bool>,
}

/// A component and its region.
#[derive(Clone, Copy, Debug, Eq, Hash, PartialEq)]
pub struct ComponentRegion {
    /// The component.
    pub id: ComponentId,
    /// The number of its region, as of [`liveness`](crate::liveness).
    pub region: usize,
}

impl Rings {
    /// Whether the region of this number has a ring. A number that is no
    /// region's has none.
    #[must_use]
    pub fn has_ring(&self, region: usize) -> bool {
        self.rings.get(region).is_some_and(|has| *has)
    }

    /// The components of regions that have a ring, in list order. Each feeds
    /// the ring and is fed by it; not each need be on it.
    pub fn around(&self) -> impl Iterator<Item = ComponentId> {
        let each = self.components.iter();
        each.filter(|it| self.has_ring(it.region)).map(|it| it.id)
    }
}

/// Finds which regions have a ring: what a pupil calls a loop.
///
/// A ring is a chain of port connections, supports left out, from a component
/// through two others or more and back to it, none met twice; or a connection
/// from a component to itself. All of a ring is in one region. A region with a
/// ring is [`cyclic`](crate::Region::cyclic); one that is cyclic and has no ring
/// is a tree of connections that all run both ways, as a straight wire is.
///
/// The regions and their numbers are those of [`liveness`](crate::liveness), and
/// the same under all rules; so are the rings. It costs about as much as
/// [`light`](crate::light).
///
/// # Errors
/// The refusal of the lists, as of [`liveness`](crate::liveness).
///
/// ```
/// use dustroute::{
///     BlockKind, Component, ComponentId, PortConnection, PortRef, Position, Rules, TransferKind,
///     liveness, rings,
/// };
///
/// let wire = |id, x, z| {
///     Component::new(ComponentId(id), Position::new(x, 0, z), BlockKind::RedstoneWire)
/// };
/// let components = [wire(1, 0, 0), wire(2, 0, 1), wire(3, 1, 0)];
/// let feed = |source, sink| PortConnection {
///     source: PortRef::new(ComponentId(source), 1),
///     sink: PortRef::new(ComponentId(sink), 3),
///     transfer: TransferKind::DustPropagation,
/// };
///
/// // A straight wire, 2 - 1 - 3, whose connections run both ways: cyclic, and no ring.
/// let straight = [feed(1, 2), feed(2, 1), feed(1, 3), feed(3, 1)];
/// let found = liveness(Rules::Two, &components, &straight, &[])?;
/// assert!(found.regions[0].cyclic);
/// assert!(!rings(Rules::Two, &components, &straight, &[])?.has_ring(0));
///
/// // Three wires in a triangle, one way round: cyclic, and a ring.
/// let triangle = [feed(1, 2), feed(2, 3), feed(3, 1)];
/// let found = liveness(Rules::Two, &components, &triangle, &[])?;
/// assert!(found.regions[0].cyclic);
/// let found = rings(Rules::Two, &components, &triangle, &[])?;
/// assert!(found.has_ring(0));
/// assert!(found.around().eq([1, 2, 3].map(ComponentId)));
///
/// // Two wires that feed each other make none; one that feeds itself does.
/// let found = rings(Rules::Two, &components, &[feed(1, 2), feed(2, 1)], &[])?;
/// assert!(found.rings.iter().all(|has| !has));
/// let found = rings(Rules::Two, &components, &[feed(3, 3)], &[])?;
/// assert!(found.around().eq([ComponentId(3)]));
/// # Ok::<(), dustroute::Refusal>(())
/// ```
pub fn rings(
    rules: Rules,
    components: &[Component],
    connections: &[PortConnection],
    frontiers: &[Position],
) -> Result<Rings, Refusal> {
    let room = components.len().min(limits::COMPONENTS);
    let mut regions = vec![0; room];
    let mut rings = [0; WORDS];
    let mut stack = vec![0; 2 * room];
    let rows = Rows::of(rules, components, connections, frontiers);
    let answer = find(&rows, &mut regions, &mut rings, &mut stack);
    let [region_count, 0, 0] = counts(answer)? else {
        return Err(Refusal::UNREADABLE);
    };
    let rings = Set(rings);
    let each = components.iter().zip(regions);
    let each = each.map(|(component, region)| {
        Ok(ComponentRegion {
            id: component.id,
            region: below(region_count, region.to_le_bytes())?,
        })
    });
    Ok(Rings {
        components: each.collect::<Result<_, _>>()?,
        rings: (0..region_count).map(|it| rings.contains(it)).collect(),
    })
}

/// The call.
fn find(rows: &Rows, regions: &mut [u64], rings: &mut [u64], stack: &mut [usize]) -> u64 {
    let (components, ports, frontiers) = (rows.components(), rows.ports(), rows.frontiers());
    // SAFETY: each pointer is to a whole slice of the length beside it. The
    // callee only reads the first three, and the borrows keep the others apart.
    unsafe {
        raw::dustroute_rings(
            rows.rules,
            components.as_ptr(),
            components.len(),
            ports.as_ptr(),
            ports.len(),
            frontiers.as_ptr(),
            frontiers.len(),
            regions.as_mut_ptr(),
            regions.len(),
            rings.as_mut_ptr(),
            rings.len(),
            stack.as_mut_ptr(),
            stack.len(),
        )
    }
}
