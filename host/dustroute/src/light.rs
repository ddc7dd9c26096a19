//! The one pass over the regions, and the steps of a lesson.

use crate::bytes::WORDS;
use crate::liveness::{Set, members};
use crate::numbers::{below, counts};
use crate::rows::Rows;
use crate::{Component, ComponentId, PortConnection, Position, Refusal, Rules, limits};

mod raw {
    //! As in `include/dustroute.h`: a slice passes as a pointer and then a count
    //! of its numbers.

    unsafe extern "C" {
        pub fn dustroute_light(
            rules: i64,
            components: *const i64,
            components_len: usize,
            ports: *const i64,
            ports_len: usize,
            frontiers: *const i64,
            frontiers_len: usize,
            regions: *mut u64,
            regions_len: usize,
            lit: *mut u64,
            lit_len: usize,
            driven: *mut u64,
            driven_len: usize,
            stack: *mut usize,
            stack_len: usize,
        ) -> u64;
    }
}

/// What one pass over the regions lights.
#[derive(Clone, Debug, Default, Eq, PartialEq)]
pub struct Lighting {
    /// What is found of each component, in list order.
    pub components: Vec<ComponentLight>,
    /// Whether each region is lit, by its number. It is exactly if it holds a
    /// drive source or a lit region of smaller number feeds it.
    pub lit: Vec<bool>,
}

/// What the pass finds of a component.
#[derive(Clone, Copy, Debug, Eq, Hash, PartialEq)]
pub struct ComponentLight {
    /// The component.
    pub id: ComponentId,
    /// The number of its region, as of [`liveness`](crate::liveness).
    pub region: usize,
    /// Whether it is reached from a drive source, or is one. It is exactly if
    /// its region is lit.
    pub driven: bool,
}

/// A step of a lesson: a region, with all its blocks.
#[derive(Clone, Debug, Default, Eq, PartialEq)]
pub struct Step {
    /// The number of the region.
    pub region: usize,
    /// The components in it, in list order; there is at least one.
    pub blocks: Vec<ComponentId>,
    /// Whether it lights.
    pub lights: bool,
}

impl Lighting {
    /// The regions in lighting order. What feeds a block stands in an earlier
    /// step, or in the same one: no lamp lights before a lever that feeds it.
    pub fn steps(&self) -> impl Iterator<Item = Step> {
        let mut blocks = vec![Vec::new(); self.lit.len()];
        for it in &self.components {
            if let Some(blocks) = blocks.get_mut(it.region) {
                blocks.push(it.id);
            }
        }
        let each = blocks.into_iter().zip(&self.lit).enumerate();
        each.map(|(region, (blocks, &lights))| Step {
            region,
            blocks,
            lights,
        })
    }
}

/// Lights a plot region by region, each once, in the order of their numbers.
/// What is driven is the same as by [`liveness`](crate::liveness), and under all
/// rules.
///
/// # Errors
/// The refusal of the lists, as of [`liveness`](crate::liveness).
///
/// ```
/// use dustroute::{
///     BlockKind, Component, ComponentId, PortConnection, PortRef, Position, Rules, TransferKind,
///     light,
/// };
///
/// // A lamp between two levers, and a second lamp behind a wire that nothing drives.
/// let [lamp, left, right] = [ComponentId(1), ComponentId(2), ComponentId(3)];
/// let [wire, dark] = [ComponentId(4), ComponentId(5)];
/// let at = |id, x, kind| Component::new(id, Position::new(x, 0, 0), kind);
/// let components = [
///     at(left, 0, BlockKind::Lever),
///     at(lamp, 1, BlockKind::RedstoneLamp),
///     at(right, 2, BlockKind::Lever),
///     at(dark, 3, BlockKind::RedstoneLamp),
///     at(wire, 4, BlockKind::RedstoneWire),
/// ];
/// let feed = |source, sink| PortConnection {
///     source: PortRef::new(source, 1),
///     sink: PortRef::new(sink, 1),
///     transfer: TransferKind::DirectSignal,
/// };
/// let connections = [feed(left, lamp), feed(right, lamp), feed(wire, dark)];
///
/// let lighting = light(Rules::Two, &components, &connections, &[])?;
/// let step = |id| lighting.steps().position(|step| step.blocks.contains(&id));
/// assert!(step(left) < step(lamp) && step(right) < step(lamp) && step(wire) < step(dark));
///
/// let lit = lighting.steps().filter(|step| step.lights);
/// let lit: Vec<ComponentId> = lit.flat_map(|step| step.blocks).collect();
/// assert_eq!(lit.last(), Some(&lamp));
/// assert!(!lit.contains(&wire) && !lit.contains(&dark));
/// # Ok::<(), dustroute::Refusal>(())
/// ```
pub fn light(
    rules: Rules,
    components: &[Component],
    connections: &[PortConnection],
    frontiers: &[Position],
) -> Result<Lighting, Refusal> {
    let room = components.len().min(limits::COMPONENTS);
    let mut regions = vec![0; room];
    let (mut lit, mut driven) = ([0; WORDS], [0; WORDS]);
    let mut stack = vec![0; 2 * room];
    let rows = Rows::of(rules, components, connections, frontiers);
    let answer = pass(&rows, &mut regions, &mut lit, &mut driven, &mut stack);
    let [region_count, 0, 0] = counts(answer)? else {
        return Err(Refusal::UNREADABLE);
    };
    let (lit, driven) = (Set(lit), Set(driven));
    let each = members(components).into_iter().zip(regions);
    let each = components.iter().zip(each);
    let each = each.map(|(component, (member, region))| {
        Ok(ComponentLight {
            id: component.id,
            region: below(region_count, region.to_le_bytes())?,
            driven: driven.contains(member),
        })
    });
    Ok(Lighting {
        components: each.collect::<Result<_, _>>()?,
        lit: (0..region_count).map(|it| lit.contains(it)).collect(),
    })
}

/// The call.
fn pass(
    rows: &Rows,
    regions: &mut [u64],
    lit: &mut [u64],
    driven: &mut [u64],
    stack: &mut [usize],
) -> u64 {
    let (components, ports, frontiers) = (rows.components(), rows.ports(), rows.frontiers());
    // SAFETY: each pointer is to a whole slice of the length beside it. The
    // callee only reads the first three, and the borrows keep the others apart.
    unsafe {
        raw::dustroute_light(
            rows.rules,
            components.as_ptr(),
            components.len(),
            ports.as_ptr(),
            ports.len(),
            frontiers.as_ptr(),
            frontiers.len(),
            regions.as_mut_ptr(),
            regions.len(),
            lit.as_mut_ptr(),
            lit.len(),
            driven.as_mut_ptr(),
            driven.len(),
            stack.as_mut_ptr(),
            stack.len(),
        )
    }
}
