//! Regions, sources and verdicts.

use std::collections::{BTreeMap, BTreeSet};

use crate::bytes::{self, Lent, NUMBER, SETS, WORDS};
use crate::groups::gathered;
use crate::numbers::{Bytes, at, below, counts, id, lend, port_ref, rows};
use crate::{
    Component, ComponentId, PortConnection, PortRef, Position, Refusal, Rules, TransferKind, limits,
};

/// What is found of an accepted scene.
#[derive(Clone, Debug, Default, Eq, PartialEq)]
pub struct Liveness {
    /// What is found of each component, in list order.
    pub components: Vec<ComponentLiveness>,
    /// The regions, by their numbers. No connection leads from a region to one
    /// with a smaller number.
    pub regions: Vec<Region>,
    /// The sources, by rising position, id and kind.
    pub sources: Vec<SignalSource>,
    /// A verdict for each required input, in list order and by rising port.
    pub inputs: Vec<RequiredInput>,
}

/// What is found of a component.
#[derive(Clone, Copy, Debug, Eq, Hash, PartialEq)]
pub struct ComponentLiveness {
    /// The component.
    pub id: ComponentId,
    /// The number of its region: two components share one exactly when each
    /// reaches the other by port connections that are no support.
    pub region: usize,
    /// Whether it is reached from a drive source, or is one.
    pub drive: bool,
    /// Whether it is reached from a drive source or an inferred input, or is one.
    pub potential: bool,
}

/// A region.
#[derive(Clone, Copy, Debug, Eq, Hash, PartialEq)]
pub struct Region {
    /// Whether its members feed each other: it has two or more, or one that
    /// is connected to itself. No ring is meant: dust runs both ways, so a
    /// straight row of two wires is such a region too. Three wires in a triangle
    /// are one with a ring; whether there is one is told by
    /// [`rings`](crate::rings()), whose example has both.
    pub cyclic: bool,
    /// Whether a drive source is in it.
    pub has_drive: bool,
}

/// A component that can originate a signal.
#[derive(Clone, Copy, Debug, Eq, Hash, Ord, PartialEq, PartialOrd)]
pub struct SignalSource {
    /// The component.
    pub component: ComponentId,
    /// Why it is one.
    pub kind: SignalSourceKind,
}

/// Why a component is a source. All but the last are drive sources.
#[derive(Clone, Copy, Debug, Eq, Hash, Ord, PartialEq, PartialOrd)]
pub enum SignalSourceKind {
    /// Code 0: a lever, a button or a pressure plate.
    ControllableInput,
    /// Code 1: a block of redstone or a torch.
    IntrinsicSource,
    /// Code 2: the first listed component at a frontier.
    ObservationBoundary,
    /// Code 3: a wire at the end of a region that nothing else feeds. What
    /// feeds a region, the [`Rules`] say.
    InferredPrimaryInput,
}

impl SignalSourceKind {
    /// Every kind, by rising code.
    pub const ALL: [Self; 4] = [
        Self::ControllableInput,
        Self::IntrinsicSource,
        Self::ObservationBoundary,
        Self::InferredPrimaryInput,
    ];
}

/// A required input with its verdict.
#[derive(Clone, Copy, Debug, Eq, Hash, PartialEq)]
pub struct RequiredInput {
    /// The device and its port.
    pub input: PortRef,
    /// The verdict.
    pub status: RequiredInputStatus,
}

/// The verdict of a required input.
#[derive(Clone, Copy, Debug, Eq, Hash, Ord, PartialEq, PartialOrd)]
pub enum RequiredInputStatus {
    /// Code 0: it is fed by a component that is driven.
    DrivenByKnownSource,
    /// Code 1: it is fed by a component that an inferred input would drive.
    AwaitingExternalInput,
    /// Code 2: nothing feeds it.
    Disconnected,
    /// Code 3: what feeds it is driven by nothing.
    NoKnownSource,
}

impl RequiredInputStatus {
    /// Every verdict, by rising code.
    pub const ALL: [Self; 4] = [
        Self::DrivenByKnownSource,
        Self::AwaitingExternalInput,
        Self::Disconnected,
        Self::NoKnownSource,
    ];
}

/// A set of numbers as it comes from the library: number k is bit k % 64 of
/// word k / 64.
pub struct Set(pub [u64; WORDS]);

impl Set {
    pub fn contains(&self, number: usize) -> bool {
        let word = self.0.get(number / 64);
        word.is_some_and(|word| (word >> (number % 64)) & 1 == 1)
    }
}

/// What the library wrote.
pub struct Answer {
    pub regions: Vec<Bytes>,
    pub sources: Vec<[Bytes; 2]>,
    pub inputs: Vec<[Bytes; 3]>,
    pub sets: [[Bytes; WORDS]; SETS],
    /// The counts of regions, source rows and verdict rows.
    pub counts: [usize; 3],
}

/// Finds regions, sources, what they drive, and a verdict for each required
/// input of repeaters, comparators, pistons and torches.
///
/// Frontiers are cells at the edge of what was seen: the first listed component
/// at each counts as a source.
///
/// Which wires are inferred inputs depends on the [`Rules`], and so does what
/// they would drive and which verdicts await one. Nothing else does.
///
/// # Errors
/// The refusal of lists that are not as they must be; see [`Reason`](crate::Reason).
///
/// ```
/// use dustroute::{
///     BlockKind, Component, ComponentId, PortConnection, PortRef, Position, Reason, Rules,
///     SignalSourceKind, TransferKind, liveness,
/// };
///
/// // Three wires in a row, each feeding the next.
/// let wire = |k: u16| {
///     let position = Position::new(i32::from(k), 0, 0);
///     Component::new(ComponentId(k.into()), position, BlockKind::RedstoneWire)
/// };
/// let feed = |source, sink| PortConnection {
///     source: PortRef::new(ComponentId(source), 1),
///     sink: PortRef::new(ComponentId(sink), 3),
///     transfer: TransferKind::DustPropagation,
/// };
/// let components = [wire(0), wire(1), wire(2)];
///
/// let row = [feed(0, 1), feed(1, 2)];
/// let found = liveness(Rules::Two, &components, &row, &[])?;
/// assert!(found.regions.iter().all(|region| !region.cyclic));
/// assert_eq!(found.sources[0].kind, SignalSourceKind::InferredPrimaryInput);
/// assert!(found.components.iter().all(|it| it.potential && !it.drive));
///
/// // The first of them is at the edge of what was seen.
/// let found = liveness(Rules::Two, &components, &row, &[Position::new(0, 0, 0)])?;
/// assert!(found.components.iter().all(|it| it.drive));
///
/// // The same row, saved with a connection from a block that was cleared, or to one.
/// for lost in [feed(9, 0), feed(2, 9)] {
///     let saved = [&row[..], &[lost]].concat();
///     let refused = liveness(Rules::Two, &components, &saved, &[]);
///     assert_eq!(refused.map_err(|refusal| refusal.reason), Err(Reason::MissingEndpoint));
/// }
/// # Ok::<(), dustroute::Refusal>(())
/// ```
pub fn liveness(
    rules: Rules,
    components: &[Component],
    connections: &[PortConnection],
    frontiers: &[Position],
) -> Result<Liveness, Refusal> {
    found(
        components,
        analyzed(rules, components, connections, frontiers)?,
    )
}

/// What the library wrote of these components, in their types.
pub fn found(components: &[Component], answer: Answer) -> Result<Liveness, Refusal> {
    let [region_count, source_count, input_count] = answer.counts;
    let sources = rows(&answer.sources, source_count)?.iter();
    let inputs = rows(&answer.inputs, input_count)?.iter();
    let [drive, potential, cyclic, has_drive] =
        answer.sets.map(|words| Set(words.map(u64::from_le_bytes)));
    let regions = (0..region_count).map(|number| Region {
        cyclic: cyclic.contains(number),
        has_drive: has_drive.contains(number),
    });
    let each = members(components).into_iter().zip(answer.regions);
    let each = components.iter().zip(each);
    let each = each.map(|(component, (member, region))| {
        Ok(ComponentLiveness {
            id: component.id,
            region: below(region_count, region)?,
            drive: drive.contains(member),
            potential: potential.contains(member),
        })
    });
    Ok(Liveness {
        components: each.collect::<Result<_, _>>()?,
        regions: regions.collect(),
        sources: sources.map(source).collect::<Result<_, _>>()?,
        inputs: inputs.map(input).collect::<Result<_, _>>()?,
    })
}

/// The call with slices lent that are just enough.
fn analyzed(
    rules: Rules,
    components: &[Component],
    connections: &[PortConnection],
    frontiers: &[Position],
) -> Result<Answer, Refusal> {
    let room = components.len().min(limits::COMPONENTS);
    let mut regions = vec![[0; NUMBER]; room];
    let mut sources = vec![[[0; NUMBER]; 2]; 2 * room];
    let mut inputs = vec![[[0; NUMBER]; 3]; 4 * room];
    let mut sets = [[[0; NUMBER]; WORDS]; SETS];
    let mut stack = vec![[[0; NUMBER]; 2]; room];
    let component_rows = lend(components, limits::COMPONENTS, Component::record);
    let connection_rows = lend(connections, limits::CONNECTIONS, PortConnection::record);
    let frontier_rows = lend(frontiers, limits::FRONTIERS, Position::record);
    let answer = bytes::liveness(
        rules.number(),
        component_rows.as_flattened().as_flattened(),
        connection_rows.as_flattened().as_flattened(),
        frontier_rows.as_flattened().as_flattened(),
        Lent {
            regions: regions.as_flattened_mut(),
            sources: sources.as_flattened_mut().as_flattened_mut(),
            inputs: inputs.as_flattened_mut().as_flattened_mut(),
            sets: sets.as_flattened_mut().as_flattened_mut(),
            stack: stack.as_flattened_mut().as_flattened_mut(),
        },
    );
    Ok(Answer {
        regions,
        sources,
        inputs,
        sets,
        counts: counts(answer)?,
    })
}

/// The member that each component is in the library's sets, in list order:
/// member k is the component with the k-th smallest id.
pub fn members(components: &[Component]) -> Vec<usize> {
    let ids = components.iter().map(|component| component.id);
    let mut places: Vec<(ComponentId, usize)> = ids.zip(0..).collect();
    places.sort_unstable();
    let mut members = vec![0; components.len()];
    for (member, (_, place)) in places.into_iter().enumerate() {
        if let Some(at) = members.get_mut(place) {
            *at = member;
        }
    }
    members
}

fn source(&[component, kind]: &[Bytes; 2]) -> Result<SignalSource, Refusal> {
    Ok(SignalSource {
        component: id(component)?,
        kind: at(&SignalSourceKind::ALL, kind)?,
    })
}

fn input(&[device, port, status]: &[Bytes; 3]) -> Result<RequiredInput, Refusal> {
    Ok(RequiredInput {
        input: port_ref(device, port)?,
        status: at(&RequiredInputStatus::ALL, status)?,
    })
}

impl Liveness {
    /// The components that are drive sources: those of every kind but inferred inputs.
    ///
    /// ```
    /// use dustroute::{
    ///     BlockKind, Component, ComponentId, Facing, PortConnection, PortRef, Position, Rules,
    ///     TransferKind, liveness,
    /// };
    ///
    /// // A lever before a repeater, and a repeater for itself.
    /// let east = |id, x| Component {
    ///     facing: Some(Facing::East),
    ///     ..Component::new(ComponentId(id), Position::new(x, 0, 0), BlockKind::Repeater)
    /// };
    /// let lever = Component::new(ComponentId(1), Position::new(0, 0, 0), BlockKind::Lever);
    /// let components = [lever, east(2, 1), east(3, 9)];
    /// let fed = [PortConnection {
    ///     source: PortRef::new(ComponentId(1), 1),
    ///     sink: PortRef::new(ComponentId(2), 1),
    ///     transfer: TransferKind::DirectSignal,
    /// }];
    ///
    /// let found = liveness(Rules::Three, &components, &fed, &[])?;
    /// assert_eq!(found.drive_sources(), [ComponentId(1)].into());
    /// assert!(found.undriven().eq([PortRef::new(ComponentId(3), 1)]));
    /// assert_eq!(found.immediate(&fed), [[ComponentId(1)].into(), [].into()]);
    /// # Ok::<(), dustroute::Refusal>(())
    /// ```
    #[must_use]
    pub fn drive_sources(&self) -> BTreeSet<ComponentId> {
        let drives = |it: &&SignalSource| it.kind != SignalSourceKind::InferredPrimaryInput;
        let sources = self.sources.iter().filter(drives);
        sources.map(|it| it.component).collect()
    }

    /// The required inputs that nothing drives or would drive, in order: those that
    /// are disconnected, and those whose feed no source reaches.
    pub fn undriven(&self) -> impl Iterator<Item = PortRef> {
        let undriven = |it: &&RequiredInput| {
            matches!(
                it.status,
                RequiredInputStatus::Disconnected | RequiredInputStatus::NoKnownSource
            )
        };
        self.inputs.iter().filter(undriven).map(|it| it.input)
    }

    /// What feeds each required input, in their order: the components whose
    /// connections, of those given, go to it, supports left out.
    #[must_use]
    pub fn immediate(&self, connections: &[PortConnection]) -> Vec<BTreeSet<ComponentId>> {
        let mut feeds: BTreeMap<PortRef, BTreeSet<ComponentId>> = BTreeMap::new();
        for it in connections {
            if it.transfer != TransferKind::StructuralSupport {
                feeds
                    .entry(it.sink)
                    .or_default()
                    .insert(it.source.component);
            }
        }
        let each = self.inputs.iter();
        each.map(|it| feeds.get(&it.input).cloned().unwrap_or_default())
            .collect()
    }

    /// The members of each region.
    #[must_use]
    pub fn region_members(&self) -> Vec<BTreeSet<ComponentId>> {
        let members = self.components.iter().map(|it| (it.region, it.id));
        gathered(self.regions.len(), members)
    }
}
