//! A plot marked as a whole, from its blocks to what feeds each input.

use std::collections::BTreeSet;

use crate::{
    Component, ComponentId, Connection, Groups, InputSources, List, Liveness, PortConnection,
    PortRef, Ports, Position, Refusal, RequiredInput, RequiredInputStatus, Rules, Sheet, groups,
    input, liveness, ports,
};

/// A plot as it is handed in: what a [`Sheet`] says but for its form.
#[derive(Clone, Debug, Eq, PartialEq)]
pub struct Scene {
    /// By which rules it is marked.
    pub rules: Rules,
    /// The blocks, by rising [`order`](Component::order).
    pub components: Vec<Component>,
    /// The grouping connections, rising.
    pub connections: Vec<Connection>,
    /// Cells at the edge of what was seen.
    pub frontiers: Vec<Position>,
}

/// All that is found of an accepted plot.
#[derive(Clone, Debug, Eq, PartialEq)]
#[non_exhaustive]
pub struct Mark {
    /// Nets and fragments.
    pub groups: Groups,
    /// The port connections, and why the other connections make none.
    pub ports: Ports,
    /// Regions, sources, what they drive, and the verdicts.
    pub liveness: Liveness,
    /// Each required input with its verdict and what feeds it, in the order of
    /// [`Liveness::inputs`].
    pub inputs: Vec<MarkedInput>,
}

/// A required input with its verdict and what feeds it.
#[derive(Clone, Debug, Eq, PartialEq)]
pub struct MarkedInput {
    /// The device and its port.
    pub input: PortRef,
    /// The verdict.
    pub status: RequiredInputStatus,
    /// The components that feed it.
    pub immediate: BTreeSet<ComponentId>,
    /// The inferred inputs among these and all that is upstream of them.
    pub inferred: BTreeSet<ComponentId>,
}

impl Scene {
    /// All that is found of the plot; see [`mark`](crate::mark()).
    ///
    /// # Errors
    /// A list that is not as it must be.
    pub fn mark(&self) -> Result<Mark, Refusal> {
        mark(
            self.rules,
            &self.components,
            &self.connections,
            &self.frontiers,
        )
    }
}

impl Sheet {
    /// All that is found of the plot; see [`mark`](crate::mark()).
    ///
    /// # Errors
    /// None of a sheet that [`read_sheet`](crate::read_sheet) read.
    pub fn mark(&self) -> Result<Mark, Refusal> {
        mark(
            self.rules,
            &self.components,
            &self.connections,
            &self.frontiers,
        )
    }
}

impl From<Sheet> for Scene {
    fn from(sheet: Sheet) -> Self {
        Self {
            rules: sheet.rules,
            components: sheet.components,
            connections: sheet.connections,
            frontiers: sheet.frontiers,
        }
    }
}

/// Marks a plot: its nets and fragments, its port connections and why others are
/// left out, regions, sources, verdicts, and what feeds each required input.
///
/// It makes the calls of [`groups`], [`ports`], [`liveness`] on the connections that
/// are kept, and [`input`] for each required input that something feeds. All numbers
/// are those of the [`report`](crate::report()) of the same plot.
///
/// # Errors
/// A list that is not as it must be: the refusal of the report of the same lists.
///
/// ```
/// use dustroute::{
///     BlockKind, Component, ComponentId, Connection, ConnectionKind, Facing, Position,
///     RequiredInputStatus, Rules, Scene,
/// };
///
/// // A lever, a wire and a repeater; behind the wire a block was dug away.
/// let at = |id, x, kind| Component::new(ComponentId(id), Position::new(x, 64, 0), kind);
/// let joined = |source, sink, kind| Connection {
///     source: ComponentId(source),
///     sink: ComponentId(sink),
///     kind,
/// };
/// let scene = Scene {
///     rules: Rules::Three,
///     components: vec![
///         at(1, 0, BlockKind::Lever),
///         at(2, 1, BlockKind::RedstoneWire),
///         Component {
///             facing: Some(Facing::East),
///             ..at(3, 2, BlockKind::Repeater)
///         },
///     ],
///     connections: vec![
///         joined(1, 2, ConnectionKind::DirectSource),
///         joined(2, 3, ConnectionKind::DirectionalInput),
///         joined(2, 9, ConnectionKind::Dust),
///     ],
///     frontiers: vec![],
/// };
///
/// let mark = scene.mark()?;
/// let [input] = &mark.inputs[..] else { panic!() };
/// assert_eq!(input.status, RequiredInputStatus::DrivenByKnownSource);
/// assert_eq!(input.immediate, [ComponentId(2)].into());
/// assert_eq!(mark.ports.kept.len(), 2);
/// assert_eq!(mark.ports.left_out[0].to_string(), "2 to 9: there is no block 9");
/// # Ok::<(), dustroute::Refusal>(())
/// ```
pub fn mark(
    rules: Rules,
    components: &[Component],
    connections: &[Connection],
    frontiers: &[Position],
) -> Result<Mark, Refusal> {
    let groups = groups(rules, components, connections)
        .map_err(|refusal| first_of(refusal, liveness(rules, components, &[], frontiers)))?;
    let ports = ports(rules, components, connections)?;
    let fed = ports.connections();
    let liveness = liveness(rules, components, &fed, frontiers)?;
    let each = liveness.inputs.iter();
    let each = each.map(|row| marked(row, rules, components, &fed, frontiers));
    let inputs = each.collect::<Result<_, _>>()?;
    Ok(Mark {
        groups,
        ports,
        liveness,
        inputs,
    })
}

/// The verdict `Disconnected` says that nothing feeds the input.
fn marked(
    row: &RequiredInput,
    rules: Rules,
    components: &[Component],
    fed: &[PortConnection],
    frontiers: &[Position],
) -> Result<MarkedInput, Refusal> {
    let sources = if row.status == RequiredInputStatus::Disconnected {
        InputSources::default()
    } else {
        input(rules, components, fed, frontiers, row.input).map_err(|_| Refusal::UNREADABLE)?
    };
    Ok(MarkedInput {
        input: row.input,
        status: row.status,
        immediate: sources.immediate,
        inferred: sources.inferred,
    })
}

/// The refusal of all three lists: the lowest number, then the earliest list. Each of
/// the two calls knows only two of them.
fn first_of(grouping: Refusal, other: Result<Liveness, Refusal>) -> Refusal {
    let rank = |refusal: &Refusal| {
        let place = refusal.place.map(|place| (list(place.list), place.item));
        (refusal.reason.number(), place)
    };
    match other {
        Err(other) if rank(&other) < rank(&grouping) => other,
        _ => grouping,
    }
}

const fn list(list: List) -> u8 {
    match list {
        List::Components => 0,
        List::Connections => 1,
        List::Frontiers => 2,
        List::Lines => 3,
    }
}
