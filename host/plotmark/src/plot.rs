//! A sheet that was read and marked: every number of it is the core's.

use std::collections::{BTreeMap, BTreeSet};

use dustroute::{
    Component, ComponentId, Facing, KeptConnection, LeftOut, Lighting, Mark, MarkedInput, Port,
    PortConnection, PortRef, Ports, Reason, Refusal, RequiredInputStatus, Rings, Sheet,
    block_ports, driven, input, light, ports, read_sheet, rings, trail,
};

use crate::lines::Lines;

/// A sheet whose connections were made, or left out.
#[derive(Clone, Debug)]
pub struct Plot {
    /// What the sheet says.
    pub sheet: Sheet,
    /// Where it says it.
    pub lines: Lines,
    /// The connections that go from port to port.
    pub kept: Vec<KeptConnection>,
    /// The others, with why.
    pub left_out: Vec<LeftOut>,
    fed: Vec<PortConnection>,
    places: BTreeMap<ComponentId, usize>,
}

/// A required input with all that is told of it.
#[derive(Clone, Debug, Eq, PartialEq)]
pub struct Input {
    /// The device and its port.
    pub port: PortRef,
    /// The verdict.
    pub status: RequiredInputStatus,
    /// On which side of the device it is.
    pub face: Facing,
    /// The blocks that feed it.
    pub immediate: BTreeSet<ComponentId>,
    /// Wires at which an input could be put.
    pub inferred: BTreeSet<ComponentId>,
    /// All that is upstream of it, where it is not driven.
    pub upstream: BTreeSet<ComponentId>,
    /// The least way from a source, where it is driven.
    pub trail: Vec<ComponentId>,
}

/// A plot with its marks.
#[derive(Clone, Debug)]
pub struct Marked {
    /// The plot.
    pub plot: Plot,
    /// Nets and fragments, regions, sources and verdicts.
    pub mark: Mark,
    /// What lights, region by region.
    pub lighting: Lighting,
    /// Which regions have a ring.
    pub rings: Rings,
    /// The required inputs, in the core's order.
    pub inputs: Vec<Input>,
}

impl Plot {
    /// Reads a sheet and finds what its connections make.
    ///
    /// # Errors
    /// The refusal of the sheet.
    pub fn read(text: &[u8]) -> Result<Self, Refusal> {
        let sheet = read_sheet(text)?;
        let found = ports(sheet.rules, &sheet.components, &sheet.connections)?;
        Ok(Self::of(text, sheet, found))
    }

    fn of(text: &[u8], sheet: Sheet, found: Ports) -> Self {
        let ids = sheet.components.iter().map(|it| it.id);
        Self {
            lines: Lines::of(text, &sheet),
            fed: found.connections(),
            places: ids.zip(0..).collect(),
            kept: found.kept,
            left_out: found.left_out,
            sheet,
        }
    }

    /// The block with an id.
    #[must_use]
    pub fn block(&self, id: ComponentId) -> Option<&Component> {
        let place = self.places.get(&id)?;
        self.sheet.components.get(*place)
    }

    /// The place of a block in the sheet's list.
    #[must_use]
    pub fn place(&self, id: ComponentId) -> Option<usize> {
        self.places.get(&id).copied()
    }

    /// The ports of a block, by number.
    ///
    /// # Errors
    /// Only of an archive of another version.
    pub fn ports(&self, block: &Component) -> Result<Vec<Port>, Refusal> {
        block_ports(self.sheet.rules, block)
    }

    /// One port of one block.
    #[must_use]
    pub fn port(&self, port: PortRef) -> Option<Port> {
        let ports = self.ports(self.block(port.component)?).ok()?;
        ports.get(usize::from(port.port)).copied()
    }

    /// What is found of one required input, without the marks of the rest.
    ///
    /// # Errors
    /// [`Reason::NoVerdict`] where the port is no required input.
    pub fn ask(&self, port: PortRef) -> Result<Input, Refusal> {
        let (sheet, fed) = (&self.sheet, &self.fed);
        let is_driven = driven(sheet.rules, &sheet.components, fed, &sheet.frontiers, port)?.driven;
        let found = input(sheet.rules, &sheet.components, fed, &sheet.frontiers, port)?;
        let status = match (is_driven, found.immediate.is_empty()) {
            (true, _) => RequiredInputStatus::DrivenByKnownSource,
            (false, true) => RequiredInputStatus::Disconnected,
            (false, false) if found.inferred.is_empty() => RequiredInputStatus::NoKnownSource,
            (false, false) => RequiredInputStatus::AwaitingExternalInput,
        };
        self.told(MarkedInput {
            input: port,
            status,
            immediate: found.immediate,
            inferred: found.inferred,
        })
    }

    /// With the way to an input, or with what is upstream of it.
    fn told(&self, marked: MarkedInput) -> Result<Input, Refusal> {
        let (sheet, fed, port) = (&self.sheet, &self.fed, marked.input);
        let (mut way, mut upstream) = (Vec::new(), BTreeSet::new());
        match marked.status {
            RequiredInputStatus::DrivenByKnownSource => {
                way = trail(sheet.rules, &sheet.components, fed, &sheet.frontiers, port)?;
            }
            RequiredInputStatus::Disconnected => {}
            _ => {
                let found = driven(sheet.rules, &sheet.components, fed, &sheet.frontiers, port)?;
                upstream.extend(found.met);
            }
        }
        let face = self.port(port).map(|it| it.face);
        Ok(Input {
            port,
            status: marked.status,
            face: face.ok_or(OTHER_ARCHIVE)?,
            immediate: marked.immediate,
            inferred: marked.inferred,
            upstream,
            trail: way,
        })
    }

    /// The required inputs of one block; none where it has none.
    ///
    /// # Errors
    /// Only of an archive of another version.
    pub fn asked(&self, block: &Component) -> Result<Vec<Input>, Refusal> {
        let ports = (0..=u8::MAX).zip(self.ports(block)?);
        let each = ports.map(|(port, _)| self.ask(PortRef::new(block.id, port)));
        let each = each.filter(|found| match found {
            Err(refusal) => refusal.reason != Reason::NoVerdict,
            Ok(_) => true,
        });
        each.collect()
    }

    /// The connections into a block at other ports than this one.
    pub fn beside(&self, port: PortRef) -> impl Iterator<Item = PortConnection> {
        let fed = self.fed.iter().copied();
        fed.filter(move |it| it.sink.component == port.component && it.sink.port != port.port)
    }
}

/// What stands for an answer that no contract of the core allows.
const OTHER_ARCHIVE: Refusal = Refusal {
    reason: Reason::Unreadable,
    place: None,
};

impl Marked {
    /// Reads and marks a sheet.
    ///
    /// # Errors
    /// The refusal of the sheet.
    pub fn read(text: &[u8]) -> Result<Self, Refusal> {
        let sheet = read_sheet(text)?;
        let mark = sheet.mark()?;
        let plot = Plot::of(text, sheet, mark.ports.clone());
        let (sheet, fed) = (&plot.sheet, &plot.fed);
        let inputs = mark.inputs.iter();
        let inputs = inputs.map(|it| plot.told(it.clone()));
        Ok(Self {
            inputs: inputs.collect::<Result<_, Refusal>>()?,
            lighting: light(sheet.rules, &sheet.components, fed, &sheet.frontiers)?,
            rings: rings(sheet.rules, &sheet.components, fed, &sheet.frontiers)?,
            mark,
            plot,
        })
    }
}
