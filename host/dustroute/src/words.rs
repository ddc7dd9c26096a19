//! Kinds, faces and verdicts as a reader has them.

use std::fmt;

use crate::{
    BlockKind, ConnectionKind, Facing, RequiredInputStatus, SignalSourceKind, Slope, TransferKind,
};

impl fmt::Display for BlockKind {
    fn fmt(&self, out: &mut fmt::Formatter<'_>) -> fmt::Result {
        out.write_str(match self {
            Self::RedstoneWire => "wire",
            Self::Repeater => "repeater",
            Self::Comparator => "comparator",
            Self::RedstoneTorch => "torch",
            Self::Lever => "lever",
            Self::Button => "button",
            Self::PressurePlate => "pressure plate",
            Self::RedstoneBlock => "block of redstone",
            Self::Piston => "piston",
            Self::Solid => "solid block",
            Self::Transparent => "transparent block",
            Self::RedstoneLamp => "lamp",
            Self::Air => "air",
        })
    }
}

impl fmt::Display for Facing {
    fn fmt(&self, out: &mut fmt::Formatter<'_>) -> fmt::Result {
        out.write_str(match self {
            Self::North => "North",
            Self::East => "East",
            Self::South => "South",
            Self::West => "West",
            Self::Up => "Up",
            Self::Down => "Down",
        })
    }
}

impl fmt::Display for ConnectionKind {
    fn fmt(&self, out: &mut fmt::Formatter<'_>) -> fmt::Result {
        out.write_str(match self {
            Self::Dust => "dust",
            Self::DustRise => "dust rising",
            Self::DustFallThroughConductor => "dust falling",
            Self::WeakPower => "weak power",
            Self::StrongPower => "strong power",
            Self::DirectionalInput => "into a device",
            Self::DirectionalOutput => "out of a device",
            Self::DirectSource => "from a source",
            Self::Control => "control",
            Self::Support => "support",
        })
    }
}

impl fmt::Display for TransferKind {
    fn fmt(&self, out: &mut fmt::Formatter<'_>) -> fmt::Result {
        out.write_str(match self {
            Self::DustPropagation => "along dust",
            Self::DirectSignal => "from a source",
            Self::WeakPower => "as weak power",
            Self::StrongPower => "as strong power",
            Self::DirectionalDevice => "into or out of a device",
            Self::SideControl => "as control",
            Self::StructuralSupport => "as support, without a signal",
        })
    }
}

impl fmt::Display for Slope {
    fn fmt(&self, out: &mut fmt::Formatter<'_>) -> fmt::Result {
        out.write_str(match self {
            Self::Level => "level",
            Self::Rising => "rising",
            Self::Falling => "falling",
        })
    }
}

impl fmt::Display for SignalSourceKind {
    fn fmt(&self, out: &mut fmt::Formatter<'_>) -> fmt::Result {
        out.write_str(match self {
            Self::ControllableInput => "an input that a player controls",
            Self::IntrinsicSource => "a source by itself",
            Self::ObservationBoundary => "at the edge of what was seen",
            Self::InferredPrimaryInput => "a place for an input",
        })
    }
}

impl fmt::Display for RequiredInputStatus {
    fn fmt(&self, out: &mut fmt::Formatter<'_>) -> fmt::Result {
        out.write_str(match self {
            Self::DrivenByKnownSource => "is driven",
            Self::AwaitingExternalInput => "waits for an input from outside",
            Self::Disconnected => "has nothing connected",
            Self::NoKnownSource => "is connected, but nothing drives what feeds it",
        })
    }
}

#[cfg(test)]
mod tests {
    use std::collections::BTreeSet;
    use std::fmt::Display;

    use crate::{
        BlockKind, ConnectionKind, Facing, RequiredInputStatus, SignalSourceKind, Slope,
        TransferKind,
    };

    fn are_told_apart(all: &[impl Display]) {
        let said: BTreeSet<String> = all.iter().map(ToString::to_string).collect();
        assert_eq!(said.len(), all.len(), "{said:?}");
    }

    #[test]
    fn no_two_read_alike() {
        are_told_apart(&BlockKind::ALL);
        are_told_apart(&Facing::ALL);
        are_told_apart(&ConnectionKind::ALL);
        are_told_apart(&TransferKind::ALL);
        are_told_apart(&Slope::ALL);
        are_told_apart(&SignalSourceKind::ALL);
        are_told_apart(&RequiredInputStatus::ALL);
    }
}
