//! The codes of kinds, faces, connections, transfers and slopes, as enums in
//! their order.

/// What a component is. The codes of the product's lists and sheets are the
/// places in [`BlockKind::ALL`].
#[derive(Clone, Copy, Debug, Eq, Hash, Ord, PartialEq, PartialOrd)]
pub enum BlockKind {
    /// Code 0. The only kind that can be an inferred input.
    RedstoneWire,
    /// Code 1. It has one required input, at its back.
    Repeater,
    /// Code 2. It has one required input, at its back.
    Comparator,
    /// Code 3. A source, with one required input at its support.
    RedstoneTorch,
    /// Code 4. A source that a player controls.
    Lever,
    /// Code 5. A source that a player controls.
    Button,
    /// Code 6. A source that a player controls.
    PressurePlate,
    /// Code 7. A source.
    RedstoneBlock,
    /// Code 8. It has a required input on each of its four sides.
    Piston,
    /// Code 9.
    Solid,
    /// Code 10.
    Transparent,
    /// Code 11.
    RedstoneLamp,
    /// Code 12.
    Air,
}

impl BlockKind {
    /// Every kind, by rising code.
    pub const ALL: [Self; 13] = [
        Self::RedstoneWire,
        Self::Repeater,
        Self::Comparator,
        Self::RedstoneTorch,
        Self::Lever,
        Self::Button,
        Self::PressurePlate,
        Self::RedstoneBlock,
        Self::Piston,
        Self::Solid,
        Self::Transparent,
        Self::RedstoneLamp,
        Self::Air,
    ];
}

/// A face of a cell. Its code is one more than its place in [`Facing::ALL`];
/// code 0 stands for none.
#[derive(Clone, Copy, Debug, Eq, Hash, Ord, PartialEq, PartialOrd)]
pub enum Facing {
    /// Code 1: z-1.
    North,
    /// Code 2: x+1.
    East,
    /// Code 3: z+1.
    South,
    /// Code 4: x-1.
    West,
    /// Code 5: y+1.
    Up,
    /// Code 6: y-1.
    Down,
}

impl Facing {
    /// Every face, by rising code.
    pub const ALL: [Self; 6] = [
        Self::North,
        Self::East,
        Self::South,
        Self::West,
        Self::Up,
        Self::Down,
    ];

    pub(crate) const fn code(face: Option<Self>) -> i64 {
        match face {
            Some(face) => face as i64 + 1,
            None => 0,
        }
    }
}

/// How a grouping connection joins. The codes are the places in
/// [`ConnectionKind::ALL`]. The first five join nets, all but the last
/// fragments.
#[derive(Clone, Copy, Debug, Eq, Hash, Ord, PartialEq, PartialOrd)]
pub enum ConnectionKind {
    /// Code 0.
    Dust,
    /// Code 1.
    DustRise,
    /// Code 2.
    DustFallThroughConductor,
    /// Code 3.
    WeakPower,
    /// Code 4.
    StrongPower,
    /// Code 5.
    DirectionalInput,
    /// Code 6.
    DirectionalOutput,
    /// Code 7.
    DirectSource,
    /// Code 8.
    Control,
    /// Code 9: it joins nothing.
    Support,
}

impl ConnectionKind {
    /// Every kind, by rising code.
    pub const ALL: [Self; 10] = [
        Self::Dust,
        Self::DustRise,
        Self::DustFallThroughConductor,
        Self::WeakPower,
        Self::StrongPower,
        Self::DirectionalInput,
        Self::DirectionalOutput,
        Self::DirectSource,
        Self::Control,
        Self::Support,
    ];
}

/// What a port connection hands on. The codes are the places in
/// [`TransferKind::ALL`].
#[derive(Clone, Copy, Debug, Eq, Hash, Ord, PartialEq, PartialOrd)]
pub enum TransferKind {
    /// Code 0.
    DustPropagation,
    /// Code 1.
    DirectSignal,
    /// Code 2.
    WeakPower,
    /// Code 3.
    StrongPower,
    /// Code 4.
    DirectionalDevice,
    /// Code 5.
    SideControl,
    /// Code 6: no signal goes this way, and its ends may be missing.
    StructuralSupport,
}

impl TransferKind {
    /// Every transfer, by rising code.
    pub const ALL: [Self; 7] = [
        Self::DustPropagation,
        Self::DirectSignal,
        Self::WeakPower,
        Self::StrongPower,
        Self::DirectionalDevice,
        Self::SideControl,
        Self::StructuralSupport,
    ];
}

/// Whether a step climbs. The codes are the places in [`Slope::ALL`].
#[derive(Clone, Copy, Debug, Eq, Hash, Ord, PartialEq, PartialOrd)]
pub enum Slope {
    /// Code 0: the sink is as high as the source.
    Level,
    /// Code 1: the sink is one higher.
    Rising,
    /// Code 2: the sink is one lower.
    Falling,
}

impl Slope {
    /// Every slope, by rising code.
    pub const ALL: [Self; 3] = [Self::Level, Self::Rising, Self::Falling];
}

#[cfg(test)]
mod tests {
    use super::{BlockKind, ConnectionKind, Facing, Slope, TransferKind};

    /// As in the table of faces: 0 none, North, East, South, West, Up, Down.
    #[test]
    fn the_codes_are_those_of_the_table() {
        let codes = [
            (Facing::North, 1),
            (Facing::East, 2),
            (Facing::South, 3),
            (Facing::West, 4),
            (Facing::Up, 5),
            (Facing::Down, 6),
        ];
        for (face, code) in codes {
            assert_eq!(Facing::code(Some(face)), code);
        }
        assert_eq!(Facing::code(None), 0);
        assert_eq!(BlockKind::Lever as i64, 4);
        assert_eq!(BlockKind::Air as i64, 12);
        assert_eq!(ConnectionKind::StrongPower as i64, 4);
        assert_eq!(ConnectionKind::Support as i64, 9);
        assert_eq!(TransferKind::DirectionalDevice as i64, 4);
        assert_eq!(TransferKind::StructuralSupport as i64, 6);
        assert_eq!(Slope::Rising as i64, 1);
        assert_eq!(Slope::Falling as i64, 2);
    }
}
