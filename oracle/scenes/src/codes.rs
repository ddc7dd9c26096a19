//! The paper's codes and the Rust's enums, in the order of both.

use dustroute_physical::{BlockKind, ConnectionKind, Facing, Pos, TransferKind};

const KINDS: [BlockKind; 13] = [
    BlockKind::RedstoneWire,
    BlockKind::Repeater,
    BlockKind::Comparator,
    BlockKind::RedstoneTorch,
    BlockKind::Lever,
    BlockKind::Button,
    BlockKind::PressurePlate,
    BlockKind::RedstoneBlock,
    BlockKind::Piston,
    BlockKind::Solid,
    BlockKind::Transparent,
    BlockKind::RedstoneLamp,
    BlockKind::Air,
];

const CONNECTIONS: [ConnectionKind; 10] = [
    ConnectionKind::Dust,
    ConnectionKind::DustRise,
    ConnectionKind::DustFallThroughConductor,
    ConnectionKind::WeakPower,
    ConnectionKind::StrongPower,
    ConnectionKind::DirectionalInput,
    ConnectionKind::DirectionalOutput,
    ConnectionKind::DirectSource,
    ConnectionKind::Control,
    ConnectionKind::Support,
];

const TRANSFERS: [TransferKind; 7] = [
    TransferKind::DustPropagation,
    TransferKind::DirectSignal,
    TransferKind::WeakPower,
    TransferKind::StrongPower,
    TransferKind::DirectionalDevice,
    TransferKind::SideControl,
    TransferKind::StructuralSupport,
];

/// The entry of a table at a code; the last one where the code is too large.
fn at<T: Copy>(table: &[T], code: i64) -> T {
    let last = table.len() - 1;
    table[usize::try_from(code).unwrap_or(0).min(last)]
}

pub fn kind(code: i64) -> BlockKind {
    at(&KINDS, code)
}

pub fn connection(code: i64) -> ConnectionKind {
    at(&CONNECTIONS, code)
}

pub fn transfer(code: i64) -> TransferKind {
    at(&TRANSFERS, code)
}

/// 0 none, then North, East, South, West, Up, Down.
pub fn facing(code: i64) -> Option<Facing> {
    match code {
        1 => Some(Facing::North),
        2 => Some(Facing::East),
        3 => Some(Facing::South),
        4 => Some(Facing::West),
        5 => Some(Facing::Up),
        6 => Some(Facing::Down),
        _ => None,
    }
}

pub const fn facing_code(facing: Facing) -> i64 {
    match facing {
        Facing::North => 1,
        Facing::East => 2,
        Facing::South => 3,
        Facing::West => 4,
        Facing::Up => 5,
        Facing::Down => 6,
    }
}

/// The unit step that stands for a support code.
pub fn support_offset(code: i64) -> Option<Pos> {
    facing(code).map(|face| match face {
        Facing::North => Pos::new(0, 0, -1),
        Facing::East => Pos::new(1, 0, 0),
        Facing::South => Pos::new(0, 0, 1),
        Facing::West => Pos::new(-1, 0, 0),
        Facing::Up => Pos::new(0, 1, 0),
        Facing::Down => Pos::new(0, -1, 0),
    })
}
