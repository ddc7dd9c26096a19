//! Words for sentences, beside those that `dustroute` has for each code.

use dustroute::{BlockKind, Component, Facing, Role, Rules};

/// What several of them are called.
#[must_use]
pub const fn kinds(of: BlockKind) -> &'static str {
    match of {
        BlockKind::RedstoneWire => "wires",
        BlockKind::Repeater => "repeaters",
        BlockKind::Comparator => "comparators",
        BlockKind::RedstoneTorch => "torches",
        BlockKind::Lever => "levers",
        BlockKind::Button => "buttons",
        BlockKind::PressurePlate => "pressure plates",
        BlockKind::RedstoneBlock => "blocks of redstone",
        BlockKind::Piston => "pistons",
        BlockKind::Solid => "solid blocks",
        BlockKind::Transparent => "transparent blocks",
        BlockKind::RedstoneLamp => "lamps",
        BlockKind::Air => "air",
    }
}

/// A word that has room in a cell.
#[must_use]
pub fn short_kind(of: BlockKind) -> String {
    match of {
        BlockKind::PressurePlate => "plate".to_string(),
        BlockKind::RedstoneBlock => "redstone".to_string(),
        BlockKind::Solid => "solid".to_string(),
        BlockKind::Transparent => "glass".to_string(),
        other => other.to_string(),
    }
}

/// To which side, in a sentence.
#[must_use]
pub const fn toward(face: Facing) -> &'static str {
    match face {
        Facing::North => "to the North",
        Facing::East => "to the East",
        Facing::South => "to the South",
        Facing::West => "to the West",
        Facing::Up => "upward",
        Facing::Down => "downward",
    }
}

/// From which side, in a sentence.
#[must_use]
pub const fn from(face: Facing) -> &'static str {
    match face {
        Facing::North => "from the North",
        Facing::East => "from the East",
        Facing::South => "from the South",
        Facing::West => "from the West",
        Facing::Up => "from above",
        Facing::Down => "from below",
    }
}

/// The opposite side.
#[must_use]
pub const fn opposite(face: Facing) -> Facing {
    match face {
        Facing::North => Facing::South,
        Facing::East => Facing::West,
        Facing::South => Facing::North,
        Facing::West => Facing::East,
        Facing::Up => Facing::Down,
        Facing::Down => Facing::Up,
    }
}

/// What a port is to its block.
#[must_use]
pub const fn role(role: Role) -> &'static str {
    match role {
        Role::Input => "its input",
        Role::Output => "its output",
        Role::Bidirectional => "where it goes both ways",
        Role::Control => "its side",
        Role::Support => "its support",
    }
}

/// Whether it matters how a block faces.
#[must_use]
pub const fn turns(kind: BlockKind) -> bool {
    matches!(
        kind,
        BlockKind::Repeater | BlockKind::Comparator | BlockKind::Piston
    )
}

/// What is said of a facing or a support that was left blank; nothing where the
/// block was seen, or where it does not matter.
#[must_use]
pub fn blank(rules: Rules, block: &Component) -> Option<&'static str> {
    if block.kind == BlockKind::RedstoneTorch && block.support.is_none() {
        return Some("what holds it is not known; taken to stand on the block below");
    }
    if !turns(block.kind) || block.facing.is_some() {
        return None;
    }
    Some(if rules.leaves_unread(block) {
        "its facing is not known, so that nothing is said of its input"
    } else {
        "its facing is not known; taken as North"
    })
}
