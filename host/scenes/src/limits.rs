//! The limits, widths and ranges of the lists, by which the tests judge. The
//! limits that `dustroute` tells a host are held to these.

pub const COMPONENTS: usize = 1_024;
pub const CONNECTIONS: usize = 4_096;
pub const FRONTIERS: usize = 256;

/// Numbers to a record of each list.
pub const COMPONENT: usize = 8;
pub const CONNECTION: usize = 3;
pub const PORT_CONNECTION: usize = 5;
pub const FRONTIER: usize = 3;

/// Numbers to a place of each lent slice that holds more than one to a place.
pub const SOURCE_ROW: usize = 2;
pub const INPUT_ROW: usize = 3;
pub const STACK_PAIR: usize = 2;
pub const DROPPED_ROW: usize = 2;
/// A port connection, and the slope of its step.
pub const KEPT_ROW: usize = 6;

/// Words to a set.
pub const SET_WORDS: usize = 16;

/// Places for each component.
pub const SOURCES_EACH: usize = 2;
pub const INPUTS_EACH: usize = 4;

/// The greatest rules number; the least is 1.
pub const LAST_RULES: i64 = 3;
/// The first rules by which a lamp is passed over like a Solid.
pub const PASSIVE_LAMPS: i64 = 2;
/// The first rules by which a facing of none is not taken as North.
pub const UNREAD_BLANKS: i64 = 3;
/// The rules by which the unchanged Rust marks.
pub const RULES_OF_THE_RUST: i64 = 1;

pub const LAST_ID: i64 = 4_294_967_295;
pub const FAR: i64 = 30_000_000;
pub const LAST_KIND: i64 = 12;
pub const LAST_FACE: i64 = 6;
pub const LAST_CONNECTION_KIND: i64 = 9;
pub const LAST_PORT: i64 = 255;
/// The transfer of a support connection, which is the last one.
pub const SUPPORT: i64 = 6;

/// The lowest and the highest value of a field.
pub type Range = (i64, i64);

const ID: Range = (0, LAST_ID);
const COORDINATE: Range = (-FAR, FAR);
const FACE: Range = (0, LAST_FACE);
const PORT: Range = (0, LAST_PORT);

/// Id, x, y, z, kind, facing, support, conducts.
pub const COMPONENT_RANGES: [Range; COMPONENT] = [
    ID,
    COORDINATE,
    COORDINATE,
    COORDINATE,
    (0, LAST_KIND),
    FACE,
    FACE,
    (0, 1),
];

/// Source, sink, kind.
pub const CONNECTION_RANGES: [Range; CONNECTION] = [ID, ID, (0, LAST_CONNECTION_KIND)];

/// Source, source port, sink, sink port, transfer.
pub const PORT_CONNECTION_RANGES: [Range; PORT_CONNECTION] = [ID, PORT, ID, PORT, (0, SUPPORT)];

/// X, y, z.
pub const FRONTIER_RANGES: [Range; FRONTIER] = [COORDINATE, COORDINATE, COORDINATE];
