//! The product's own entries: lists lent as bytes, eight to a number, lowest
//! first. The calls themselves are those of the crate `dustroute`; here their
//! answers stay plain numbers.

use dustroute::bytes::{self, NUMBER};
pub use dustroute::bytes::{Lent, WORDS};

use crate::{Refusal, unpack};

/// How many nets and fragments an accepted scene has.
#[derive(Clone, Copy, Debug, Eq, PartialEq)]
pub struct Counts {
    pub nets: u64,
    pub fragments: u64,
}

/// The net and the fragment of each component, at the front of the slices.
///
/// # Errors
/// The refusal of lists or slices that are not as they must be.
pub fn groups(
    rules: i64,
    components: &[u8],
    connections: &[u8],
    nets: &mut [u8],
    fragments: &mut [u8],
) -> Result<Counts, Refusal> {
    let answer = bytes::groups(rules, components, connections, nets, fragments);
    unpack(answer).map(|counts| Counts {
        nets: counts % 65_536,
        fragments: counts / 65_536,
    })
}

/// Numbers to a component.
const COMPONENT: usize = 8;

/// The words of a set: the number k is bit k % 64 of word k / 64.
pub type Words = [u64; WORDS];

/// How many regions, source rows and verdict rows an accepted scene has.
#[derive(Clone, Copy, Debug, Eq, PartialEq)]
pub struct RowCounts {
    pub regions: u64,
    pub sources: u64,
    pub inputs: u64,
}

/// The region of each component, the source rows, the verdict rows and the
/// four sets, at the front of the slices, and the stack zero.
///
/// # Errors
/// The refusal of lists or slices that are not as they must be.
pub fn liveness_bytes(
    rules: i64,
    components: &[u8],
    ports: &[u8],
    frontiers: &[u8],
    lent: Lent<'_>,
) -> Result<RowCounts, Refusal> {
    let answer = bytes::liveness(rules, components, ports, frontiers, lent);
    unpack(answer).map(|counts| RowCounts {
        regions: counts % 65_536,
        sources: counts / 65_536 % 65_536,
        inputs: counts / 4_294_967_296,
    })
}

/// What the liveness entry finds of an accepted scene.
#[derive(Clone, Debug, Eq, PartialEq)]
pub struct Liveness {
    /// How many regions there are.
    pub region_count: u64,
    /// The region of each component, in list order.
    pub regions: Vec<u64>,
    /// Id and source kind.
    pub sources: Vec<[u64; 2]>,
    /// Device, port and status.
    pub inputs: Vec<[u64; 3]>,
    /// Members that are driven.
    pub drive: Words,
    /// Members that are driven, or would be by an inferred input.
    pub potential: Words,
    /// Regions that are cyclic.
    pub cyclic: Words,
    /// Regions that hold a drive source.
    pub has_drive: Words,
}

/// The liveness entry on lists of numbers, with slices lent that are enough.
///
/// # Errors
/// The refusal of lists that are not as they must be.
pub fn liveness(
    rules: i64,
    components: &[i64],
    ports: &[i64],
    frontiers: &[i64],
) -> Result<Liveness, Refusal> {
    let count = components.len() / COMPONENT;
    let mut regions = vec![0; count * NUMBER];
    let mut sources = vec![0; 4 * count * NUMBER];
    let mut inputs = vec![0; 12 * count * NUMBER];
    let mut sets = vec![0; 4 * WORDS * NUMBER];
    let mut stack = vec![0; 2 * count * NUMBER];
    let counts = liveness_bytes(
        rules,
        &lent_bytes(components),
        &lent_bytes(ports),
        &lent_bytes(frontiers),
        Lent {
            regions: &mut regions,
            sources: &mut sources,
            inputs: &mut inputs,
            sets: &mut sets,
            stack: &mut stack,
        },
    )?;
    let words = rows::<WORDS>(&sets, 4);
    Ok(Liveness {
        region_count: counts.regions,
        regions: numbers(&regions),
        sources: rows(&sources, counts.sources),
        inputs: rows(&inputs, counts.inputs),
        drive: words[0],
        potential: words[1],
        cyclic: words[2],
        has_drive: words[3],
    })
}

/// The bytes of a list.
fn lent_bytes(numbers: &[i64]) -> Vec<u8> {
    let numbers = numbers.iter();
    numbers.flat_map(|number| number.to_le_bytes()).collect()
}

/// The numbers of the bytes.
fn numbers(bytes: &[u8]) -> Vec<u64> {
    let (whole, _) = bytes.as_chunks::<NUMBER>();
    whole.iter().copied().map(u64::from_le_bytes).collect()
}

/// The first rows of so many numbers.
fn rows<const WIDTH: usize>(bytes: &[u8], count: u64) -> Vec<[u64; WIDTH]> {
    let numbers = numbers(bytes);
    let (rows, _) = numbers.as_chunks::<WIDTH>();
    let count = usize::try_from(count).unwrap_or(usize::MAX);
    rows.iter().copied().take(count).collect()
}
