//! The two entries on bytes as they are: lists lent, one number back, nothing
//! allocated. `include/dustroute.h` tells every slice and the number in full;
//! [`Refusal::of`](crate::Refusal::of) reads a refusal from the number.
//!
//! A number is eight bytes, lowest first. Slices of any length and content are
//! safe to lend: one that is too short is refused. The number of the rules, see
//! [`Rules`](crate::Rules), may be any too: an unknown one is refused before all
//! else.

mod raw {
    //! As in `include/dustroute.h`: a slice passes as a pointer and then a
    //! length in bytes.

    unsafe extern "C" {
        pub fn dustroute_groups(
            rules: i64,
            components: *const u8,
            components_len: usize,
            connections: *const u8,
            connections_len: usize,
            nets: *mut u8,
            nets_len: usize,
            fragments: *mut u8,
            fragments_len: usize,
        ) -> u64;

        pub fn dustroute_liveness(
            rules: i64,
            components: *const u8,
            components_len: usize,
            ports: *const u8,
            ports_len: usize,
            frontiers: *const u8,
            frontiers_len: usize,
            regions: *mut u8,
            regions_len: usize,
            sources: *mut u8,
            sources_len: usize,
            inputs: *mut u8,
            inputs_len: usize,
            sets: *mut u8,
            sets_len: usize,
            stack: *mut u8,
            stack_len: usize,
        ) -> u64;
    }
}

/// Bytes to a number.
pub const NUMBER: usize = 8;

/// Words, of 64 bits, to a set.
pub const WORDS: usize = 16;

/// Sets that [`liveness`] writes: drive, potential, cyclic, `has_drive`.
pub const SETS: usize = 4;

/// The number of each component's net and fragment, at the front of `nets` and
/// `fragments`.
///
/// ```
/// // A component is id, x, y, z, kind, facing, support, conducts: two wires
/// // in one cell, and dust from the first to the second.
/// let components = [[0, 0, 0, 0, 0, 0, 0, 0], [1, 0, 0, 0, 0, 0, 0, 0_u64]];
/// let connections = [0, 1, 0_u64];
/// let components = components.as_flattened().iter().flat_map(|it| it.to_le_bytes());
/// let connections = connections.iter().flat_map(|it| it.to_le_bytes());
///
/// let (mut nets, mut fragments) = ([7; 16], [7; 16]);
/// let answer = dustroute::bytes::groups(
///     dustroute::Rules::Two.number(),
///     &components.collect::<Vec<u8>>(),
///     &connections.collect::<Vec<u8>>(),
///     &mut nets,
///     &mut fragments,
/// );
/// // accepted (0), one net, one fragment
/// assert_eq!(answer, (1 << 16) + (1 << 32));
/// assert_eq!(nets, [0; 16]);
/// ```
#[must_use]
pub fn groups(
    rules: i64,
    components: &[u8],
    connections: &[u8],
    nets: &mut [u8],
    fragments: &mut [u8],
) -> u64 {
    // SAFETY: each pointer is to a whole slice of the length beside it. The
    // callee only reads the first two, and the borrows keep the others apart.
    unsafe {
        raw::dustroute_groups(
            rules,
            components.as_ptr(),
            components.len(),
            connections.as_ptr(),
            connections.len(),
            nets.as_mut_ptr(),
            nets.len(),
            fragments.as_mut_ptr(),
            fragments.len(),
        )
    }
}

/// The slices that are lent to [`liveness`], of any length.
#[derive(Debug)]
pub struct Lent<'a> {
    /// A number for each component.
    pub regions: &'a mut [u8],
    /// Two rows of two numbers for each component.
    pub sources: &'a mut [u8],
    /// Four rows of three numbers for each component.
    pub inputs: &'a mut [u8],
    /// [`SETS`] sets of [`WORDS`] words.
    pub sets: &'a mut [u8],
    /// For work: two numbers for each component; zero after an accepted call.
    pub stack: &'a mut [u8],
}

/// The region of each component, the source rows, the verdict rows and the four
/// sets, at the front of the lent slices.
///
/// ```
/// use dustroute::bytes::{Lent, liveness};
/// use dustroute::{Reason, Refusal};
///
/// // No components need no room but that for the sets, and here there is none.
/// let [regions, sources, inputs, sets, stack] = &mut [const { [0_u8; 0] }; 5];
/// let answer = liveness(1, &[], &[], &[], Lent { regions, sources, inputs, sets, stack });
/// let refusal = Refusal::of(answer);
/// assert_eq!(refusal.map(|it| it.reason), Some(Reason::ShortSlice));
///
/// // Rules that are not known come before all else.
/// let [regions, sources, inputs, sets, stack] = &mut [const { [0_u8; 0] }; 5];
/// let answer = liveness(-1, &[], &[], &[], Lent { regions, sources, inputs, sets, stack });
/// let refusal = Refusal::of(answer);
/// assert_eq!(refusal.map(|it| it.reason), Some(Reason::UnknownRules));
/// ```
#[must_use]
pub fn liveness(
    rules: i64,
    components: &[u8],
    ports: &[u8],
    frontiers: &[u8],
    lent: Lent<'_>,
) -> u64 {
    // SAFETY: each pointer is to a whole slice of the length beside it. The
    // callee only reads the first three, and the borrows keep the others apart.
    unsafe {
        raw::dustroute_liveness(
            rules,
            components.as_ptr(),
            components.len(),
            ports.as_ptr(),
            ports.len(),
            frontiers.as_ptr(),
            frontiers.len(),
            lent.regions.as_mut_ptr(),
            lent.regions.len(),
            lent.sources.as_mut_ptr(),
            lent.sources.len(),
            lent.inputs.as_mut_ptr(),
            lent.inputs.len(),
            lent.sets.as_mut_ptr(),
            lent.sets.len(),
            lent.stack.as_mut_ptr(),
            lent.stack.len(),
        )
    }
}
