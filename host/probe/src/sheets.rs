//! The product's own entries over sheets, in plain numbers.

use crate::{Refusal, unpack};

mod raw {
    //! Linked by the crate `dustroute`.

    unsafe extern "C" {
        pub fn dustroute_sheet(
            text: *const u8,
            text_len: usize,
            components: *mut i64,
            components_len: usize,
            connections: *mut i64,
            connections_len: usize,
            frontiers: *mut i64,
            frontiers_len: usize,
            head: *mut u64,
            head_len: usize,
        ) -> u64;

        pub fn dustroute_report(
            text: *const u8,
            text_len: usize,
            components: *mut i64,
            components_len: usize,
            connections: *mut i64,
            connections_len: usize,
            frontiers: *mut i64,
            frontiers_len: usize,
            out: *mut u8,
            out_len: usize,
        ) -> u64;

        pub fn dustroute_convert(
            text: *const u8,
            text_len: usize,
            components: *mut i64,
            components_len: usize,
            connections: *mut i64,
            connections_len: usize,
            frontiers: *mut i64,
            frontiers_len: usize,
            out: *mut u8,
            out_len: usize,
        ) -> u64;

        pub fn dustroute_join(
            first: *const u8,
            first_len: usize,
            second: *const u8,
            second_len: usize,
            components: *mut i64,
            components_len: usize,
            connections: *mut i64,
            connections_len: usize,
            frontiers: *mut i64,
            frontiers_len: usize,
            out: *mut u8,
            out_len: usize,
        ) -> u64;
    }
}

/// Writes the lists of a sheet at the front of the work lists, and its form and
/// rules into the head; answers the counts of records. Work lists are in the order
/// components, connections, frontiers.
///
/// # Errors
/// The refusal of a sheet or of slices that are not as they must be.
pub fn sheet(text: &[u8], work: [&mut [i64]; 3], head: &mut [u64]) -> Result<[u64; 3], Refusal> {
    let [components, connections, frontiers] = work;
    // SAFETY: each pointer is to a whole slice of the length beside it. The
    // callee only reads the first, and the borrows keep the others apart.
    let counts = unpack(unsafe {
        raw::dustroute_sheet(
            text.as_ptr(),
            text.len(),
            components.as_mut_ptr(),
            components.len(),
            connections.as_mut_ptr(),
            connections.len(),
            frontiers.as_mut_ptr(),
            frontiers.len(),
            head.as_mut_ptr(),
            head.len(),
        )
    })?;
    Ok([0, 16, 32].map(|bits| counts >> bits & 0xffff))
}

/// Writes the report of a sheet at the front of `out`, and counts its bytes. The
/// limits are the library's, whatever is asked for.
///
/// # Errors
/// The refusal of a sheet or of slices that are not as they must be.
pub fn report(
    text: &[u8],
    _limits: [u64; 3],
    work: [&mut [i64]; 3],
    out: &mut [u8],
) -> Result<u64, Refusal> {
    let [components, connections, frontiers] = work;
    // SAFETY: as for `sheet`.
    unpack(unsafe {
        raw::dustroute_report(
            text.as_ptr(),
            text.len(),
            components.as_mut_ptr(),
            components.len(),
            connections.as_mut_ptr(),
            connections.len(),
            frontiers.as_mut_ptr(),
            frontiers.len(),
            out.as_mut_ptr(),
            out.len(),
        )
    })
}

/// Writes the sheet in its other form at the front of `out`, and counts its bytes.
/// The limits are the library's, whatever is asked for.
///
/// # Errors
/// The refusal of a sheet or of slices that are not as they must be.
pub fn convert(
    text: &[u8],
    _limits: [u64; 3],
    work: [&mut [i64]; 3],
    out: &mut [u8],
) -> Result<u64, Refusal> {
    let [components, connections, frontiers] = work;
    // SAFETY: as for `sheet`.
    unpack(unsafe {
        raw::dustroute_convert(
            text.as_ptr(),
            text.len(),
            components.as_mut_ptr(),
            components.len(),
            connections.as_mut_ptr(),
            connections.len(),
            frontiers.as_mut_ptr(),
            frontiers.len(),
            out.as_mut_ptr(),
            out.len(),
        )
    })
}

/// A refusal, and the sheet that it is of: 1, 2, or 0 of both.
#[derive(Clone, Copy, Debug, Eq, PartialEq)]
pub struct JoinRefusal {
    pub sheet: u64,
    pub refusal: Refusal,
}

/// Writes two sheets as one at the front of `out`, and counts its bytes.
///
/// # Errors
/// The refusal of sheets or slices that are not as they must be.
pub fn join(
    first: &[u8],
    second: &[u8],
    work: [&mut [i64]; 3],
    out: &mut [u8],
) -> Result<u64, JoinRefusal> {
    const SHEET: u32 = 56;
    let [components, connections, frontiers] = work;
    // SAFETY: as for `sheet`; the callee only reads the first two.
    let answer = unsafe {
        raw::dustroute_join(
            first.as_ptr(),
            first.len(),
            second.as_ptr(),
            second.len(),
            components.as_mut_ptr(),
            components.len(),
            connections.as_mut_ptr(),
            connections.len(),
            frontiers.as_mut_ptr(),
            frontiers.len(),
            out.as_mut_ptr(),
            out.len(),
        )
    };
    if answer % 65_536 == 0 {
        return Ok(answer / 65_536);
    }
    unpack(answer % (1 << SHEET)).map_err(|refusal| JoinRefusal {
        sheet: answer >> SHEET,
        refusal,
    })
}
