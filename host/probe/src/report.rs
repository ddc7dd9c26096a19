//! The report of a sheet.

use crate::{Refusal, unpack};

mod raw {
    unsafe extern "C" {
        pub fn probe_report(
            text: *const u8,
            text_len: usize,
            components_limit: u64,
            connections_limit: u64,
            frontiers_limit: u64,
            components: *mut i64,
            components_len: usize,
            connections: *mut i64,
            connections_len: usize,
            frontiers: *mut i64,
            frontiers_len: usize,
            out: *mut u8,
            out_len: usize,
        ) -> u64;
    }
}

/// Writes the report of a sheet at the front of `out`, and counts its bytes.
/// Limits and work lists are in the order components, connections, frontiers.
///
/// # Errors
/// The refusal of a sheet or of slices that are not as they must be.
pub fn report(
    text: &[u8],
    limits: [u64; 3],
    work: [&mut [i64]; 3],
    out: &mut [u8],
) -> Result<u64, Refusal> {
    let [components, connections, frontiers] = work;
    // SAFETY: each pointer is to a whole slice of the length beside it. The
    // callee only reads the first, and the borrows keep the others apart.
    unpack(unsafe {
        raw::probe_report(
            text.as_ptr(),
            text.len(),
            limits[0],
            limits[1],
            limits[2],
            components.as_mut_ptr(),
            components.len(),
            connections.as_mut_ptr(),
            connections.len(),
            frontiers.as_mut_ptr(),
            frontiers.len(),
            out.as_mut_ptr(),
            out.len(),
        )
    })
}
