//! Steps, kept connections, and a fragment's nets.

use crate::{Refusal, unpack};

mod raw {
    unsafe extern "C" {
        pub safe fn probe_step_between(
            x: i64,
            y: i64,
            z: i64,
            to_x: i64,
            to_y: i64,
            to_z: i64,
        ) -> u64;

        pub fn probe_fragment_net(
            nets: *const u64,
            nets_len: usize,
            fragments: *const u64,
            fragments_len: usize,
            fragment: u64,
            net: u64,
        ) -> u64;

        // the product's own entry, linked by the crate `dustroute`
        pub fn dustroute_ports(
            rules: i64,
            components: *const i64,
            components_len: usize,
            connections: *const i64,
            connections_len: usize,
            ports: *mut i64,
            ports_len: usize,
        ) -> u64;
    }
}

/// Face and slope of the step from one cell to another; face 0 for none.
#[must_use]
pub fn step_between([x, y, z]: [i64; 3], [to_x, to_y, to_z]: [i64; 3]) -> [u64; 2] {
    let step = raw::probe_step_between(x, y, z, to_x, to_y, to_z);
    [step % 256, step / 256]
}

/// Writes the kept rows, six numbers each, at the front of the slice, and
/// counts them.
///
/// # Errors
/// The refusal of lists or a slice that are not as they must be.
pub fn port_connections(
    rules: i64,
    components: &[i64],
    connections: &[i64],
    out: &mut [i64],
) -> Result<u64, Refusal> {
    // SAFETY: each pointer is to a whole slice of the length beside it. The
    // callee only reads the first two, and the borrow keeps the third apart.
    unpack(unsafe {
        raw::dustroute_ports(
            rules,
            components.as_ptr(),
            components.len(),
            connections.as_ptr(),
            connections.len(),
            out.as_mut_ptr(),
            out.len(),
        )
    })
}

/// 1 where the net shares a member with the fragment, given the numbers of
/// each component's net and fragment, else 0. A net is below 1,024.
#[must_use]
pub fn fragment_net(nets: &[u64], fragments: &[u64], fragment: u64, net: u64) -> u64 {
    // SAFETY: both pointers are to whole slices of the lengths beside them,
    // which the callee only reads.
    unsafe {
        raw::probe_fragment_net(
            nets.as_ptr(),
            nets.len(),
            fragments.as_ptr(),
            fragments.len(),
            fragment,
            net,
        )
    }
}
