//! The product's entries over numbers as C calls them, for what the typed
//! functions of the crate `dustroute` cannot hand in. Answers stay packed.

mod raw {
    //! As in `include/dustroute.h`; linked by the crate `dustroute`.

    unsafe extern "C" {
        pub fn dustroute_driven(
            rules: i64,
            components: *const i64,
            components_len: usize,
            ports: *const i64,
            ports_len: usize,
            frontiers: *const i64,
            frontiers_len: usize,
            id: u64,
            port: u64,
            met: *mut u64,
            met_len: usize,
            stack: *mut usize,
            stack_len: usize,
        ) -> u64;

        pub fn dustroute_trail(
            rules: i64,
            components: *const i64,
            components_len: usize,
            ports: *const i64,
            ports_len: usize,
            frontiers: *const i64,
            frontiers_len: usize,
            id: u64,
            port: u64,
            trail: *mut u64,
            trail_len: usize,
        ) -> u64;

        pub fn dustroute_check_trail(
            rules: i64,
            components: *const i64,
            components_len: usize,
            ports: *const i64,
            ports_len: usize,
            frontiers: *const i64,
            frontiers_len: usize,
            id: u64,
            port: u64,
            trail: *const u64,
            trail_len: usize,
        ) -> u64;

        pub fn dustroute_clear(
            rules: i64,
            components: *const i64,
            components_len: usize,
            ports: *const i64,
            ports_len: usize,
            frontiers: *const i64,
            frontiers_len: usize,
            kept: *mut i64,
            kept_len: usize,
            dropped: *mut u64,
            dropped_len: usize,
        ) -> u64;

        pub fn dustroute_light(
            rules: i64,
            components: *const i64,
            components_len: usize,
            ports: *const i64,
            ports_len: usize,
            frontiers: *const i64,
            frontiers_len: usize,
            regions: *mut u64,
            regions_len: usize,
            lit: *mut u64,
            lit_len: usize,
            driven: *mut u64,
            driven_len: usize,
            stack: *mut usize,
            stack_len: usize,
        ) -> u64;

        pub fn dustroute_rings(
            rules: i64,
            components: *const i64,
            components_len: usize,
            ports: *const i64,
            ports_len: usize,
            frontiers: *const i64,
            frontiers_len: usize,
            regions: *mut u64,
            regions_len: usize,
            rings: *mut u64,
            rings_len: usize,
            stack: *mut usize,
            stack_len: usize,
        ) -> u64;

        pub fn dustroute_reach_table(
            rules: i64,
            components: *const i64,
            components_len: usize,
            ports: *const i64,
            ports_len: usize,
            frontiers: *const i64,
            frontiers_len: usize,
            square: *mut u8,
            square_len: usize,
            regions: *mut u64,
            regions_len: usize,
            stack: *mut usize,
            stack_len: usize,
        ) -> u64;
    }
}

/// The number of the rules, and the lists of a call.
#[derive(Clone, Copy, Debug)]
pub struct Lists<'a> {
    pub rules: i64,
    pub components: &'a [i64],
    pub ports: &'a [i64],
    pub frontiers: &'a [i64],
}

/// The id of a component and the number of its port.
pub type Port = [u64; 2];

/// Whether an input is driven.
pub fn driven(lists: Lists<'_>, [id, port]: Port, met: &mut [u64], stack: &mut [usize]) -> u64 {
    // SAFETY: each pointer is to a whole slice of the length beside it. The
    // callee only reads the lists, and the borrows keep the others apart.
    unsafe {
        raw::dustroute_driven(
            lists.rules,
            lists.components.as_ptr(),
            lists.components.len(),
            lists.ports.as_ptr(),
            lists.ports.len(),
            lists.frontiers.as_ptr(),
            lists.frontiers.len(),
            id,
            port,
            met.as_mut_ptr(),
            met.len(),
            stack.as_mut_ptr(),
            stack.len(),
        )
    }
}

/// The way to an input.
pub fn trail(lists: Lists<'_>, [id, port]: Port, trail: &mut [u64]) -> u64 {
    // SAFETY: as for `driven`.
    unsafe {
        raw::dustroute_trail(
            lists.rules,
            lists.components.as_ptr(),
            lists.components.len(),
            lists.ports.as_ptr(),
            lists.ports.len(),
            lists.frontiers.as_ptr(),
            lists.frontiers.len(),
            id,
            port,
            trail.as_mut_ptr(),
            trail.len(),
        )
    }
}

/// Whether a list is a way to an input.
#[must_use]
pub fn check_trail(lists: Lists<'_>, [id, port]: Port, trail: &[u64]) -> u64 {
    // SAFETY: as for `driven`; the last slice too is only read.
    unsafe {
        raw::dustroute_check_trail(
            lists.rules,
            lists.components.as_ptr(),
            lists.components.len(),
            lists.ports.as_ptr(),
            lists.ports.len(),
            lists.frontiers.as_ptr(),
            lists.frontiers.len(),
            id,
            port,
            trail.as_ptr(),
            trail.len(),
        )
    }
}

/// The clearing tool.
pub fn clear(lists: Lists<'_>, kept: &mut [i64], dropped: &mut [u64]) -> u64 {
    // SAFETY: as for `driven`.
    unsafe {
        raw::dustroute_clear(
            lists.rules,
            lists.components.as_ptr(),
            lists.components.len(),
            lists.ports.as_ptr(),
            lists.ports.len(),
            lists.frontiers.as_ptr(),
            lists.frontiers.len(),
            kept.as_mut_ptr(),
            kept.len(),
            dropped.as_mut_ptr(),
            dropped.len(),
        )
    }
}

/// The one pass over the regions.
pub fn light(
    lists: Lists<'_>,
    regions: &mut [u64],
    lit: &mut [u64],
    driven: &mut [u64],
    stack: &mut [usize],
) -> u64 {
    // SAFETY: as for `driven`.
    unsafe {
        raw::dustroute_light(
            lists.rules,
            lists.components.as_ptr(),
            lists.components.len(),
            lists.ports.as_ptr(),
            lists.ports.len(),
            lists.frontiers.as_ptr(),
            lists.frontiers.len(),
            regions.as_mut_ptr(),
            regions.len(),
            lit.as_mut_ptr(),
            lit.len(),
            driven.as_mut_ptr(),
            driven.len(),
            stack.as_mut_ptr(),
            stack.len(),
        )
    }
}

/// Which regions have a ring.
pub fn rings(lists: Lists<'_>, regions: &mut [u64], rings: &mut [u64], stack: &mut [usize]) -> u64 {
    // SAFETY: as for `driven`.
    unsafe {
        raw::dustroute_rings(
            lists.rules,
            lists.components.as_ptr(),
            lists.components.len(),
            lists.ports.as_ptr(),
            lists.ports.len(),
            lists.frontiers.as_ptr(),
            lists.frontiers.len(),
            regions.as_mut_ptr(),
            regions.len(),
            rings.as_mut_ptr(),
            rings.len(),
            stack.as_mut_ptr(),
            stack.len(),
        )
    }
}

/// The slow region finder.
pub fn reach_table(
    lists: Lists<'_>,
    square: &mut [u8],
    regions: &mut [u64],
    stack: &mut [usize],
) -> u64 {
    // SAFETY: as for `driven`.
    unsafe {
        raw::dustroute_reach_table(
            lists.rules,
            lists.components.as_ptr(),
            lists.components.len(),
            lists.ports.as_ptr(),
            lists.ports.len(),
            lists.frontiers.as_ptr(),
            lists.frontiers.len(),
            square.as_mut_ptr(),
            square.len(),
            regions.as_mut_ptr(),
            regions.len(),
            stack.as_mut_ptr(),
            stack.len(),
        )
    }
}
