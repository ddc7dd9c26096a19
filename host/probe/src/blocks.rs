//! The entries of ports of blocks, reasons and the input query over numbers as C calls
//! them. Answers stay packed.

use crate::entries::{Lists, Port};

mod raw {
    //! As in `include/dustroute_blocks.h`; linked by the crate `dustroute`.

    unsafe extern "C" {
        pub fn dustroute_reasons(
            rules: i64,
            components: *const i64,
            components_len: usize,
            connections: *const i64,
            connections_len: usize,
            reasons: *mut u64,
            reasons_len: usize,
        ) -> u64;

        pub fn dustroute_block_ports(
            rules: i64,
            kind: i64,
            facing: i64,
            support: i64,
            conducts: i64,
            ports: *mut u64,
            ports_len: usize,
        ) -> u64;

        pub fn dustroute_input(
            rules: i64,
            components: *const i64,
            components_len: usize,
            ports: *const i64,
            ports_len: usize,
            frontiers: *const i64,
            frontiers_len: usize,
            id: u64,
            port: u64,
            immediate: *mut u64,
            immediate_len: usize,
            inferred: *mut u64,
            inferred_len: usize,
            stack: *mut usize,
            stack_len: usize,
        ) -> u64;
    }
}

/// Why connections are left out, a number to each.
pub fn reasons(rules: i64, components: &[i64], connections: &[i64], reasons: &mut [u64]) -> u64 {
    // SAFETY: each pointer is to a whole slice of the length beside it. The
    // callee only reads the lists, and the borrow keeps the other apart.
    unsafe {
        raw::dustroute_reasons(
            rules,
            components.as_ptr(),
            components.len(),
            connections.as_ptr(),
            connections.len(),
            reasons.as_mut_ptr(),
            reasons.len(),
        )
    }
}

/// A component's codes for kind, facing, support and conducts; any numbers.
pub type Block = [i64; 4];

/// The ports of a block, three numbers to each.
pub fn block_ports(rules: i64, [kind, facing, support, conducts]: Block, ports: &mut [u64]) -> u64 {
    // SAFETY: the pointer is to a whole slice of the length beside it.
    unsafe {
        raw::dustroute_block_ports(
            rules,
            kind,
            facing,
            support,
            conducts,
            ports.as_mut_ptr(),
            ports.len(),
        )
    }
}

/// What feeds an input, and the inferred inputs among that and upstream of it.
pub fn input(
    lists: Lists<'_>,
    [id, port]: Port,
    [immediate, inferred]: [&mut [u64]; 2],
    stack: &mut [usize],
) -> u64 {
    // SAFETY: as for `reasons`.
    unsafe {
        raw::dustroute_input(
            lists.rules,
            lists.components.as_ptr(),
            lists.components.len(),
            lists.ports.as_ptr(),
            lists.ports.len(),
            lists.frontiers.as_ptr(),
            lists.frontiers.len(),
            id,
            port,
            immediate.as_mut_ptr(),
            immediate.len(),
            inferred.as_mut_ptr(),
            inferred.len(),
            stack.as_mut_ptr(),
            stack.len(),
        )
    }
}
