//! The call of the slow region finder with dirty slices of any length.

use dustroute::Rules;
use scenes::Scene;
use scenes::limits::COMPONENT;

mod raw {
    unsafe extern "C" {
        pub fn dustroute_reach_table(
            rules: i64,
            components: *const i64,
            components_len: usize,
            ports: *const i64,
            ports_len: usize,
            frontiers: *const i64,
            frontiers_len: usize,
            square: *mut u8,
            square_len: usize,
            regions: *mut u64,
            regions_len: usize,
            stack: *mut usize,
            stack_len: usize,
        ) -> u64;
    }
}

/// Nothing depends on them.
pub const RULES: Rules = Rules::Two;

/// What an accepted call must leave alone.
const DIRT: u8 = 0xa5;
const DIRTY: u64 = u64::from_ne_bytes([DIRT; 8]);

/// The slices of a call, of so many places each, with a place before and after
/// which is not lent.
#[derive(Clone, Eq, PartialEq)]
pub struct Slices {
    pub square: Vec<u8>,
    pub regions: Vec<u64>,
    pub stack: Vec<usize>,
}

impl Slices {
    pub fn dirty([square, regions, stack]: [usize; 3]) -> Self {
        Self {
            square: vec![DIRT; square + 2],
            regions: vec![DIRTY; regions + 2],
            stack: vec![DIRTY as usize; stack + 2],
        }
    }

    pub fn lent<T>(slice: &mut [T]) -> &mut [T] {
        let end = slice.len() - 1;
        &mut slice[1..end]
    }

    pub fn call(&mut self, scene: &Scene) -> u64 {
        let square = Self::lent(&mut self.square);
        let regions = Self::lent(&mut self.regions);
        let stack = Self::lent(&mut self.stack);
        // SAFETY: each pointer is to a slice of the length beside it, and the
        // borrows keep those that are written apart.
        unsafe {
            raw::dustroute_reach_table(
                RULES.number(),
                scene.components.as_ptr(),
                scene.components.len(),
                scene.ports.as_ptr(),
                scene.ports.len(),
                scene.frontiers.as_ptr(),
                scene.frontiers.len(),
                square.as_mut_ptr(),
                square.len(),
                regions.as_mut_ptr(),
                regions.len(),
                stack.as_mut_ptr(),
                stack.len(),
            )
        }
    }
}

/// How many places each slice must have.
pub fn enough(scene: &Scene) -> [usize; 3] {
    let side = scene.components.len() / COMPONENT;
    [side * side, side, 2 * side]
}
