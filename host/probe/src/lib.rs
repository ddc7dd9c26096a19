//! The proved library called through the C convention: the list checks of a sheet
//! and the id table here, steps and the product's own entries in modules.
//!
//! The raw declarations stay in private modules; the functions here take
//! slices, which are never null, and give typed answers. Nothing checks the
//! declarations against the library's source, so they are few and on numbers.
//!
//! `rules` is the number of the rules, of any value: those that are not known are
//! refused.

pub mod blocks;
pub mod capi;
pub mod entries;
pub mod ports;
pub mod report;
pub mod sheets;

mod raw {
    //! A slice passes as a pointer and then a length in numbers.

    unsafe extern "C" {
        pub fn probe_sheet_refusal(
            rules: i64,
            components: *const i64,
            components_len: usize,
            connections: *const i64,
            connections_len: usize,
            frontiers: *const i64,
            frontiers_len: usize,
        ) -> u64;

        pub fn probe_place_of(components: *const i64, components_len: usize, id: u64) -> u64;

        pub fn probe_place_of_member(components: *const i64, components_len: usize, k: u64) -> u64;
    }
}

/// A refusal: its number, the list it concerns and the item in that list.
#[derive(Clone, Copy, Debug, Eq, PartialEq)]
pub struct Refusal {
    pub number: u64,
    pub list: u64,
    pub item: u64,
}

/// Number, list and item, lowest first.
const fn refusal(answer: u64) -> Refusal {
    Refusal {
        number: answer % 256,
        list: answer / 256 % 256,
        item: answer / 65_536,
    }
}

/// A refusal alone; 0 is acceptance.
fn refused(answer: u64) -> Option<Refusal> {
    (answer != 0).then(|| refusal(answer))
}

/// The refusal of an entry's answer; none where it accepted.
#[must_use]
pub fn refusal_of(answer: u64) -> Option<Refusal> {
    unpack(answer).err()
}

/// An answer: what stands above the lowest sixteen bits where those are 0,
/// else a refusal.
const fn unpack(answer: u64) -> Result<u64, Refusal> {
    if answer.is_multiple_of(65_536) {
        Ok(answer / 65_536)
    } else {
        Err(refusal(answer))
    }
}

/// A place comes back one higher; 0 is none.
const fn place(answer: u64) -> Option<u64> {
    answer.checked_sub(1)
}

/// The list checks of a sheet, 11 and 3 to 6, on whole lists within their limits.
#[must_use]
pub fn sheet_lists(
    rules: i64,
    components: &[i64],
    connections: &[i64],
    frontiers: &[i64],
) -> Option<Refusal> {
    // SAFETY: the pointers are to whole slices of the lengths beside them,
    // which the callee only reads.
    refused(unsafe {
        raw::probe_sheet_refusal(
            rules,
            components.as_ptr(),
            components.len(),
            connections.as_ptr(),
            connections.len(),
            frontiers.as_ptr(),
            frontiers.len(),
        )
    })
}

/// The list place of the component with an id, where the components are
/// acceptable by themselves and one has it.
#[must_use]
pub fn place_of(components: &[i64], id: u64) -> Option<u64> {
    // SAFETY: the pointer is to a whole slice of the length beside it, which
    // the callee only reads.
    place(unsafe { raw::probe_place_of(components.as_ptr(), components.len(), id) })
}

/// The list place of the component with the k-th smallest id, k from 0, where
/// the components are acceptable by themselves and there are more than k.
#[must_use]
pub fn place_of_member(components: &[i64], k: u64) -> Option<u64> {
    // SAFETY: as for `place_of`.
    place(unsafe { raw::probe_place_of_member(components.as_ptr(), components.len(), k) })
}
