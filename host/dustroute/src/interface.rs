//! The number of the interface between this crate and the archive.

mod raw {
    unsafe extern "C" {
        pub safe fn dustroute_interface_2() -> u64;
    }
}

/// The number of the library's interface that this crate is written for. It is
/// raised when arguments, sizes or meanings change. An archive of another number
/// has not the function that tells it, so that a stale one fails where it is
/// linked, and not in a class room.
pub const INTERFACE: u64 = 2;

/// Keeps the function among what is linked, whatever a program calls.
#[used]
static LINKED: extern "C" fn() -> u64 = raw::dustroute_interface_2;

/// The number of the interface that the linked archive has: [`INTERFACE`].
///
/// ```
/// assert_eq!(dustroute::interface(), dustroute::INTERFACE);
/// ```
#[must_use]
pub fn interface() -> u64 {
    raw::dustroute_interface_2()
}
