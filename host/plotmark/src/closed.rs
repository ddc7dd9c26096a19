//! Whether standard input and output were there when the program began. Before `main`
//! Rust opens /dev/null in place of one that is closed, so that what is written to it
//! would be lost without a word.

use std::sync::atomic::{AtomicBool, Ordering};

const INPUT: i32 = 0;
const OUTPUT: i32 = 1;

/// Asks for a descriptor's flags, which fails only where it is not open.
const GET_FLAGS: i32 = 1;

static NO_INPUT: AtomicBool = AtomicBool::new(false);
static NO_OUTPUT: AtomicBool = AtomicBool::new(false);

unsafe extern "C" {
    fn fcntl(descriptor: i32, command: i32, ...) -> i32;
}

/// Is called before `main`, and before what Rust does before it.
#[used]
#[unsafe(link_section = ".init_array")]
static LOOK: extern "C" fn() = look;

extern "C" fn look() {
    // SAFETY: the call takes any descriptor, open or not, and changes nothing.
    let is_closed = |descriptor| unsafe { fcntl(descriptor, GET_FLAGS) } == -1;
    NO_INPUT.store(is_closed(INPUT), Ordering::Relaxed);
    NO_OUTPUT.store(is_closed(OUTPUT), Ordering::Relaxed);
}

/// Whether standard input was closed.
pub fn input() -> bool {
    NO_INPUT.load(Ordering::Relaxed)
}

/// Whether standard output was closed.
pub fn output() -> bool {
    NO_OUTPUT.load(Ordering::Relaxed)
}
