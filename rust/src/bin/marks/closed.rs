//! Whether standard input and output were closed when the program was started, as by `>&-`. Rust's runtime opens /dev/null in their place
//! before `main`, where writing would succeed and nobody would ever read it; so this looks before the runtime does. It is the one unsafe
//! place of the program.
#![allow(unsafe_code)]

use std::{
    ffi::c_int,
    sync::atomic::{AtomicBool, Ordering},
};

static INPUT: AtomicBool = AtomicBool::new(false);
static OUTPUT: AtomicBool = AtomicBool::new(false);

pub fn input_was_closed() -> bool {
    INPUT.load(Ordering::Relaxed)
}

pub fn output_was_closed() -> bool {
    OUTPUT.load(Ordering::Relaxed)
}

extern "C" {
    fn fcntl(descriptor: c_int, command: c_int, ...) -> c_int;
}

/// The command of `fcntl` that asks for a descriptor's flags, and fails exactly where the descriptor is not open.
const F_GETFD: c_int = 1;

extern "C" fn look() {
    // SAFETY: F_GETFD takes no further argument and changes nothing, whether the descriptor is open or not.
    let is_closed = |descriptor| unsafe { fcntl(descriptor, F_GETFD) } == -1;
    INPUT.store(is_closed(0), Ordering::Relaxed);
    OUTPUT.store(is_closed(1), Ordering::Relaxed);
}

// SAFETY: the C library calls each function of this section once, before `main`, and `look` needs nothing that the runtime sets up: it
// calls `fcntl` and stores to two statics. The arguments that the library hands over are left unread, as C's way of calling allows.
#[used]
#[link_section = ".init_array"]
static LOOK: extern "C" fn() = look;
