//! The calls of the C interface on lent slices: nothing is allocated, and slices of any length may be lent.
//!
//! Each function is safe, since Rust asks of every slice and every `&mut` what the header asks of C: it is valid, aligned and
//! initialised, and what is written overlaps nothing else. The layouts of the words, and the questions of each call, stand in
//! `include/recovery_line.h`. Each panics if the archive that is linked has another version than these declarations: what is said
//! here would not hold of it.

#![allow(unsafe_code, clippy::too_many_arguments)]

use crate::refusal::Refusal;
use crate::sys::{self, Counter};

macro_rules! lend {
    (($(#[$doc:meta])* $name:ident = $symbol:ident ($($lent:tt)*)) $declared:tt ($($handed:tt)*)) => {
        $(#[$doc])*
        pub fn $name($($lent)*) -> Result<(), Refusal> {
            ask_version();
            // SAFETY: as the module says.
            Refusal::from_answer(unsafe { sys::$symbol($($handed)*) })
        }
    };
}
interface!(lend);

/// The version of the archive that is linked: every call asks that it is [`sys::RECOVERY_LINE_VERSION`].
#[must_use]
pub fn version() -> u32 {
    // SAFETY: it takes nothing, and returns a constant.
    unsafe { sys::recovery_line_version() }
}

/// Asked each time, and not once: that costs the call of a function that returns a constant, and nothing is kept.
fn ask_version() {
    if version() != sys::RECOVERY_LINE_VERSION {
        another_version();
    }
}

#[cold]
fn another_version() -> ! {
    panic!(
        "librecovery_line.a has version {} of its interface, and this crate is written for version {}: link the archive \
         that `tools/archive` makes of the same sources",
        version(),
        sys::RECOVERY_LINE_VERSION
    )
}
