//! A value that the compiler knows nothing of, so that it leaves out no work that is to be timed.

use std::arch::asm;

/// The value itself. Whatever it points to counts as read and written: an empty piece of assembly takes its address. It
/// is what `std::hint::black_box` does, which Debian 12's Rust does not have yet.
#[inline]
pub fn black_box<T>(mut value: T) -> T {
    // SAFETY: the assembly is empty, so it touches nothing; the compiler has to assume that it may.
    unsafe { asm!("/* {0} */", in(reg) &mut value, options(nostack, preserves_flags)) };
    value
}
