//! What a panic does: it ends the process. The proof is that there is none (no index out of range, no sum that wraps, no `unwrap` of nothing), so
//! nothing is printed, which would take the formatting of numbers and texts into each program.

use core::panic::PanicInfo;

#[panic_handler]
fn stop(_: &PanicInfo<'_>) -> ! {
    trap()
}

/// The processor's instruction that ends a process.
#[cfg(target_arch = "x86_64")]
fn trap() -> ! {
    // SAFETY: the instruction does nothing else.
    unsafe { core::arch::asm!("ud2", options(noreturn, nomem, nostack)) }
}

/// The processor's instruction that ends a process.
#[cfg(target_arch = "aarch64")]
fn trap() -> ! {
    // SAFETY: the instruction does nothing else.
    unsafe { core::arch::asm!("brk #1", options(noreturn, nomem, nostack)) }
}

/// The C library's end of a process.
#[cfg(not(any(target_arch = "x86_64", target_arch = "aarch64")))]
fn trap() -> ! {
    unsafe extern "C" {
        fn abort() -> !;
    }
    // SAFETY: it may be called anywhere.
    unsafe { abort() }
}
