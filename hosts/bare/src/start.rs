//! Where the program starts, and how it ends: the only words that it has with Linux.

use core::arch::{asm, global_asm};
use core::panic::PanicInfo;

/// The status of a program that panicked.
const PANICKED: u8 = 99;

// Linux starts a program with a stack that is aligned, and with no return address.
#[cfg(target_arch = "x86_64")]
global_asm!(".globl _start", "_start:", "xor ebp, ebp", "call {run}", run = sym run);
#[cfg(target_arch = "aarch64")]
global_asm!(".globl _start", "_start:", "mov x29, 0", "bl {run}", run = sym run);

extern "C" fn run() -> ! {
    end(crate::status())
}

#[cfg(target_arch = "x86_64")]
fn end(status: u8) -> ! {
    // SAFETY: the call `exit_group` (231) does not return.
    unsafe { asm!("syscall", in("rax") 231, in("rdi") u64::from(status), options(noreturn)) }
}

#[cfg(target_arch = "aarch64")]
fn end(status: u8) -> ! {
    // SAFETY: the call `exit_group` (94) does not return.
    unsafe { asm!("svc 0", in("x8") 94, in("x0") u64::from(status), options(noreturn)) }
}

#[panic_handler]
fn panicked(_: &PanicInfo) -> ! {
    end(PANICKED)
}
