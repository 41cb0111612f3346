//! What compiled code calls by itself, the proved library's too, and what a program without a C
//! library must bring along: the library needs memcpy, memmove and memset, and nothing else.
//!
//! Writes are volatile, since the compiler would make a call of the same function of a plain loop.

/// Copies `count` bytes, the first one first.
#[no_mangle]
unsafe extern "C" fn memcpy(to: *mut u8, from: *const u8, count: usize) -> *mut u8 {
    for at in 0..count {
        to.add(at).write_volatile(from.add(at).read());
    }
    to
}

/// Copies `count` bytes that may overlap, from whichever end loses none.
#[no_mangle]
unsafe extern "C" fn memmove(to: *mut u8, from: *const u8, count: usize) -> *mut u8 {
    if to.cast_const() <= from {
        return memcpy(to, from, count);
    }
    for at in (0..count).rev() {
        to.add(at).write_volatile(from.add(at).read());
    }
    to
}

/// Fills `count` bytes.
#[no_mangle]
unsafe extern "C" fn memset(to: *mut u8, byte: i32, count: usize) -> *mut u8 {
    for at in 0..count {
        to.add(at).write_volatile(byte as u8);
    }
    to
}

/// The core library that comes for Linux names this, for unwinding; nothing here unwinds, and that
/// of a bare machine does not name it.
#[no_mangle]
extern "C" fn rust_eh_personality() {}
