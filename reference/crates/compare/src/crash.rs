//! Where a signal ends the program inside the library, the index of the body is told before.
use std::cell::Cell;
use std::io::{Cursor, Write};

/// SIGILL, SIGTRAP, SIGBUS, SIGFPE and SIGSEGV on Linux.
const SIGNALS: [i32; 5] = [4, 5, 7, 8, 11];
/// The status that the program ends with.
const STATUS: i32 = 3;

thread_local! {
    static INDEX: Cell<u64> = const { Cell::new(0) };
}

unsafe extern "C" {
    fn signal(number: i32, handler: extern "C" fn(i32)) -> usize;
    fn write(file: i32, bytes: *const u8, count: usize) -> isize;
    fn _exit(status: i32) -> !;
}

/// From here on the signals are told.
pub fn tell() {
    for number in SIGNALS {
        // SAFETY: the handler calls nothing but what a handler may call.
        unsafe { signal(number, handler) };
    }
}

/// The body that this thread is at.
pub fn at(index: u64) {
    INDEX.set(index);
}

extern "C" fn handler(number: i32) {
    let mut text = Cursor::new([0; 80]);
    let _ = writeln!(text, "\nbody {}: the program was ended by the signal {number}", INDEX.get());
    // SAFETY: the bytes are those of the array. Both calls are allowed in a handler.
    unsafe {
        write(2, text.get_ref().as_ptr(), text.position() as usize);
        _exit(STATUS)
    }
}
