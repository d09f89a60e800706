//! Signals, on Linux for x86-64.

use std::ffi::c_int;
use std::ptr;

const SIGBUS: c_int = 7;
const SIGPIPE: c_int = 13;
const SIGXFSZ: c_int = 25;
const SIG_DFL: usize = 0;
const SIG_IGN: usize = 1;

/// `struct sigaction`, as the C library has it.
#[repr(C)]
struct Action {
    handler: usize,
    mask: [u64; 16],
    flags: c_int,
    restorer: usize,
}

// SAFETY: each is declared as the C library has it on Linux for x86-64.
unsafe extern "C" {
    fn sigaction(signal: c_int, new: *const Action, old: *mut Action) -> c_int;
    fn write(descriptor: c_int, bytes: *const u8, n: usize) -> isize;
    fn _exit(status: c_int) -> !;
}

/// A closed pipe ends the program by SIGPIPE, also where whoever started it ignores that signal. A
/// mapped file that gets shorter while it is read, or that the disk cannot give, ends it with a
/// message and status 3; without that, SIGBUS would end it. Lines that wait then are not written. A
/// file that gets longer than is allowed fails to be written, as on a full disk.
pub fn prepare() {
    set(SIGPIPE, SIG_DFL);
    set(SIGBUS, on_bus as extern "C" fn(c_int) as usize);
    set(SIGXFSZ, SIG_IGN);
}

/// Lets a signal be handled so.
fn set(signal: c_int, handler: usize) {
    let action = Action {
        handler,
        mask: [0; 16],
        flags: 0,
        restorer: 0,
    };
    // SAFETY: the structure is laid out as the C library reads it, and the handler is the default
    // one, none, or `on_bus`, which calls only what a handler may call.
    unsafe { sigaction(signal, &action, ptr::null_mut()) };
}

extern "C" fn on_bus(_signal: c_int) {
    let message = b"embulgri: the input got shorter while it was read, or could not be read\n";
    // SAFETY: both may be called in a handler; the pointer and the length are those of one slice.
    unsafe {
        write(2, message.as_ptr(), message.len());
        _exit(3)
    }
}
