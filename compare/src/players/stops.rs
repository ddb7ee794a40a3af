//! Says which list the library was at where it is stopped, by the processor at
//! an unmapped page for one: the program can't go on from there.

use std::ffi::{c_int, c_void};
use std::ptr;
use std::sync::atomic::{AtomicPtr, AtomicUsize, Ordering};

/// The signals of a processor that was asked for what it can't do, and of a
/// program that gives up.
const SIGILL: c_int = 4;
const SIGABRT: c_int = 6;
const SIGBUS: c_int = 7;
const SIGFPE: c_int = 8;
const SIGSEGV: c_int = 11;

unsafe extern "C" {
    fn signal(number: c_int, handler: extern "C" fn(c_int)) -> usize;
    fn write(file: c_int, bytes: *const c_void, length: usize) -> isize;
    fn _exit(status: c_int) -> !;
}

/// The name of the list that the library is at.
static NAME: AtomicPtr<u8> = AtomicPtr::new(ptr::null_mut());
static LENGTH: AtomicUsize = AtomicUsize::new(0);

/// Has a stop told from here on.
pub fn tell() {
    for number in [SIGILL, SIGABRT, SIGBUS, SIGFPE, SIGSEGV] {
        // SAFETY: the handler only calls what may be called by one, and reads
        // a name that is there as long as the call that is stopped.
        unsafe { signal(number, stopped) };
    }
}

/// Calls the library, at the list of this name.
pub fn at<T>(name: &str, call: impl FnOnce() -> T) -> T {
    NAME.store(name.as_ptr().cast_mut(), Ordering::SeqCst);
    LENGTH.store(name.len(), Ordering::SeqCst);
    let answer = call();
    LENGTH.store(0, Ordering::SeqCst);
    answer
}

extern "C" fn stopped(_: c_int) {
    say(b"stopped, at ");
    let length = LENGTH.load(Ordering::SeqCst);
    if length == 0 {
        say(b"no list");
    } else {
        // SAFETY: `at` has stored where a name of this length begins, and has
        // not come back.
        say(unsafe { std::slice::from_raw_parts(NAME.load(Ordering::SeqCst), length) });
    }
    say(b"\n");
    // SAFETY: it ends the program and nothing else.
    unsafe { _exit(1) }
}

fn say(bytes: &[u8]) {
    // SAFETY: it reads these bytes and nothing else.
    unsafe { write(2, bytes.as_ptr().cast(), bytes.len()) };
}
