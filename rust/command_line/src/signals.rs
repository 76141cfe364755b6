//! Signals, by the C library's functions on x86-64 Linux.

/// A set of signals: 1,024 bits.
type Set = [u64; 16];

const SIGXFSZ: i32 = 25;
const SIG_IGN: usize = 1;
const SIG_BLOCK: i32 = 0;
const SIG_SETMASK: i32 = 2;

extern "C" {
    fn signal(number: i32, handler: usize) -> usize;
    fn sigfillset(set: *mut Set) -> i32;
    fn sigprocmask(how: i32, set: *const Set, old: *mut Set) -> i32;
}

/// A file that grows past the limit of its size is an error of the write, and no longer the end of the
/// program.
pub fn ignore_file_size() {
    // SAFETY: no handler is called, and the signal has no other use here.
    unsafe { signal(SIGXFSZ, SIG_IGN) };
}

/// All signals are held back while this is there, so that what has been begun is brought to its end.
pub struct Held(Set);

impl Held {
    pub fn new() -> Held {
        let (mut all, mut before) = ([0; 16], [0; 16]);
        // SAFETY: both are sets of this program's one thread.
        unsafe {
            sigfillset(&mut all);
            sigprocmask(SIG_BLOCK, &all, &mut before);
        }
        Held(before)
    }
}

impl Drop for Held {
    fn drop(&mut self) {
        // SAFETY: as above; it was filled by the first call.
        unsafe { sigprocmask(SIG_SETMASK, &self.0, std::ptr::null_mut()) };
    }
}
