//! What a run has not finished goes if a signal ends it, as `sort` does it. The handler asks for no memory, and makes calls of the
//! system alone, as a handler may.
//!
//! Rattle's std has no signals, so the proved build cannot do this. It cannot write files that get a name once they are whole, either:
//! it opens none without a name, and a file that lost its name gets no other by `link`. Copies would take twice the time, and have
//! names while they are written.

use super::fs::{self, MetadataExt as _};
use super::io::Result;
use crate::dictcol::unfinished::NAME as UNFINISHED;
use core::cell::UnsafeCell;
use core::ffi::c_int;
use core::ptr::null;
use core::str::from_utf8;
use core::sync::atomic::{AtomicBool, AtomicI32, AtomicU64, AtomicUsize, Ordering::SeqCst};

/// The numbers of SIGHUP, SIGINT and SIGTERM.
const ENDING: [c_int; 3] = [1, 2, 15];
/// What a signal does if nobody says otherwise, and leaving it out.
const SIG_DFL: usize = 0;
const SIG_IGN: usize = 1;
/// At least as long as what Linux tells of a signal, which begins with what it does.
type SigAction = [usize; 32];

unsafe extern "C" {
    fn signal(number: c_int, handler: usize) -> usize;
    fn sigaction(number: c_int, new: *const SigAction, old: *mut SigAction) -> c_int;
    fn raise(number: c_int) -> c_int;
}

/// The folders that a run made, each in the one before.
struct Made {
    /// The path of the last one.
    path: UnsafeCell<[u8; fs::LONGEST_PATH]>,
    /// The lengths of its path and of that of the first one, or 0 if there is none.
    last: AtomicUsize,
    first: AtomicUsize,
    /// The numbers of the last one: another run may have made one of its name since.
    device: AtomicU64,
    number: AtomicU64,
    /// Whether signals wait: while a folder is made, and while files get their places.
    is_deferring: AtomicBool,
    /// The signal that waits, or 0.
    waiting: AtomicI32,
}

// SAFETY: the process has one thread. Its handler reads the path only while `last` is not 0, and it is written only while it is.
unsafe impl Sync for Made {}

static MADE: Made = Made {
    path: UnsafeCell::new([0; fs::LONGEST_PATH]),
    last: AtomicUsize::new(0),
    first: AtomicUsize::new(0),
    device: AtomicU64::new(0),
    number: AtomicU64::new(0),
    is_deferring: AtomicBool::new(false),
    waiting: AtomicI32::new(0),
};

impl Made {
    /// Returns the path of the last folder, which is empty if there is none.
    fn path(&self) -> &str {
        // SAFETY: nobody writes it while `last` is not 0.
        let path = unsafe { &*self.path.get() };
        from_utf8(&path[..self.last.load(SeqCst)]).unwrap_or_default()
    }

    /// Returns whether the last folder is still there.
    fn is_there(&self) -> bool {
        fs::look(self.path()).is_ok_and(|it| {
            it.dev() == self.device.load(SeqCst) && it.ino() == self.number.load(SeqCst)
        })
    }

    /// Removes the folders, as far as they have nothing that is finished.
    fn remove(&self) {
        let path = self.path();
        if path.ends_with(UNFINISHED) && self.is_there() {
            let _ = fs::remove_all(path);
        }
        for end in (self.first.load(SeqCst).max(1)..=path.len()).rev() {
            if end == path.len() || path.as_bytes()[end] == b'/' {
                let _ = fs::remove_empty(&path[..end]);
            }
        }
    }
}

/// Ends the process as the signal would without a handler.
fn end_by(number: c_int) {
    // SAFETY: both may be called at any time.
    unsafe {
        signal(number, SIG_DFL);
        raise(number);
    }
}

extern "C" fn handle(number: c_int) {
    if MADE.is_deferring.load(SeqCst) {
        MADE.waiting.store(number, SeqCst);
        return;
    }
    MADE.remove();
    end_by(number);
}

/// Ends the process if a signal waits, and lets none wait any more.
fn go_on() {
    MADE.is_deferring.store(false, SeqCst);
    let number = MADE.waiting.swap(0, SeqCst);
    if number != 0 {
        handle(number);
    }
}

/// Takes signals from now on, but for those that are left out, as by `nohup`.
fn take_signals() {
    for number in ENDING {
        let mut told = [SIG_IGN; 32];
        // SAFETY: it sets nothing, and there is room for what it tells. The handler does nothing that one may not do.
        unsafe {
            sigaction(number, null(), &mut told);
            if told[0] != SIG_IGN {
                signal(number, handle as *const () as usize);
            }
        }
    }
}

/// Notes a folder that lies in those that were made before.
fn note(path: &str) {
    let before = MADE.last.swap(0, SeqCst);
    if let Ok(metadata) = fs::look(path) {
        MADE.device.store(metadata.dev(), SeqCst);
        MADE.number.store(metadata.ino(), SeqCst);
    }
    // SAFETY: `last` is 0, so nobody reads it. A path that the system took is shorter than the longest one.
    unsafe { (&mut *MADE.path.get())[..path.len()].copy_from_slice(path.as_bytes()) };
    if before == 0 {
        MADE.first.store(path.len(), SeqCst);
    }
    MADE.last.store(path.len(), SeqCst);
}

/// Makes a folder by a call, and notes that.
pub fn make(path: &str, call: impl FnOnce() -> Result<()>) -> Result<()> {
    MADE.is_deferring.store(true, SeqCst);
    take_signals();
    let outcome = call();
    if outcome.is_ok() {
        note(path);
    }
    go_on();
    outcome
}

/// Notes that a file or folder is about to get another name.
pub fn note_renaming(from: &str, to: &str) {
    let made = MADE.path();
    let is_below = |path: &str| {
        path.strip_prefix(made)
            .is_some_and(|it| it.starts_with('/'))
    };
    if !made.is_empty() && (is_below(from) || is_below(to)) {
        MADE.is_deferring.store(true, SeqCst);
    }
}

/// Notes that a folder is not there any more, or has another name.
pub fn note_gone(path: &str) {
    if path == MADE.path() {
        MADE.last.store(0, SeqCst);
        go_on();
    }
}
