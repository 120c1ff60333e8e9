//! What a process has from its system. Rust's own start would open closed streams, and its arguments end the process where memory
//! is refused. So a program begins at `main` of C.

use super::alloc::Global;
use super::env::{Env, FillError};
use super::io::{Error, Result, Stream};
use super::process::ExitCode;
use super::random::RandomSource;
use core::ffi::{c_char, c_int, CStr};

/// What a program is passed at its start.
pub struct HostRuntime {
    /// The program's name and its arguments.
    words: &'static [*const c_char],
}

impl HostRuntime {
    pub fn alloc(&self) -> Global {
        Global
    }

    pub fn stdin(&self) -> Stream {
        Stream::INPUT
    }

    pub fn stdout(&self) -> Stream {
        Stream::OUTPUT
    }

    pub fn stderr(&self) -> Stream {
        Stream::ERROR
    }

    /// Returns the name and the arguments, as the system has them.
    pub(super) fn words(&self) -> impl Iterator<Item = &'static [u8]> {
        // SAFETY: by `start` the system passed each of them to `main`.
        let word = |word: &*const c_char| unsafe { CStr::from_ptr(*word) }.to_bytes();
        self.words.iter().map(word)
    }
}

/// The number of the signal that tells that nobody reads what is written.
const SIGPIPE: c_int = 13;
/// Leaves a signal out.
const SIG_IGN: usize = 1;

unsafe extern "C" {
    fn signal(number: c_int, handler: usize) -> usize;
    fn getentropy(bytes: *mut u8, count: usize) -> c_int;
}

/// Runs a program, and returns its status.
///
/// # Safety
///
/// These are what the system passed to `main`.
pub unsafe fn start(
    count: c_int,
    words: *const *const c_char,
    program: fn(HostRuntime) -> ExitCode,
) -> c_int {
    // SAFETY: a signal may be left out at any time. Writing fails then, and the program says what it does about that.
    unsafe { signal(SIGPIPE, SIG_IGN) };
    let words = match usize::try_from(count) {
        // SAFETY: there are so many words, which stay as long as the process.
        Ok(count) if count > 0 => unsafe { core::slice::from_raw_parts(words, count) },
        _ => &[],
    };
    program(HostRuntime { words }).0.into()
}

/// Begins a program at this function.
#[macro_export]
macro_rules! start_at {
    ($program:path) => {
        /// Called by the system.
        #[allow(clippy::not_unsafe_ptr_arg_deref)]
        #[unsafe(no_mangle)]
        pub extern "C" fn main(
            count: core::ffi::c_int,
            words: *const *const core::ffi::c_char,
        ) -> core::ffi::c_int {
            // SAFETY: the system passed them.
            unsafe { $crate::rt::host::start(count, words, $program) }
        }
    };
}

impl Env for HostRuntime {
    fn arg(&self, number: usize, bytes: &mut [u8]) -> core::result::Result<usize, FillError> {
        let word = self.words().nth(number).ok_or(FillError::NotPresent)?;
        let room = bytes.get_mut(..word.len()).ok_or(FillError::TooLong)?;
        room.copy_from_slice(word);
        Ok(word.len())
    }
}

/// The most random bytes of one call of the system.
const MOST_RANDOM: usize = 256;

impl RandomSource for HostRuntime {
    fn fill_bytes(&self, bytes: &mut [u8]) -> Result<()> {
        for part in bytes.chunks_mut(MOST_RANDOM) {
            // SAFETY: so many bytes may be written there.
            if unsafe { getentropy(part.as_mut_ptr(), part.len()) } != 0 {
                return Err(Error::last());
            }
        }
        Ok(())
    }
}
