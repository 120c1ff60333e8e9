//! The standard streams of the process.

use crate::rt::prelude::*; use crate::rt::fs::{File, OpenOptions};
use crate::rt::os::fd::{AsRawFd, IntoRawFd, RawFd};

/// The descriptors of the standard streams.
const INPUT: RawFd = 0;

const ERROR: RawFd = 2;

/// Opens a file that has nothing, and leaves it open if it gets the number of a standard stream.
fn take_number(rt: &HostRuntime, how: &OpenOptions, greatest: RawFd) {
    // Without that file the numbers stay free.
    let Ok(file) = how.open(rt, "/dev/null") else {
        return;
    };
    if file.as_raw_fd() <= greatest {
        let _ = file.into_raw_fd();
    }
}

/// Takes the numbers of standard streams that are closed, since the system gives them to the next files that are opened, and
/// messages would go into these. Each is opened the other way round, so that reading and writing it fails as before.
pub fn take_closed(rt: &HostRuntime) {
    let (mut reading, mut writing) = (File::options(), File::options());
    reading.read(true);
    writing.write(true);
    take_number(rt, &writing, INPUT);
    take_number(rt, &reading, ERROR);
    take_number(rt, &reading, ERROR);
}
