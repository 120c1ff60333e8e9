//! The library's half, which is linked in.

use crate::phases::{Budget, Inputs, Results, Row, MOST_ROUNDS, NO_TIMES};

extern "C" {
    fn ours_run(
        kind: u32,
        rounds: u32,
        budget: u64,
        new: *const u8,
        new_count: usize,
        known: *const u8,
        known_count: usize,
        unknown: *const u8,
        unknown_count: usize,
        nanoseconds: *mut u64,
        nanoseconds_count: usize,
        sums: *mut u64,
        sums_count: usize,
    ) -> u32;
}

/// Makes rounds on one kind of interner, or leaves one that is filled.
pub fn measure(kind: u32, inputs: &Inputs, budget: Budget) -> Results {
    let Inputs {
        new,
        known,
        unknown,
    } = inputs;
    let mut sums = Row::default();
    let mut rounds = match budget.rounds {
        0 => Vec::new(),
        _ => vec![NO_TIMES; MOST_ROUNDS as usize],
    };
    // SAFETY: each pointer and count is of a slice that is there for the time of the call, and the last two of slices
    // that nothing else names.
    let status = unsafe {
        ours_run(
            kind,
            budget.rounds,
            budget.nanoseconds,
            new.as_ptr(),
            new.len(),
            known.as_ptr(),
            known.len(),
            unknown.as_ptr(),
            unknown.len(),
            rounds.as_mut_ptr().cast(),
            rounds.len() * sums.len(),
            sums.as_mut_ptr(),
            sums.len(),
        )
    };
    assert_eq!(status, 0, "the library's half says {status} of kind {kind}");
    rounds.retain(|round| *round != NO_TIMES);
    Results { rounds, sums }
}
