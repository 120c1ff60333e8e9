//! A lock with the names of std's, made of atomics alone. A race detector sees these, and not what std's waits in, which is compiled
//! without it. If NO_LOCK is set, the lock locks nothing.

#![allow(unsafe_code)]

use std::cell::UnsafeCell;
use std::env;
use std::ops::{Deref, DerefMut};
use std::sync::atomic::{AtomicBool, AtomicU8, Ordering};
pub use std::sync::PoisonError;
use std::thread;

pub struct Mutex<T> {
    is_locked: AtomicBool,
    value: UnsafeCell<T>,
}

// SAFETY: as of std's lock.
unsafe impl<T: Send> Sync for Mutex<T> {}
impl<T> std::panic::RefUnwindSafe for Mutex<T> {}

pub struct MutexGuard<'a, T>(&'a Mutex<T>);

/// Reports whether locks lock: asks for the variable once.
fn locks() -> bool {
    const UNKNOWN: u8 = 2;
    static LOCKS: AtomicU8 = AtomicU8::new(UNKNOWN);
    match LOCKS.load(Ordering::Relaxed) {
        UNKNOWN => {
            let locks = env::var_os("NO_LOCK").is_none();
            LOCKS.store(locks.into(), Ordering::Relaxed);
            locks
        }
        known => known == 1,
    }
}

impl<T> Mutex<T> {
    pub const fn new(value: T) -> Self {
        Mutex {
            is_locked: AtomicBool::new(false),
            value: UnsafeCell::new(value),
        }
    }

    pub fn lock(&self) -> Result<MutexGuard<'_, T>, PoisonError<MutexGuard<'_, T>>> {
        while locks() && self.is_locked.swap(true, Ordering::Acquire) {
            thread::yield_now();
        }
        Ok(MutexGuard(self))
    }

    pub fn get_mut(&mut self) -> Result<&mut T, PoisonError<&mut T>> {
        Ok(self.value.get_mut())
    }
}

impl<T> Deref for MutexGuard<'_, T> {
    type Target = T;

    fn deref(&self) -> &T {
        // SAFETY: this guard holds the lock.
        unsafe { &*self.0.value.get() }
    }
}

impl<T> DerefMut for MutexGuard<'_, T> {
    fn deref_mut(&mut self) -> &mut T {
        // SAFETY: this guard holds the lock, and no other one does.
        unsafe { &mut *self.0.value.get() }
    }
}

impl<T> Drop for MutexGuard<'_, T> {
    fn drop(&mut self) {
        self.0.is_locked.store(false, Ordering::Release);
    }
}
