//! Threads that intern, find and read texts in one interner, and compare what they read. A race detector watches ("Rust, threads that
//! share an interner" of `clients/check`). The threads are the system's, because it does not see how Rust's hand a value over.

use std::ffi::c_void;
use std::ptr;

use string_interner::sync::Interner;
use string_interner::{DefaultSymbol, Symbol};

const THREADS: usize = 8;
const CALLS: usize = 6_000;

type Body = extern "C" fn(*mut c_void) -> *mut c_void;

extern "C" {
    fn pthread_create(
        id: *mut usize,
        attributes: *const c_void,
        body: Body,
        argument: *mut c_void,
    ) -> i32;
    fn pthread_join(id: usize, returned: *mut *mut c_void) -> i32;
}

struct Task<'a> {
    names: &'a Interner,
    step: usize,
}

fn spell(number: usize) -> String {
    match number {
        // Too long for an entry of the table.
        0 => "long ".repeat(14_000),
        number if number % 50 == 0 => "long ".repeat(number),
        number => format!("text {number}"),
    }
}

/// Reads texts of which this thread was not told.
fn read_what_others_intern(names: &Interner, number: usize) {
    let last = DefaultSymbol::try_from_usize(names.len() - 1).unwrap();
    assert!(names.resolve(last).is_some());
    let symbol = DefaultSymbol::try_from_usize(number).unwrap();
    if let Some(text) = names.resolve(symbol) {
        assert_eq!(names.get(text), Some(symbol));
    }
    if let Some(symbol) = names.get(spell(number)) {
        assert_eq!(names.resolve(symbol), Some(&*spell(number)));
    }
    if number % 500 == 0 {
        assert!(names.iter().all(|(_, text)| text.contains(' ')));
    }
}

/// Interns many texts at once, which other threads do in another order.
fn intern_many(task: &Task) {
    let mut texts: Vec<String> = (1_000..2_400).map(spell).collect();
    texts.rotate_left(40 * task.step);
    for some in texts.chunks(700) {
        let symbols = task.names.intern_all(some);
        assert!(symbols.iter().map(|symbol| &task.names[*symbol]).eq(some));
    }
}

fn run(task: &Task) {
    intern_many(task);
    let mut kept = Vec::new();
    for number in (0..CALLS).map(|number| number * task.step % (CALLS / 2)) {
        let symbol = task.names.get_or_intern(spell(number));
        kept.push((number, task.names.resolve(symbol).unwrap()));
        let (other, text) = kept[number % kept.len()];
        assert_eq!(text, spell(other));
        assert!(task.names.contains(text));
        read_what_others_intern(task.names, number);
    }
    assert!(kept.iter().all(|(number, text)| *text == spell(*number)));
}

extern "C" fn body(argument: *mut c_void) -> *mut c_void {
    // SAFETY: `main` passes a task, and waits for this thread.
    run(unsafe { &*argument.cast::<Task>() });
    ptr::null_mut()
}

fn main() {
    let names = &Interner::new();
    // Draws the keys of hash codes, which are in a cell of std's.
    assert!(!names.contains("no text"));
    let mut tasks = [1, 7, 11, 13, 17, 19, 23, 29].map(|step| Task { names, step });
    let mut ids = [0; THREADS];
    for (id, task) in ids.iter_mut().zip(&mut tasks) {
        // SAFETY: the task outlives the thread, for which the next loop waits.
        let status = unsafe { pthread_create(id, ptr::null(), body, ptr::from_mut(task).cast()) };
        assert_eq!(status, 0);
    }
    for id in ids {
        // SAFETY: the thread was made above.
        assert_eq!(unsafe { pthread_join(id, ptr::null_mut()) }, 0);
    }
    assert_eq!(names.len(), CALLS / 2);
    assert_eq!(names.iter().count(), CALLS / 2);
}
