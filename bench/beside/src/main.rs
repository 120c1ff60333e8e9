//! Measures one kind of interner in a process of its own, whose heap has nothing but the inputs:
//!
//!     beside kinds                        the names of all kinds
//!     beside KIND FILE ROUNDS SECONDS     so many rounds, and more until the time is over: the check sums of the last round,
//!                                         and then the nanoseconds of each, a line each and a number for each phase
//!     beside KIND FILE                    fills an interner and ends with it, so that the counter, where it is loaded, tells
//!                                         what it holds (.ci/failures.c)
//!
//! FILE has distinct texts, the same in another order, and as many others, with an empty line between. Each is a line.

mod by_c;
mod interner;
mod kind;
mod ours;
mod phases;

use phases::{Budget, Inputs, Results};

type Fault = Box<dyn std::error::Error>;

/// Has the counter of memory count from here on, where it is loaded.
fn reset_counter() {
    // SAFETY: the name ends with a zero, and in `failures.c` the function of this name has this type.
    unsafe {
        let reset = libc::dlsym(libc::RTLD_DEFAULT, c"reset_bytes".as_ptr());
        if !reset.is_null() {
            std::mem::transmute::<*mut libc::c_void, extern "C" fn()>(reset)();
        }
    }
}

/// The results of a kind over the texts of a file.
fn measured(name: &str, file: &str, budget: Budget) -> Result<Results, Fault> {
    // Both stay until the process ends, so that nothing which is counted is given back.
    let kind = kind::all().leak().iter().find(|it| it.name == name);
    let text = std::fs::read_to_string(file)?.leak();
    let mut parts = text.splitn(3, "\n\n");
    let mut next = || parts.next().ok_or("a file has three parts");
    let inputs = Inputs {
        new: next()?,
        known: next()?,
        unknown: next()?,
    };
    reset_counter();
    Ok((kind.ok_or("no such kind")?.measure)(&inputs, budget))
}

fn run(arguments: &[&str]) -> Result<(), Fault> {
    match arguments {
        ["kinds"] => kind::all().iter().for_each(|it| println!("{}", it.name)),
        [kind, file] => {
            measured(kind, file, Budget::default())?;
            std::process::exit(0);
        }
        [kind, file, rounds, seconds] => {
            let budget = Budget {
                rounds: rounds.parse()?,
                nanoseconds: (seconds.parse::<f64>()? * 1e9) as u64,
            };
            let Results { sums, rounds } = measured(kind, file, budget)?;
            for row in std::iter::once(&sums).chain(&rounds) {
                println!("{}", row.map(|number| number.to_string()).join("\t"));
            }
        }
        _ => return Err("the comment at the front of main.rs says how".into()),
    }
    Ok(())
}

fn main() {
    let arguments: Vec<String> = std::env::args().skip(1).collect();
    let arguments: Vec<&str> = arguments.iter().map(String::as_str).collect();
    if let Err(fault) = run(&arguments) {
        eprintln!("beside: {fault}");
        std::process::exit(1);
    }
}
