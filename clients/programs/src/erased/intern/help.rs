//! The help. The man page, intern.1, says more.

use crate::rt::prelude::*; /// What `--help` prints.
pub const HELP: &str = "\
usage: intern string|bucket|buffer
       intern --help | --version

Reads commands, one a line, runs them on an empty interner that stores its texts
in this backend, and writes a line for each reply.

i TEXT    interns the text: symbol N, no symbol or no memory
g TEXT    looks it up: symbol N or none
r K       resolves the symbol in reply K, from 0: text TEXT, no reply, no memory
n NUMBER  resolves the symbol with this number: text TEXT, none or no memory
len       tells how many texts there are: len N
shrink    gives spare memory back: ok

Exit status: 0 if all replies were written; 1 if reading, writing or memory
fails, or the input is not UTF-8; 2 if the arguments or a line are wrong, and
then nothing is written.
Manual: man intern, which bin/install installs from crates/intern/intern.1, and
cargo install does not.
";

/// What `--version` prints.
pub const VERSION: &str = "intern 0.1.0\n";
