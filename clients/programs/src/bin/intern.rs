//! The program `intern`.

#![no_main]

programs::start_at!(programs::intern::main);
