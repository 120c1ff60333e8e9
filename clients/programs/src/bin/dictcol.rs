//! The program `dictcol`.

#![no_main]

programs::start_at!(programs::dictcol::main);
