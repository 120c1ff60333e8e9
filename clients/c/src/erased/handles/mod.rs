//! Interners behind a handle, as the library for C exports them.
//!
//! A [`Handle`](handle::Handle) holds an interner of a [`kind`](kind::Kind), which says how texts are stored and numbered. C
//! knows the handle by its [`address`]. Exports call the interner, or one of [`calls`] where that takes more than one call.
//~ #![tactic(auto)]

//~ pub mod address;
use crate::rt::prelude::*; pub mod any;
pub mod calls;
//~ pub mod handle;
pub mod hasher;
pub mod kind;
//~ mod loose;
pub mod options;
pub mod status;
pub mod text;
