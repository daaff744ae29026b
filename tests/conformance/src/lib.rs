//! The engine compared with the reference program: the same inputs go to both, and the answer, the place, the next
//! state and every byte of an output buffer must be equal.
//!
//! A process of its own, `serve.c`, calls the engine, so that this also works on machines that run it under an
//! emulator.

#![forbid(unsafe_code)]

pub mod calls;
pub mod engine;
pub mod families;
pub mod found;
pub mod inputs;
pub mod lines;
pub mod lists;
pub mod memories;
pub mod versions;
pub mod wire;
