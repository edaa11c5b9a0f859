//! An independent check of the eSPI target engine: document 01 written again in ordinary Rust (`state`, `engine`), seeded
//! traffic (`traffic`), and a run that makes each call on two engines and compares every byte afterwards (`run`). Captures are
//! read, written and played by it (`capture`), and made of the same traffic (`captures`).
//!
//! "01" in a comment is document 01, with the name of its section; "02" is document 02, with the number of its request;
//! "STATE.md" is docs/STATE.md.
pub mod capture;
pub mod capture_fault;
pub mod captures;
pub mod coverage;
pub mod engine;
pub mod fault;
pub mod run;
pub mod state;
pub mod traffic;

#[cfg(test)]
mod bench;
