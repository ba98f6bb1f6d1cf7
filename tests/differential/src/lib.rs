//! The archive beside the second program: its functions for Rust callers, the
//! comparison of one case, the shrinking of a difference, the self-test of
//! both, the documents' examples, and large books. The bench uses the functions
//! and the large books too, the fuzzer the comparison.

pub mod archive;
pub mod big;
pub mod compare;
pub mod docs;
pub mod names;
mod refs;
pub mod selftest;
pub mod show;
pub mod shrink;
