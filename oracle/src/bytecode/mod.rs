// Added: the Rust's file of this name is not among the published ones.
pub mod helpers;
pub mod opcodes;
