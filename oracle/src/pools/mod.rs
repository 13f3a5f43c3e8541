// Added: the Rust's file of this name is not among the published ones.
mod instructions;
pub use instructions::InstructionsPool;
