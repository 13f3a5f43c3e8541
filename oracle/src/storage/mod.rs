// Added: the Rust's file of this name is not among the published ones.
pub mod bincodec;
pub mod storage;
pub mod task_types;
