// The clock that the reference names, as the standard library has it.
pub use std::time::*;
