//! The separate tool: the recorder's rules written anew from the papers, without a look at the proved
//! code. As a library it is the model that callers of the proved code compare it with.

pub mod checks;
pub mod model;
pub mod random;
pub mod readings;
pub mod vectors;

/// The seed of the vectors in the tree.
pub const SEED: u64 = 2003;
