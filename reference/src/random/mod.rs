//! What the vectors, the checks and the comparison at scale are drawn from: random boards, tables, lists, plans and
//! inputs, good ones and spoilt ones. All come from a seed, so that a run can be had again. Only `encoding` draws
//! nothing: it writes a plan as an input, and says where to break it.

pub mod boards;
pub mod encoding;
pub mod inputs;
pub mod lists;
mod numbers;
pub mod plans;

pub use numbers::Random;
