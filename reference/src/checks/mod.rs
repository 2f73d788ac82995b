//! What is run to check something. Random histories of the model's calls are held against what documents 01 and 02
//! say of them. A compiled program `admit` is run and compared with the tool's own.

pub mod accounts;
pub mod comparison;
pub mod histories;
pub mod pipe;
