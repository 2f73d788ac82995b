//! Wrong readings of document 02, Nos. 4, 6, 7 and 10, a file for each. A reading runs calls as the model does, but for
//! one thing. The vectors must tell every one of them from the model, and the tests have the checks find some.

pub mod choices;
pub mod orders;
pub mod quotas;
pub mod taking_back;
