//! The rules themselves, as documents 01, 02 and 004 have them: colours of the cache, the frame calls, plans and the
//! program `admit`. It is what all the other folders go by, and nothing in it is wrong on purpose.

pub mod admit;
pub mod cache;
pub mod frames;
pub mod plans;
pub mod reply;
pub mod taking_back;
