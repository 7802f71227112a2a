//! The comparison: what is lent, the calls, the counts, and what is tried.

pub mod calls;
pub mod counts;
pub mod lent;
pub mod lists;
pub mod records;
pub mod texts;
