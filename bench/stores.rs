//! What the yardsticks of the running store share: all but how an object is kept.
pub mod drafts;
pub mod loads;
pub mod store;
