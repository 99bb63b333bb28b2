//! The kinds of cases. Each has a fixed part, which is run once and whole, and a random
//! part, of which a small slice is run again and again until the time is over.

#[cfg(feature = "runs")]
pub mod huge;
pub mod lister;
#[cfg(feature = "runs")]
pub mod runs;
#[cfg(feature = "sessions")]
pub mod sessions;
#[cfg(feature = "sheets")]
pub mod sheets;
