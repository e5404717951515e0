//! What every comparison shares.

#[cfg(published)]
pub mod arena;
pub mod bits;
#[cfg(published)]
pub mod call;
pub mod floats;
pub mod gap;
pub mod rng;
pub mod table;
pub mod tally;
pub mod timing;
