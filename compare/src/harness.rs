//! The comparison: the same calls to two programs, and every difference told.

pub mod call;
pub mod codec;
pub mod context_counts;
pub mod counts;
pub mod damage;
pub mod desk;
pub mod gate;
pub mod listings;
pub mod planned;
pub mod random;
pub mod reset;
pub mod reset_counts;
pub mod session;
pub mod told;
pub mod traffic;
pub mod verdict;
pub mod walk;
