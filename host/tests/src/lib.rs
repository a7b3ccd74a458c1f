//! What the host tests share: inputs made by a rule or from a seed, calls as values, and the comparison of a library
//! with the reference.

pub mod bursts;
pub mod call;
pub mod compare;
pub mod fillings;
pub mod harness;
pub mod headers;
pub mod hybrids;
pub mod lists;
pub mod places;
pub mod random;
pub mod replays;
pub mod saves;
pub mod sessions;
pub mod shapes;
pub mod states;
pub mod streams;
pub mod torrents;
pub mod truth;
