//! kdgate: a small gateway over the proved library.
//!
//! It fetches histories from neighbours by BitTorrent v2, judges each block before it is written, keeps its stores over kills and power
//! loss, publishes what its own logger writes, and shows a technician what may be believed. It believes nothing itself: each byte
//! that goes to a history's file or to a neighbour has been answered 0 by a call of the library, but for zeros behind a file's last block
//! where a neighbour asks for more than the file has. It is crash-only: there is no clean shutdown, stopping it is killing it.
#![forbid(unsafe_code)]

pub mod ask;
pub mod config;
pub mod disk;
pub mod follow;
pub mod gate;
pub mod grown;
pub mod held;
pub mod history;
pub mod http;
pub mod keeper;
pub mod leaves;
pub mod limits;
pub mod line;
pub mod link;
pub mod log;
pub mod model;
pub mod peer;
pub mod probe;
pub mod send;
pub mod status;
pub mod torrent;
pub mod wire;
