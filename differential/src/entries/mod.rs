//! The entries of the port, one a file, or two that share an input.

pub mod covers;
pub mod faults;
pub mod floor;
pub mod full;
pub mod gossip;
pub mod init;
pub mod layout;
pub mod plan;
pub mod policy;
pub mod profile;
pub mod survived;
pub mod tally;
pub mod united;
pub mod unreliability;
