//! An independent model of the ring controller, written from the rules alone.
//! State is kept in place and every call is total: no input makes it panic.
//! The programs `model-drill` and `model-planner` run it on a drill and on a plan; `compare` sets it beside the proved programs.

pub mod blocks;
pub mod drill;
pub mod faults;
pub mod node;
pub mod planner;
pub mod program;

// These trust what `node` has tested, so nobody else may call them.
mod bandwidth;
mod crowding;
mod pacer;
mod records;
mod settings;
mod spans;
mod stations;
mod telling;
mod ways;

pub use bandwidth::Free;
pub use blocks::{write_block, Values};
pub use node::{Node, NodeOf, Shown};
pub use records::OUTPUT_ROOM;
pub use spans::Status;
pub use ways::Way;
