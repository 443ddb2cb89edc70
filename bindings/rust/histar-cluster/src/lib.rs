//! One label kernel on many machines: each node has a replica of it, and the log of an ordered store is their journal.
//!
//! The kernel is deterministic, so nodes that play one log give one reply to each call. An entry of the log is a plain put under a key of
//! its own. Its place is the revision at which its key was created, and whether it counts is a rule of the log: its number is its lane's
//! next, and its incarnation is not closed. No clock is trusted: a lease only suggests when an incarnation is closed.
//!
//! [`Node`] is all of this as a state machine without input or output. docs/CLUSTER.md has what is promised to whom.

mod agreements;
pub mod engine;
mod entry;
mod history;
mod kernel;
mod keys;
mod machine;
pub mod memory;
mod node;
mod operator;
mod order;
mod receipt;
mod replica;
mod running;
mod sha256;
mod spelling;
mod state;
mod survey;
mod view;
mod waiting;

pub use entry::Item;
pub use kernel::limits;
pub use keys::{Incarnation, Key, Lane, Name};
pub use machine::{Machine, Unrestored, Written};
pub use node::{Node, Options, Output, Status, LOOK};
pub use operator::{beginning, beginning_from, export, retired, void, Unexported};
pub use receipt::{Fault, Note, Receipt, Told};
pub use replica::{Replica, Start};
pub use running::{Called, Calling, Reader, Running, Uncalled, Unread};
pub use sha256::Digest;
pub use survey::{audit, checkpoints, entries, range, surveyed, Opinion, Standing, Survey};
pub use view::{Reads, View};
pub use waiting::{Unsettled, Waiting};
