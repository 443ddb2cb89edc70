//! What a caller is told.
use crate::Name;
use std::fmt;

/// A place in a cluster's log: what its owner has seen.
#[derive(Clone, Copy, PartialEq, Eq, PartialOrd, Ord, Hash, Debug)]
pub struct Note {
    /// The identity of the engine's cluster.
    pub engine: u64,
    /// The place.
    pub place: u64,
}

/// What an item was told.
#[derive(Clone, PartialEq, Eq, Debug)]
pub enum Told<R> {
    /// The machine's reply to a call.
    Reply(R),
    /// A hand-over or a change of the rules was done.
    Done,
    /// The thread belongs to another node. Nothing was done.
    OtherNode,
}

/// What became of items that were submitted together.
#[derive(Clone, PartialEq, Eq, Debug)]
pub enum Receipt<R> {
    /// They were played at one place, with nothing between them.
    Told {
        /// What each was told.
        told: Vec<Told<R>>,
        /// Their place: a read that is not behind it sees them.
        note: Note,
    },
    /// They were not played and never will be.
    NeverMade,
    /// They were played once, and the node has lost what they were told: it began at a later checkpoint.
    MadeUnseen,
    /// They were played once or never. The node was away for so long that the log has forgotten which.
    Unknown,
}

/// Why a node has stopped. It plays nothing more and answers nothing more, and nothing of the log is lost.
#[derive(Clone, PartialEq, Eq, Debug)]
pub enum Fault {
    /// The cluster was begun with other limits, or what it began with was changed since.
    OtherBoot,
    /// The cluster was begun in this format, which is not the node's.
    OtherFormat(u8),
    /// The engine is another one than at the start, as one that was restored from a copy.
    OtherEngine,
    /// There is no machine, for this reason.
    NoMachine(String),
    /// At this place the log has a gap: an entry of this node was deleted, or it put numbers that are not in order.
    Gap {
        /// The node.
        node: Name,
        /// The place.
        place: u64,
    },
    /// At this place the log changes to rules that this node does not know.
    UnknownRules {
        /// The rules.
        rules: u64,
        /// The place, 0 for the beginning.
        place: u64,
    },
    /// Another node has played another log or has another state: entries were deleted or changed, or one of both does not keep the rules.
    Differs {
        /// The other node.
        node: Name,
        /// After so many entries it says so.
        entries: u64,
        /// The place at which it said so, 0 where the log was dropped.
        place: u64,
    },
    /// No checkpoint is there that is one of this cluster and that two nodes agree on, and what is left of the log does not lead to the state
    /// that they agree on.
    NoCheckpoint,
    /// The node lacks memory for a checkpoint that it can't do without: to begin at it, or to see that it is in the state that others agree on.
    NoMemory,
}

impl fmt::Display for Fault {
    fn fmt(&self, f: &mut fmt::Formatter<'_>) -> fmt::Result {
        match self {
            Fault::OtherBoot => {
                f.write_str("the cluster was begun with other limits, or what it began with was changed")
            }
            Fault::OtherFormat(format) => {
                write!(f, "the cluster was begun in format {format}, which this node does not know")
            }
            Fault::OtherEngine => f.write_str("the engine is another one than at the start"),
            Fault::NoMachine(why) => write!(f, "no kernel was booted: {why}"),
            Fault::Gap { node, place } => {
                write!(f, "the log has a gap: an entry of node {node} is missing at place {place}")
            }
            Fault::UnknownRules { rules, place } => {
                write!(f, "the log changes to rules {rules} at place {place}, which this node does not know")
            }
            Fault::Differs { node, entries, place } => {
                write!(f, "node {node} differs after {entries} entries, as it says at place {place}")
            }
            Fault::NoCheckpoint => f.write_str("the log was dropped, and no checkpoint can be restored"),
            Fault::NoMemory => f.write_str("there is no memory for a checkpoint"),
        }
    }
}

impl std::error::Error for Fault {}
