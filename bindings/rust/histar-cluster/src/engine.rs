//! The engine: an ordered store of keys, which gives each change a revision. Requests are values, so that a node does no input or output.
use crate::keys::Key;
use std::sync::Weak;

/// What a node asks of the engine. Each may be asked again where its answer was lost, but for a put that wants its key to be new.
#[derive(Clone, PartialEq, Eq, Debug)]
pub enum Request {
    /// Puts a value under a key.
    Put {
        /// The key.
        key: Key,
        /// The value.
        value: Vec<u8>,
        /// The lease that the key ends with.
        lease: Option<u64>,
        /// Nothing is done where the key is there.
        only_new: bool,
    },
    /// Reads keys by rising key, as many as the engine gives at once.
    Page {
        /// The first key.
        from: Key,
        /// The end: this key is none of them.
        to: Key,
        /// The revision at which they are read, 0 for the last one.
        at: u64,
    },
    /// Reports each put of a range of keys. It takes the place of the watch before it.
    Watch {
        /// The first key.
        from: Key,
        /// The end: this key is none of them.
        to: Key,
        /// Puts of a greater revision are reported.
        after: u64,
    },
    /// Begins a lease.
    Lease,
    /// Keeps a lease.
    Keep {
        /// The lease.
        lease: u64,
    },
    /// Deletes keys.
    Drop {
        /// The first key.
        from: Key,
        /// The end: this key is none of them.
        to: Key,
    },
    /// Forgets what keys were before a revision.
    Forget {
        /// The revision.
        before: u64,
    },
}

/// A key as a page has it.
#[derive(Clone, PartialEq, Eq, Debug)]
pub struct Pair {
    /// The key.
    pub key: Key,
    /// Its value.
    pub value: Vec<u8>,
    /// The revision at which it was put while it was not there: its place.
    pub created: u64,
}

/// A put that a watch reports.
#[derive(Clone, PartialEq, Eq, Debug)]
pub struct Event {
    /// The key.
    pub key: Key,
    /// Its value.
    pub value: Vec<u8>,
    /// The revision of the put.
    pub revision: u64,
    /// Whether the key was not there before.
    pub is_new: bool,
}

/// What the engine answers.
#[derive(Clone, PartialEq, Eq, Debug)]
pub enum Answer {
    /// It was put, or was not where the key had to be new and was not.
    Put {
        /// The engine's revision.
        revision: u64,
        /// Whether it was put.
        is_done: bool,
    },
    /// Keys.
    Page {
        /// The engine's revision.
        revision: u64,
        /// The keys.
        pairs: Vec<Pair>,
        /// Whether there are more.
        is_more: bool,
    },
    /// The watch begins, at this revision of the engine.
    Watching(u64),
    /// Puts that the watch reports, by rising revision: all of each revision, as one transaction may put several keys.
    Events(Vec<Event>),
    /// The watch ended.
    Ended,
    /// The changes or keys of that revision are forgotten.
    Forgotten,
    /// A lease.
    Lease(u64),
    /// The lease is kept, or it was gone.
    Kept,
    /// It is deleted or forgotten.
    Dropped,
    /// There is no answer: it may be done, now or later, or not.
    Lost,
    /// The same, for a reason that the engine's client knows, as that a certificate is another's.
    Unreached(String),
    /// It is not done, for a reason of the engine that an operator has to see to: there is no space, or the node has no right.
    Refused(String),
}

/// An engine that a node asks.
pub trait Engine {
    /// Starts the engine for a node. What is given back asks a request of a number: it returns at once and gives no answer before it
    /// returned. Answers go to `answers`, from any thread.
    fn start(self, answers: Answers) -> Box<dyn Fn(u64, Request) + Send>;
}

/// Where the answers to a node's requests go.
#[derive(Clone)]
pub struct Answers(pub(crate) Weak<dyn TakesAnswers + Send + Sync>);

pub(crate) trait TakesAnswers {
    fn take(&self, number: u64, engine: u64, answer: Answer);
}

impl Answers {
    /// Gives an answer to the request of a number, with the identity of the engine's cluster. False where the node is no more.
    pub fn give(&self, number: u64, engine: u64, answer: Answer) -> bool {
        self.0.upgrade().map(|node| node.take(number, engine, answer)).is_some()
    }
}
