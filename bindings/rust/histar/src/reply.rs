//! What a kernel answers.
use crate::{Bytes, Category, Entry, Label, Mapping, Object};

/// What a thread is.
#[derive(Clone, PartialEq, Eq, Debug)]
pub struct Own {
    /// Its label.
    pub label: Label,
    /// Its clearance.
    pub clearance: Label,
    /// The label that it last proved at a gate.
    pub verify: Label,
    /// The entry of its address space, `Entry::NONE` for none.
    pub space: Entry,
    /// Where it runs.
    pub entry_point: u64,
    /// What it was handed by a gate.
    pub closure: u64,
}

/// What an object may use and uses.
#[derive(Clone, Copy, PartialEq, Eq, Debug)]
pub struct Quota {
    /// What it may use, in pages of 256 bytes.
    pub quota: u32,
    /// What it uses.
    pub used: u32,
    /// Its quota never changes again.
    pub fixed: bool,
    /// It is read-only for good.
    pub immutable: bool,
}

/// Ids that a container lists.
#[derive(Clone, PartialEq, Eq, Debug)]
pub struct Listed {
    /// How many it lists.
    pub length: u64,
    /// Up to 16 of them, in the order of their linking.
    pub ids: Vec<Object>,
}

/// What a gate hands to who enters it.
#[derive(Clone, Copy, PartialEq, Eq, Debug)]
pub struct Entered {
    /// Where the thread runs.
    pub entry_point: u64,
    /// What it was handed.
    pub closure: u64,
}

/// What a call answers, where it is not refused.
#[derive(Clone, PartialEq, Eq, Debug)]
pub enum Reply {
    /// The call was done.
    Done,
    /// The category that was made.
    Category(Category),
    /// The object that was made.
    Object(Object),
    /// The thread entered a gate.
    Entered(Entered),
    /// Bytes that were read or received: 1 to 64.
    Bytes(Bytes),
    /// What the thread is.
    Own(Own),
    /// The label of an object.
    Label(Label),
    /// The quota and the use of an object.
    Quota(Quota),
    /// Ids that a container lists.
    Listed(Listed),
    /// The container that lists a container.
    Parent(Object),
    /// The length of a segment in pages of 256 bytes.
    Pages(u32),
    /// What a slot maps, if anything.
    Mapping(Option<Mapping>),
}
