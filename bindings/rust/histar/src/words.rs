//! What calls and replies name beside ids and labels.
use crate::{Entry, Level};
use std::ops::BitOr;

/// What a mapping allows.
#[derive(Clone, Copy, PartialEq, Eq, Debug, Hash)]
pub struct Rights {
    /// Whether to read.
    pub read: bool,
    /// Whether to write.
    pub write: bool,
}

impl Rights {
    /// To read.
    pub const READ: Rights = Rights { read: true, write: false };
    /// To read and to write.
    pub const READ_WRITE: Rights = Rights { read: true, write: true };
}

/// A set of kinds of objects: those that a container will not hold.
#[derive(Clone, Copy, PartialEq, Eq, Debug, Default, Hash)]
pub struct Kinds {
    /// Whether containers are in it.
    pub container: bool,
    /// Whether segments are.
    pub segment: bool,
    /// Whether address spaces are.
    pub address_space: bool,
    /// Whether threads are.
    pub thread: bool,
    /// Whether gates are.
    pub gate: bool,
    /// Whether devices are.
    pub device: bool,
}

impl Kinds {
    /// The set of no kind.
    pub const NONE: Kinds =
        Kinds { container: false, segment: false, address_space: false, thread: false, gate: false, device: false };
    /// Containers.
    pub const CONTAINERS: Kinds = Kinds { container: true, ..Kinds::NONE };
    /// Segments.
    pub const SEGMENTS: Kinds = Kinds { segment: true, ..Kinds::NONE };
    /// Address spaces.
    pub const ADDRESS_SPACES: Kinds = Kinds { address_space: true, ..Kinds::NONE };
    /// Threads.
    pub const THREADS: Kinds = Kinds { thread: true, ..Kinds::NONE };
    /// Gates.
    pub const GATES: Kinds = Kinds { gate: true, ..Kinds::NONE };
    /// Devices.
    pub const DEVICES: Kinds = Kinds { device: true, ..Kinds::NONE };
}

/// The kinds of either set.
impl BitOr for Kinds {
    type Output = Kinds;

    fn bitor(self, other: Kinds) -> Kinds {
        Kinds {
            container: self.container | other.container,
            segment: self.segment | other.segment,
            address_space: self.address_space | other.address_space,
            thread: self.thread | other.thread,
            gate: self.gate | other.gate,
            device: self.device | other.device,
        }
    }
}

/// Pages of a segment, of 256 bytes each, shown from a virtual page on.
#[derive(Clone, Copy, PartialEq, Eq, Debug, Hash)]
pub struct Mapping {
    /// The first virtual page: the mapping ends at page 65,536 at most.
    pub page: u32,
    /// The segment, by the entry through which it is mapped.
    pub segment: Entry,
    /// The first page of the segment: with `count` at most 16.
    pub first: u32,
    /// How many pages: 1 to 16.
    pub count: u32,
    /// What may be done with them: at least one right.
    pub rights: Rights,
}

/// What a kernel is booted with.
#[derive(Clone, Copy, PartialEq, Eq, Debug)]
pub struct Limits {
    /// The quota of the root, in pages of 256 bytes: 8 to 1,024.
    pub pages: u32,
    /// The level of the device's label: any but `Level::Star`.
    pub device: Level,
    /// The first id that a call gives: 4 to 2^61.
    pub next_id: u64,
    /// The first category that a call gives: 1 to 2^61.
    pub next_category: u64,
}

impl Limits {
    /// The limits of a script with so many pages: the device's label is 1, the first id 4 and the first category 1.
    ///
    /// ```
    /// use histar::{Level, Limits};
    /// let limits = Limits::pages(8);
    /// assert_eq!((limits.pages, limits.device, limits.next_id, limits.next_category), (8, Level::L1, 4, 1));
    /// ```
    pub const fn pages(pages: u32) -> Limits {
        Limits { pages, device: Level::L1, next_id: 4, next_category: 1 }
    }
}

/// The limits of a script that says none: 64 pages.
impl Default for Limits {
    fn default() -> Limits {
        Limits::pages(64)
    }
}
