//! What the kernel keeps of its objects.
use crate::label::Label;

/// The bytes of a page.
pub const PAGE: usize = 256;

/// The pages of a segment at most.
pub const MOST_PAGES: u32 = 16;

/// The slots of an address space.
pub const SLOTS: usize = 16;

/// How a call names an object: by a container, and an object in its list or the container itself.
#[derive(Clone, Copy, PartialEq, Eq, Debug)]
pub struct Entry {
    pub container: u64,
    pub object: u64,
}

/// What may be done with pages.
#[derive(Clone, Copy, Debug)]
pub struct Rights {
    pub read: bool,
    pub write: bool,
}

/// Pages of a segment, shown from a virtual page on.
#[derive(Clone, Copy, Debug)]
pub struct Mapping {
    pub page: u32,
    pub entry: Entry,
    pub first: u32,
    pub count: u32,
    pub rights: Rights,
}

#[derive(Clone, Copy, PartialEq, Eq, Debug)]
pub enum Kind {
    Container,
    Segment,
    AddressSpace,
    Thread,
    Device,
}

/// What an object holds by its kind.
pub enum Body {
    Container(Container),
    Segment(Vec<u8>),
    AddressSpace([Option<Mapping>; SLOTS]),
    Thread(Thread),
    Device,
}

/// The kinds that a container avoids, what it lists in the order of linking, and what it uses.
pub struct Container {
    pub avoid: Vec<Kind>,
    pub entries: Vec<u64>,
    pub used: u32,
}

/// A thread beside its label.
pub struct Thread {
    pub clearance: Label,
    pub space: Option<Entry>,
}

/// An object.
pub struct Object {
    pub label: Label,
    pub quota: u32,
    pub is_fixed: bool,
    pub is_immutable: bool,
    /// How many containers list it.
    pub links: u32,
    pub body: Body,
}

impl Object {
    /// A new object that no container lists yet.
    pub fn new(label: Label, quota: u32, body: Body) -> Object {
        Object { label, quota, is_fixed: false, is_immutable: false, links: 0, body }
    }

    pub fn kind(&self) -> Kind {
        match self.body {
            Body::Container(_) => Kind::Container,
            Body::Segment(_) => Kind::Segment,
            Body::AddressSpace(_) => Kind::AddressSpace,
            Body::Thread(_) => Kind::Thread,
            Body::Device => Kind::Device,
        }
    }
}

impl Mapping {
    /// Whether it covers a virtual page.
    pub fn covers(&self, page: u64) -> bool {
        u64::from(self.page) <= page && page < u64::from(self.page) + u64::from(self.count)
    }

    /// Whether its virtual pages meet another's.
    pub fn meets(&self, other: &Mapping) -> bool {
        self.page < other.page + other.count && other.page < self.page + self.count
    }

    /// Whether its counts and rights are such as a slot may hold.
    pub fn is_well_formed(&self) -> bool {
        self.count >= 1
            && u64::from(self.page) + u64::from(self.count) <= 65_536
            && u64::from(self.first) + u64::from(self.count) <= u64::from(MOST_PAGES)
            && (self.rights.read || self.rights.write)
    }
}
