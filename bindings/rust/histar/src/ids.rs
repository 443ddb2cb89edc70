//! How objects and categories are named.
use std::fmt;

/// A category: 1 to 2^61 - 1, given once.
#[derive(Clone, Copy, PartialEq, Eq, PartialOrd, Ord, Debug, Hash)]
pub struct Category(pub u64);

/// The id of an object: 1 to 2^61 - 1, given once. 0 names no object.
#[derive(Clone, Copy, PartialEq, Eq, PartialOrd, Ord, Debug, Hash)]
pub struct Object(pub u64);

impl Object {
    /// No object.
    pub const NONE: Object = Object(0);
    /// The root container.
    pub const ROOT: Object = Object(1);
    /// The device.
    pub const DEVICE: Object = Object(3);
}

/// How a call names an object: by a container, and an object that it lists or that it is.
#[derive(Clone, Copy, PartialEq, Eq, Debug, Hash)]
pub struct Entry {
    /// The container, which the calling thread has to observe.
    pub container: Object,
    /// The object.
    pub object: Object,
}

impl Entry {
    /// No object: as an address space, none.
    pub const NONE: Entry = Entry { container: Object::NONE, object: Object::NONE };

    /// The entry of an object, or of a session's thread, in a container.
    ///
    /// ```
    /// use histar::{Entry, Object};
    /// assert_eq!(Entry::new(Object(4), Object(7)).to_string(), "#4 #7");
    /// ```
    pub fn new(container: Object, object: impl Into<Object>) -> Entry {
        Entry { container, object: object.into() }
    }

    /// The entry of an object, or of a session's thread, in the root container.
    ///
    /// ```
    /// use histar::{Entry, Object};
    /// assert_eq!(Entry::in_root(Object(7)), Entry::new(Object::ROOT, Object(7)));
    /// ```
    pub fn in_root(object: impl Into<Object>) -> Entry {
        Entry::new(Object::ROOT, object)
    }
}

/// As scripts and dumps name it: `#3`.
impl fmt::Display for Category {
    fn fmt(&self, f: &mut fmt::Formatter<'_>) -> fmt::Result {
        write!(f, "#{}", self.0)
    }
}

/// As scripts and dumps name it: `#3`.
impl fmt::Display for Object {
    fn fmt(&self, f: &mut fmt::Formatter<'_>) -> fmt::Result {
        write!(f, "#{}", self.0)
    }
}

/// As calls have it: `#1 #3`.
impl fmt::Display for Entry {
    fn fmt(&self, f: &mut fmt::Formatter<'_>) -> fmt::Result {
        write!(f, "{} {}", self.container, self.object)
    }
}
