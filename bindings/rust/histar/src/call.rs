//! What a thread asks of a kernel.
use crate::bytes::Length;
use crate::{Entry, Kinds, Label, Mapping, Object};
use std::borrow::Cow;
use std::fmt;

/// A call. docs/CALLS.md has the rule and the refusals of each. Labels and bytes are the caller's, or its own.
#[derive(Clone, PartialEq, Eq)]
pub enum Call<'a> {
    // Made from bindings/calls.toml:
    /// A new category, which the thread owns: star in its label, 3 in its clearance.
    CatCreate,
    /// The thread's label rises, to its clearance at most.
    SelfSetLabel {
        /// The new label: at least the old one, at most the clearance.
        label: Cow<'a, Label>,
    },
    /// The thread's clearance changes: at least its label, and at most the maximum of the old clearance and of the
    /// label with star raised.
    SelfSetClearance {
        /// The new clearance: at least the label.
        clearance: Cow<'a, Label>,
    },
    /// The thread's address space changes.
    SelfSetAs {
        /// The address space, `Entry::NONE` for none.
        space: Entry,
    },
    /// A new container, last in a container's list, with a quota in pages of 256 bytes and the kinds that it will not
    /// hold.
    ContainerCreate {
        /// Where it is listed.
        container: Object,
        /// Its label, without star.
        label: Cow<'a, Label>,
        /// What it may use, in pages of 256 bytes: at least 1.
        quota: u32,
        /// The kinds that it will not hold.
        avoid: Kinds,
    },
    /// A new segment of `pages` pages of zeros, 0 to 16, last in a container's list; its quota is at least one page
    /// more.
    SegmentCreate {
        /// Where it is listed.
        container: Object,
        /// Its label, without star.
        label: Cow<'a, Label>,
        /// What it may use, in pages of 256 bytes: at least one more than its length.
        quota: u32,
        /// Its length in pages: 0 to 16.
        pages: u32,
    },
    /// A new segment with the bytes of another, last in a container's list.
    SegmentCopy {
        /// Where it is listed.
        container: Object,
        /// Its label, without star.
        label: Cow<'a, Label>,
        /// What it may use, in pages of 256 bytes.
        quota: u32,
        /// The segment that is copied.
        source: Entry,
    },
    /// A new address space of 16 empty slots, last in a container's list.
    AsCreate {
        /// Where it is listed.
        container: Object,
        /// Its label, without star.
        label: Cow<'a, Label>,
        /// What it may use, in pages of 256 bytes: at least 1.
        quota: u32,
    },
    /// A new thread, last in a container's list, with the verify label `{3}`, no address space and closure 0.
    ThreadCreate {
        /// Where it is listed.
        container: Object,
        /// Its label.
        label: Cow<'a, Label>,
        /// What it may use, in pages of 256 bytes: at least 1.
        quota: u32,
        /// Its clearance.
        clearance: Cow<'a, Label>,
        /// Where it runs: any number.
        entry_point: u64,
    },
    /// A new gate, last in a container's list.
    GateCreate(NewGate<'a>),
    /// A second link to an object whose quota is fixed, last in the list of `target`, which is charged its whole quota.
    Link {
        /// Where the object comes last.
        target: Object,
        /// The object, whose quota is fixed.
        entry: Entry,
    },
    /// The object leaves the container's list, and what no path from the root leads to is gone.
    Unref {
        /// The object.
        entry: Entry,
    },
    /// The object's quota grows or shrinks by so many pages of 256 bytes.
    QuotaMove {
        /// The object.
        entry: Entry,
        /// By how many pages of 256 bytes.
        change: i32,
    },
    /// The object's quota never changes again.
    SetFixed {
        /// The object.
        entry: Entry,
    },
    /// The object is read-only for good.
    SetImmutable {
        /// The object.
        entry: Entry,
    },
    /// The object's metadata are these 0 to 64 bytes, and then zeros.
    MetaSet {
        /// The object.
        entry: Entry,
        /// 0 to 64 bytes.
        bytes: Cow<'a, [u8]>,
    },
    /// The segment has so many pages, 0 to 16: what is cut off is gone, what is new is 0.
    SegmentResize {
        /// The segment.
        entry: Entry,
        /// Its length in pages of 256 bytes: 0 to 16.
        pages: u32,
    },
    /// These 1 to 64 bytes, in one page of 256, are written from `offset` on.
    SegmentWrite {
        /// The segment.
        entry: Entry,
        /// The place of the first byte, from 0.
        offset: u32,
        /// 1 to 64 bytes that lie in one page of 256.
        bytes: Cow<'a, [u8]>,
    },
    /// An empty slot, 0 to 15, of the address space shows pages of a segment.
    AsMap {
        /// The address space.
        space: Entry,
        /// The slot: 0 to 15.
        slot: u32,
        /// What it maps.
        mapping: Mapping,
    },
    /// A filled slot, 0 to 15, is emptied.
    AsUnmap {
        /// The address space.
        space: Entry,
        /// The slot: 0 to 15.
        slot: u32,
    },
    /// These 1 to 64 bytes, in one page of 256, are written through the thread's address space.
    Store {
        /// The address of the first byte.
        address: u64,
        /// 1 to 64 bytes that lie in one page of 256.
        bytes: Cow<'a, [u8]>,
    },
    /// The thread enters the gate: it has these labels from then on, and the gate's address space, entry point and
    /// closure.
    GateEnter {
        /// The gate.
        gate: Entry,
        /// The thread's new label.
        label: Cow<'a, Label>,
        /// Its new clearance.
        clearance: Cow<'a, Label>,
        /// The label that it proves to the gate's owner.
        verify: Cow<'a, Label>,
    },
    /// A packet of 1 to 64 bytes is last in the device's queue.
    DevSend {
        /// The device.
        entry: Entry,
        /// 1 to 64 bytes.
        bytes: Cow<'a, [u8]>,
    },
    /// The first packet of the device's queue is taken out.
    DevRecv {
        /// The device.
        entry: Entry,
    },
    /// What the thread is.
    SelfGet,
    /// The object's label.
    ObjLabel {
        /// The object.
        entry: Entry,
    },
    /// What the object may use and uses.
    ObjQuota {
        /// The object.
        entry: Entry,
    },
    /// The length of a container's list, and up to 16 of its ids, from the place `from` on.
    ContainerList {
        /// The container.
        container: Object,
        /// The place of the first id, from 0.
        from: u32,
    },
    /// The container that lists a container; the root's is the root.
    ContainerParent {
        /// The container.
        container: Object,
    },
    /// The segment's length in pages of 256 bytes.
    SegmentLen {
        /// The segment.
        entry: Entry,
    },
    /// 1 to 64 bytes of the segment, in one page of 256, from `offset` on.
    SegmentRead {
        /// The segment.
        entry: Entry,
        /// The place of the first byte, from 0.
        offset: u32,
        /// How many: 1 to 64 bytes that lie in one page of 256.
        count: u32,
    },
    /// The 64 bytes of the object's metadata.
    MetaGet {
        /// The object.
        entry: Entry,
    },
    /// What a slot, 0 to 15, of the address space maps.
    AsGet {
        /// The address space.
        space: Entry,
        /// The slot: 0 to 15.
        slot: u32,
    },
    /// 1 to 64 bytes, in one page of 256, read through the thread's address space.
    Load {
        /// The address of the first byte.
        address: u64,
        /// How many: 1 to 64 bytes that lie in one page of 256.
        count: u32,
    },
    // (the end of what is made)
}

/// A gate that is to be made.
#[derive(Clone, PartialEq, Eq, Debug)]
pub struct NewGate<'a> {
    /// Where it is listed.
    pub container: Object,
    /// Its label.
    pub label: Cow<'a, Label>,
    /// What it may use, in pages of 256 bytes: at least 1.
    pub quota: u32,
    /// What a thread's label has to be at most.
    pub clearance: Cow<'a, Label>,
    /// The address space of who enters, `Entry::NONE` for none.
    pub space: Entry,
    /// Where who enters runs: any number.
    pub entry_point: u64,
    /// What it is handed: any number.
    pub closure: u64,
}

impl<'a> NewGate<'a> {
    /// A gate in the root container with a quota of 1, no address space, and entry point and closure 0.
    ///
    /// ```
    /// use histar::{label, NewGate, Object};
    /// let (owner, clearance) = (label! { L1 }, label! { L2 });
    /// let gate = NewGate { closure: 9, ..NewGate::new(&owner, &clearance) };
    /// assert_eq!((gate.container, gate.quota, gate.entry_point, gate.closure), (Object::ROOT, 1, 0, 9));
    /// ```
    pub fn new(label: &'a Label, clearance: &'a Label) -> NewGate<'a> {
        NewGate {
            container: Object::ROOT,
            label: label.into(),
            quota: 1,
            clearance: clearance.into(),
            space: Entry::NONE,
            entry_point: 0,
            closure: 0,
        }
    }
}

/// Labels and bytes of its own.
fn owned<T: ToOwned + ?Sized>(value: Cow<'_, T>) -> Cow<'static, T> {
    Cow::Owned(value.into_owned())
}

impl Call<'_> {
    /// The same call, with labels and bytes of its own.
    ///
    /// ```
    /// use histar::Call;
    /// let text = String::from("note");
    /// let call: Call<'static> = Call::Store { address: 0, bytes: text.as_bytes().into() }.into_owned();
    /// drop(text);
    /// assert_eq!(call, Call::Store { address: 0, bytes: b"note"[..].into() });
    /// ```
    pub fn into_owned(self) -> Call<'static> {
        match self {
            // Made from bindings/calls.toml:
            Call::CatCreate => Call::CatCreate,
            Call::SelfSetLabel { label } => Call::SelfSetLabel { label: owned(label) },
            Call::SelfSetClearance { clearance } => Call::SelfSetClearance { clearance: owned(clearance) },
            Call::SelfSetAs { space } => Call::SelfSetAs { space },
            Call::ContainerCreate { container, label, quota, avoid } => {
                Call::ContainerCreate { container, label: owned(label), quota, avoid }
            }
            Call::SegmentCreate { container, label, quota, pages } => {
                Call::SegmentCreate { container, label: owned(label), quota, pages }
            }
            Call::SegmentCopy { container, label, quota, source } => {
                Call::SegmentCopy { container, label: owned(label), quota, source }
            }
            Call::AsCreate { container, label, quota } => Call::AsCreate { container, label: owned(label), quota },
            Call::ThreadCreate { container, label, quota, clearance, entry_point } => {
                let (label, clearance) = (owned(label), owned(clearance));
                Call::ThreadCreate { container, label, quota, clearance, entry_point }
            }
            Call::GateCreate(NewGate { container, label, quota, clearance, space, entry_point, closure }) => {
                let (label, clearance) = (owned(label), owned(clearance));
                Call::GateCreate(NewGate { container, label, quota, clearance, space, entry_point, closure })
            }
            Call::Link { target, entry } => Call::Link { target, entry },
            Call::Unref { entry } => Call::Unref { entry },
            Call::QuotaMove { entry, change } => Call::QuotaMove { entry, change },
            Call::SetFixed { entry } => Call::SetFixed { entry },
            Call::SetImmutable { entry } => Call::SetImmutable { entry },
            Call::MetaSet { entry, bytes } => Call::MetaSet { entry, bytes: owned(bytes) },
            Call::SegmentResize { entry, pages } => Call::SegmentResize { entry, pages },
            Call::SegmentWrite { entry, offset, bytes } => Call::SegmentWrite { entry, offset, bytes: owned(bytes) },
            Call::AsMap { space, slot, mapping } => Call::AsMap { space, slot, mapping },
            Call::AsUnmap { space, slot } => Call::AsUnmap { space, slot },
            Call::Store { address, bytes } => Call::Store { address, bytes: owned(bytes) },
            Call::GateEnter { gate, label, clearance, verify } => {
                let (label, clearance, verify) = (owned(label), owned(clearance), owned(verify));
                Call::GateEnter { gate, label, clearance, verify }
            }
            Call::DevSend { entry, bytes } => Call::DevSend { entry, bytes: owned(bytes) },
            Call::DevRecv { entry } => Call::DevRecv { entry },
            Call::SelfGet => Call::SelfGet,
            Call::ObjLabel { entry } => Call::ObjLabel { entry },
            Call::ObjQuota { entry } => Call::ObjQuota { entry },
            Call::ContainerList { container, from } => Call::ContainerList { container, from },
            Call::ContainerParent { container } => Call::ContainerParent { container },
            Call::SegmentLen { entry } => Call::SegmentLen { entry },
            Call::SegmentRead { entry, offset, count } => Call::SegmentRead { entry, offset, count },
            Call::MetaGet { entry } => Call::MetaGet { entry },
            Call::AsGet { space, slot } => Call::AsGet { space, slot },
            Call::Load { address, count } => Call::Load { address, count },
            // (the end of what is made)
        }
    }

    /// Whether the call changes nothing.
    ///
    /// ```
    /// use histar::Call;
    /// assert!(Call::SelfGet.is_read() && !Call::CatCreate.is_read());
    /// ```
    pub fn is_read(&self) -> bool {
        // Made from bindings/calls.toml:
        matches!(
            self,
            Call::SelfGet
                | Call::ObjLabel { .. }
                | Call::ObjQuota { .. }
                | Call::ContainerList { .. }
                | Call::ContainerParent { .. }
                | Call::SegmentLen { .. }
                | Call::SegmentRead { .. }
                | Call::MetaGet { .. }
                | Call::AsGet { .. }
                | Call::Load { .. }
        )
        // (the end of what is made)
    }
}

/// Prints a call with its fields.
macro_rules! shown {
    ($f:ident, $name:literal $(, $field:ident)*) => {
        $f.debug_struct($name)$(.field(stringify!($field), $field))*.finish()
    };
}

/// It tells how many bytes there are, and none of them.
impl fmt::Debug for Call<'_> {
    fn fmt(&self, f: &mut fmt::Formatter<'_>) -> fmt::Result {
        match self {
            // Made from bindings/calls.toml:
            Call::CatCreate => shown!(f, "CatCreate"),
            Call::SelfSetLabel { label } => shown!(f, "SelfSetLabel", label),
            Call::SelfSetClearance { clearance } => shown!(f, "SelfSetClearance", clearance),
            Call::SelfSetAs { space } => shown!(f, "SelfSetAs", space),
            Call::ContainerCreate { container, label, quota, avoid } => {
                shown!(f, "ContainerCreate", container, label, quota, avoid)
            }
            Call::SegmentCreate { container, label, quota, pages } => {
                shown!(f, "SegmentCreate", container, label, quota, pages)
            }
            Call::SegmentCopy { container, label, quota, source } => {
                shown!(f, "SegmentCopy", container, label, quota, source)
            }
            Call::AsCreate { container, label, quota } => shown!(f, "AsCreate", container, label, quota),
            Call::ThreadCreate { container, label, quota, clearance, entry_point } => {
                shown!(f, "ThreadCreate", container, label, quota, clearance, entry_point)
            }
            Call::GateCreate(gate) => f.debug_tuple("GateCreate").field(gate).finish(),
            Call::Link { target, entry } => shown!(f, "Link", target, entry),
            Call::Unref { entry } => shown!(f, "Unref", entry),
            Call::QuotaMove { entry, change } => shown!(f, "QuotaMove", entry, change),
            Call::SetFixed { entry } => shown!(f, "SetFixed", entry),
            Call::SetImmutable { entry } => shown!(f, "SetImmutable", entry),
            Call::MetaSet { entry, bytes } => {
                let bytes = &Length(bytes.len());
                shown!(f, "MetaSet", entry, bytes)
            }
            Call::SegmentResize { entry, pages } => shown!(f, "SegmentResize", entry, pages),
            Call::SegmentWrite { entry, offset, bytes } => {
                let bytes = &Length(bytes.len());
                shown!(f, "SegmentWrite", entry, offset, bytes)
            }
            Call::AsMap { space, slot, mapping } => shown!(f, "AsMap", space, slot, mapping),
            Call::AsUnmap { space, slot } => shown!(f, "AsUnmap", space, slot),
            Call::Store { address, bytes } => {
                let bytes = &Length(bytes.len());
                shown!(f, "Store", address, bytes)
            }
            Call::GateEnter { gate, label, clearance, verify } => {
                shown!(f, "GateEnter", gate, label, clearance, verify)
            }
            Call::DevSend { entry, bytes } => {
                let bytes = &Length(bytes.len());
                shown!(f, "DevSend", entry, bytes)
            }
            Call::DevRecv { entry } => shown!(f, "DevRecv", entry),
            Call::SelfGet => shown!(f, "SelfGet"),
            Call::ObjLabel { entry } => shown!(f, "ObjLabel", entry),
            Call::ObjQuota { entry } => shown!(f, "ObjQuota", entry),
            Call::ContainerList { container, from } => shown!(f, "ContainerList", container, from),
            Call::ContainerParent { container } => shown!(f, "ContainerParent", container),
            Call::SegmentLen { entry } => shown!(f, "SegmentLen", entry),
            Call::SegmentRead { entry, offset, count } => shown!(f, "SegmentRead", entry, offset, count),
            Call::MetaGet { entry } => shown!(f, "MetaGet", entry),
            Call::AsGet { space, slot } => shown!(f, "AsGet", space, slot),
            Call::Load { address, count } => shown!(f, "Load", address, count),
            // (the end of what is made)
        }
    }
}
