//! Calls about segments, metadata, address spaces and devices. Made from bindings/calls.toml by bindings/make.py.
use super::Session;
use crate::{Bytes, Call, Entry, Label, Mapping, Object, Refused, Reply};

#[cfg(doc)]
use crate::Refusal::*;

/// Segments, metadata, address spaces and devices.
impl Session<'_> {
    /// A new segment of `pages` pages of zeros, 0 to 16, last in a container's list; its quota is at least one page
    /// more.
    ///
    /// ```
    /// use histar::{label, Entry, Object, Refusal};
    /// # let kernel = histar::Kernel::boot(64)?;
    /// # let boot = kernel.session();
    /// let note = Entry::in_root(boot.segment_create(Object::ROOT, &label! { L1 }, 3, 2)?);
    /// assert_eq!(boot.segment_read(note, 256, 4)?, [0; 4]);
    /// assert_eq!(boot.segment_create(Object::ROOT, &label! { L1 }, 2, 2).unwrap_err().reason, Refusal::NoQuota);
    /// # Ok::<(), histar::Refused>(())
    /// ```
    ///
    /// # Errors
    /// [`CannotObserve`], [`CannotModify`], [`BadLabel`], [`LabelRange`], [`AvoidType`], [`NoQuota`], [`Immutable`],
    /// [`Spent`], [`Bounds`].
    pub fn segment_create(&self, container: Object, label: &Label, quota: u32, pages: u32) -> Result<Object, Refused> {
        expect_reply!(self.call(&Call::SegmentCreate { container, label: label.into(), quota, pages })?, Reply::Object)
    }

    /// A new segment with the bytes of another, last in a container's list.
    ///
    /// ```
    /// use histar::{label, Entry, Object, Refusal};
    /// # let kernel = histar::Kernel::boot(64)?;
    /// # let boot = kernel.session();
    /// let c = boot.cat_create()?;
    /// let note = Entry::in_root(boot.segment_create(Object::ROOT, &label! { L1 }, 2, 1)?);
    /// boot.segment_write(note, 0, b"note")?;
    /// let copy = Entry::in_root(boot.segment_copy(Object::ROOT, &label! { c => L3; L1 }, 2, note)?);
    /// assert_eq!(boot.segment_read(copy, 0, 4)?, b"note");
    /// assert_eq!(boot.segment_copy(Object::ROOT, &label! { L1 }, 1, note).unwrap_err().reason, Refusal::NoQuota);
    /// # Ok::<(), histar::Refused>(())
    /// ```
    ///
    /// # Errors
    /// [`CannotObserve`], [`CannotModify`], [`BadLabel`], [`LabelRange`], [`AvoidType`], [`NoQuota`], [`Immutable`],
    /// [`Spent`], [`WrongType`].
    pub fn segment_copy(&self, container: Object, label: &Label, quota: u32, source: Entry) -> Result<Object, Refused> {
        expect_reply!(self.call(&Call::SegmentCopy { container, label: label.into(), quota, source })?, Reply::Object)
    }

    /// A new address space of 16 empty slots, last in a container's list.
    ///
    /// ```
    /// use histar::{label, Entry, Object, Refusal};
    /// # let kernel = histar::Kernel::boot(64)?;
    /// # let boot = kernel.session();
    /// let space = Entry::in_root(boot.as_create(Object::ROOT, &label! { L1 }, 1)?);
    /// assert_eq!(boot.as_get(space, 15), Ok(None));
    /// assert_eq!(boot.as_create(Object::ROOT, &label! { L1 }, 0).unwrap_err().reason, Refusal::NoQuota);
    /// # Ok::<(), histar::Refused>(())
    /// ```
    ///
    /// # Errors
    /// [`CannotObserve`], [`CannotModify`], [`BadLabel`], [`LabelRange`], [`AvoidType`], [`NoQuota`], [`Immutable`],
    /// [`Spent`].
    pub fn as_create(&self, container: Object, label: &Label, quota: u32) -> Result<Object, Refused> {
        expect_reply!(self.call(&Call::AsCreate { container, label: label.into(), quota })?, Reply::Object)
    }

    /// The object's metadata are these 0 to 64 bytes, and then zeros.
    ///
    /// ```
    /// use histar::{label, Entry, Object, Refusal};
    /// # let kernel = histar::Kernel::boot(64)?;
    /// # let boot = kernel.session();
    /// let note = Entry::in_root(boot.segment_create(Object::ROOT, &label! { L1 }, 2, 1)?);
    /// boot.meta_set(note, b"name")?;
    /// boot.meta_set(note, b"no")?;
    /// assert_eq!(boot.meta_get(note)?[..4], *b"no\0\0");
    /// assert_eq!(boot.meta_set(Entry::in_root(boot), b"name").unwrap_err().reason, Refusal::WrongType);
    /// # Ok::<(), histar::Refused>(())
    /// ```
    ///
    /// # Errors
    /// [`WrongType`] for a thread, [`CannotObserve`], [`CannotModify`], [`Immutable`].
    pub fn meta_set(&self, entry: Entry, bytes: &[u8]) -> Result<(), Refused> {
        self.done(&Call::MetaSet { entry, bytes: bytes.into() })
    }

    /// The segment has so many pages, 0 to 16: what is cut off is gone, what is new is 0.
    ///
    /// ```
    /// use histar::{label, Entry, Object, Refusal};
    /// # let kernel = histar::Kernel::boot(64)?;
    /// # let boot = kernel.session();
    /// let note = Entry::in_root(boot.segment_create(Object::ROOT, &label! { L1 }, 3, 1)?);
    /// boot.segment_resize(note, 2)?;
    /// assert_eq!(boot.segment_read(note, 256, 2)?, [0; 2]);
    /// assert_eq!(boot.segment_resize(note, 3).unwrap_err().reason, Refusal::NoQuota);
    /// # Ok::<(), histar::Refused>(())
    /// ```
    ///
    /// # Errors
    /// [`WrongType`], [`CannotObserve`], [`CannotModify`], [`NoQuota`], [`Immutable`], [`Bounds`].
    pub fn segment_resize(&self, entry: Entry, pages: u32) -> Result<(), Refused> {
        self.done(&Call::SegmentResize { entry, pages })
    }

    /// These 1 to 64 bytes, in one page of 256, are written from `offset` on.
    ///
    /// ```
    /// use histar::{label, Entry, Object, Refusal};
    /// # let kernel = histar::Kernel::boot(64)?;
    /// # let boot = kernel.session();
    /// let note = Entry::in_root(boot.segment_create(Object::ROOT, &label! { L1 }, 2, 1)?);
    /// boot.segment_write(note, 254, b"ab")?;
    /// assert_eq!(boot.segment_read(note, 253, 3)?, b"\0ab");
    /// assert_eq!(boot.segment_write(note, 255, b"ab").unwrap_err().reason, Refusal::Bounds);
    /// # Ok::<(), histar::Refused>(())
    /// ```
    ///
    /// # Errors
    /// [`WrongType`], [`CannotObserve`], [`CannotModify`], [`Immutable`], [`Bounds`].
    pub fn segment_write(&self, entry: Entry, offset: u32, bytes: &[u8]) -> Result<(), Refused> {
        self.done(&Call::SegmentWrite { entry, offset, bytes: bytes.into() })
    }

    /// An empty slot, 0 to 15, of the address space shows pages of a segment.
    ///
    /// ```
    /// use histar::{label, Entry, Mapping, Object, Refusal, Rights};
    /// # let kernel = histar::Kernel::boot(64)?;
    /// # let boot = kernel.session();
    /// let note = Entry::in_root(boot.segment_create(Object::ROOT, &label! { L1 }, 2, 1)?);
    /// let space = Entry::in_root(boot.as_create(Object::ROOT, &label! { L1 }, 1)?);
    /// let mapping = Mapping { page: 4, segment: note, first: 0, count: 1, rights: Rights::READ };
    /// boot.as_map(space, 0, mapping)?;
    /// boot.self_set_as(space)?;
    /// boot.segment_write(note, 0, b"note")?;
    /// assert_eq!(boot.load(4 * 256, 4)?, b"note");
    /// assert_eq!(boot.as_map(space, 1, mapping).unwrap_err().reason, Refusal::Overlap);
    /// # Ok::<(), histar::Refused>(())
    /// ```
    ///
    /// # Errors
    /// [`WrongType`], [`CannotObserve`], [`CannotModify`], [`Immutable`], [`Bounds`], [`Overlap`].
    pub fn as_map(&self, space: Entry, slot: u32, mapping: Mapping) -> Result<(), Refused> {
        self.done(&Call::AsMap { space, slot, mapping })
    }

    /// A filled slot, 0 to 15, is emptied.
    ///
    /// ```
    /// use histar::{label, Entry, Mapping, Object, Refusal, Rights};
    /// # let kernel = histar::Kernel::boot(64)?;
    /// # let boot = kernel.session();
    /// let note = Entry::in_root(boot.segment_create(Object::ROOT, &label! { L1 }, 2, 1)?);
    /// let space = Entry::in_root(boot.as_create(Object::ROOT, &label! { L1 }, 1)?);
    /// let mapping = Mapping { page: 4, segment: note, first: 0, count: 1, rights: Rights::READ };
    /// boot.as_map(space, 0, mapping)?;
    /// boot.as_unmap(space, 0)?;
    /// assert_eq!(boot.as_get(space, 0), Ok(None));
    /// assert_eq!(boot.as_unmap(space, 0).unwrap_err().reason, Refusal::NotMapped);
    /// # Ok::<(), histar::Refused>(())
    /// ```
    ///
    /// # Errors
    /// [`WrongType`], [`CannotObserve`], [`CannotModify`], [`Immutable`], [`Bounds`], [`NotMapped`].
    pub fn as_unmap(&self, space: Entry, slot: u32) -> Result<(), Refused> {
        self.done(&Call::AsUnmap { space, slot })
    }

    /// These 1 to 64 bytes, in one page of 256, are written through the thread's address space.
    ///
    /// ```
    /// use histar::{label, Entry, Mapping, Object, Refusal, Rights};
    /// # let kernel = histar::Kernel::boot(64)?;
    /// # let boot = kernel.session();
    /// let note = Entry::in_root(boot.segment_create(Object::ROOT, &label! { L1 }, 2, 1)?);
    /// let space = Entry::in_root(boot.as_create(Object::ROOT, &label! { L1 }, 1)?);
    /// let mapping = Mapping { page: 4, segment: note, first: 0, count: 1, rights: Rights::READ_WRITE };
    /// boot.as_map(space, 0, mapping)?;
    /// boot.self_set_as(space)?;
    /// boot.store(4 * 256 + 9, b"note")?;
    /// assert_eq!(boot.segment_read(note, 9, 4)?, b"note");
    /// boot.set_immutable(note)?;
    /// assert_eq!(boot.store(4 * 256, b"x").unwrap_err().reason, Refusal::RightsDenied);
    /// # Ok::<(), histar::Refused>(())
    /// ```
    ///
    /// # Errors
    /// [`Bounds`], [`NotMapped`], [`RightsDenied`].
    pub fn store(&self, address: u64, bytes: &[u8]) -> Result<(), Refused> {
        self.done(&Call::Store { address, bytes: bytes.into() })
    }

    /// A packet of 1 to 64 bytes is last in the device's queue.
    ///
    /// ```
    /// use histar::{Entry, Object, Refusal};
    /// # let kernel = histar::Kernel::boot(64)?;
    /// # let boot = kernel.session();
    /// let device = Entry::in_root(Object::DEVICE);
    /// for _ in 0..4 {
    ///     boot.dev_send(device, b"packet")?;
    /// }
    /// assert_eq!(boot.dev_send(device, b"packet").unwrap_err().reason, Refusal::DeviceFull);
    /// # Ok::<(), histar::Refused>(())
    /// ```
    ///
    /// # Errors
    /// [`WrongType`], [`CannotObserve`], [`CannotModify`], [`Bounds`], [`DeviceFull`].
    pub fn dev_send(&self, device: Entry, bytes: &[u8]) -> Result<(), Refused> {
        self.done(&Call::DevSend { entry: device, bytes: bytes.into() })
    }

    /// The first packet of the device's queue is taken out.
    ///
    /// ```
    /// use histar::{Entry, Object, Refusal};
    /// # let kernel = histar::Kernel::boot(64)?;
    /// # let boot = kernel.session();
    /// let device = Entry::in_root(Object::DEVICE);
    /// boot.dev_send(device, b"first")?;
    /// boot.dev_send(device, b"second")?;
    /// assert_eq!(boot.dev_recv(device)?, b"first");
    /// assert_eq!(boot.dev_recv(device)?, b"second");
    /// assert_eq!(boot.dev_recv(device).unwrap_err().reason, Refusal::DeviceEmpty);
    /// # Ok::<(), histar::Refused>(())
    /// ```
    ///
    /// # Errors
    /// [`WrongType`], [`CannotObserve`], [`CannotModify`], [`DeviceEmpty`].
    pub fn dev_recv(&self, device: Entry) -> Result<Bytes, Refused> {
        expect_reply!(self.call(&Call::DevRecv { entry: device })?, Reply::Bytes)
    }

    /// The segment's length in pages of 256 bytes.
    ///
    /// ```
    /// use histar::{label, Entry, Object, Refusal};
    /// # let kernel = histar::Kernel::boot(64)?;
    /// # let boot = kernel.session();
    /// let note = Entry::in_root(boot.segment_create(Object::ROOT, &label! { L1 }, 4, 3)?);
    /// assert_eq!(boot.segment_len(note), Ok(3));
    /// assert_eq!(boot.segment_len(Entry::in_root(Object::DEVICE)).unwrap_err().reason, Refusal::WrongType);
    /// # Ok::<(), histar::Refused>(())
    /// ```
    ///
    /// # Errors
    /// [`WrongType`], [`CannotObserve`].
    pub fn segment_len(&self, entry: Entry) -> Result<u32, Refused> {
        expect_reply!(self.call(&Call::SegmentLen { entry })?, Reply::Pages)
    }

    /// 1 to 64 bytes of the segment, in one page of 256, from `offset` on.
    ///
    /// ```
    /// use histar::{label, Entry, Object, Refusal};
    /// # let kernel = histar::Kernel::boot(64)?;
    /// # let boot = kernel.session();
    /// let note = Entry::in_root(boot.segment_create(Object::ROOT, &label! { L1 }, 2, 1)?);
    /// boot.segment_write(note, 0, b"note")?;
    /// assert_eq!(boot.segment_read(note, 1, 3)?, b"ote");
    /// assert_eq!(boot.segment_read(note, 256, 1).unwrap_err().reason, Refusal::Bounds);
    /// # Ok::<(), histar::Refused>(())
    /// ```
    ///
    /// # Errors
    /// [`WrongType`], [`CannotObserve`], [`Bounds`].
    pub fn segment_read(&self, entry: Entry, offset: u32, count: u32) -> Result<Bytes, Refused> {
        expect_reply!(self.call(&Call::SegmentRead { entry, offset, count })?, Reply::Bytes)
    }

    /// The 64 bytes of the object's metadata.
    ///
    /// ```
    /// use histar::{label, Entry, Object, Refusal};
    /// # let kernel = histar::Kernel::boot(64)?;
    /// # let boot = kernel.session();
    /// let note = Entry::in_root(boot.segment_create(Object::ROOT, &label! { L1 }, 2, 1)?);
    /// assert_eq!(boot.meta_get(note)?, [0; 64]);
    /// assert_eq!(boot.meta_get(Entry::in_root(boot)).unwrap_err().reason, Refusal::WrongType);
    /// # Ok::<(), histar::Refused>(())
    /// ```
    ///
    /// # Errors
    /// [`WrongType`] for a thread, [`CannotObserve`].
    pub fn meta_get(&self, entry: Entry) -> Result<Bytes, Refused> {
        expect_reply!(self.call(&Call::MetaGet { entry })?, Reply::Bytes)
    }

    /// What a slot, 0 to 15, of the address space maps.
    ///
    /// ```
    /// use histar::{label, Entry, Mapping, Object, Refusal, Rights};
    /// # let kernel = histar::Kernel::boot(64)?;
    /// # let boot = kernel.session();
    /// let note = Entry::in_root(boot.segment_create(Object::ROOT, &label! { L1 }, 2, 1)?);
    /// let space = Entry::in_root(boot.as_create(Object::ROOT, &label! { L1 }, 1)?);
    /// let mapping = Mapping { page: 4, segment: note, first: 0, count: 1, rights: Rights::READ };
    /// boot.as_map(space, 0, mapping)?;
    /// assert_eq!(boot.as_get(space, 0), Ok(Some(mapping)));
    /// assert_eq!(boot.as_get(space, 16).unwrap_err().reason, Refusal::Bounds);
    /// # Ok::<(), histar::Refused>(())
    /// ```
    ///
    /// # Errors
    /// [`WrongType`], [`CannotObserve`], [`Bounds`].
    pub fn as_get(&self, space: Entry, slot: u32) -> Result<Option<Mapping>, Refused> {
        expect_reply!(self.call(&Call::AsGet { space, slot })?, Reply::Mapping)
    }

    /// 1 to 64 bytes, in one page of 256, read through the thread's address space.
    ///
    /// ```
    /// use histar::{label, Entry, Mapping, Object, Refusal, Rights};
    /// # let kernel = histar::Kernel::boot(64)?;
    /// # let boot = kernel.session();
    /// let note = Entry::in_root(boot.segment_create(Object::ROOT, &label! { L1 }, 2, 1)?);
    /// boot.segment_write(note, 9, b"note")?;
    /// let space = Entry::in_root(boot.as_create(Object::ROOT, &label! { L1 }, 1)?);
    /// let mapping = Mapping { page: 4, segment: note, first: 0, count: 1, rights: Rights::READ };
    /// boot.as_map(space, 0, mapping)?;
    /// boot.self_set_as(space)?;
    /// assert_eq!(boot.load(4 * 256 + 9, 4)?, b"note");
    /// assert_eq!(boot.load(5 * 256, 1).unwrap_err().reason, Refusal::NotMapped);
    /// # Ok::<(), histar::Refused>(())
    /// ```
    ///
    /// # Errors
    /// [`Bounds`], [`NotMapped`], [`RightsDenied`].
    pub fn load(&self, address: u64, count: u32) -> Result<Bytes, Refused> {
        expect_reply!(self.call(&Call::Load { address, count })?, Reply::Bytes)
    }
}
