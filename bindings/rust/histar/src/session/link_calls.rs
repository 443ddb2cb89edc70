//! Calls about containers, links and quotas. Made from bindings/calls.toml by bindings/make.py.
use super::Session;
use crate::{Call, Entry, Kinds, Label, Listed, Object, Quota, Refused, Reply};

#[cfg(doc)]
use crate::Refusal::*;

/// Containers, links and quotas.
impl Session<'_> {
    /// A new container, last in a container's list, with a quota in pages of 256 bytes and the kinds that it will not
    /// hold.
    ///
    /// ```
    /// use histar::{label, Kinds, Object, Refusal};
    /// # let kernel = histar::Kernel::boot(64)?;
    /// # let boot = kernel.session();
    /// let folder = boot.container_create(Object::ROOT, &label! { L1 }, 8, Kinds::THREADS)?;
    /// assert_eq!(boot.container_list(Object::ROOT, 0)?.ids.last(), Some(&folder));
    /// let refused = boot.thread_create(folder, &label! { L1 }, 1, &label! { L2 }, 0);
    /// assert_eq!(refused.unwrap_err().reason, Refusal::AvoidType);
    /// # Ok::<(), histar::Refused>(())
    /// ```
    ///
    /// # Errors
    /// [`CannotObserve`], [`CannotModify`], [`BadLabel`], [`LabelRange`], [`AvoidType`], [`NoQuota`], [`Immutable`],
    /// [`Spent`].
    pub fn container_create(
        &self,
        container: Object,
        label: &Label,
        quota: u32,
        avoid: Kinds,
    ) -> Result<Object, Refused> {
        expect_reply!(
            self.call(&Call::ContainerCreate { container, label: label.into(), quota, avoid })?,
            Reply::Object
        )
    }

    /// A second link to an object whose quota is fixed, last in the list of `target`, which is charged its whole quota.
    ///
    /// ```
    /// use histar::{label, Entry, Kinds, Object, Refusal};
    /// # let kernel = histar::Kernel::boot(64)?;
    /// # let boot = kernel.session();
    /// let folder = boot.container_create(Object::ROOT, &label! { L1 }, 8, Kinds::NONE)?;
    /// let note = boot.segment_create(Object::ROOT, &label! { L1 }, 2, 1)?;
    /// assert_eq!(boot.link(folder, Entry::in_root(note)).unwrap_err().reason, Refusal::NotFixed);
    /// boot.set_fixed(Entry::in_root(note))?;
    /// boot.link(folder, Entry::in_root(note))?;
    /// assert_eq!(boot.segment_len(Entry::new(folder, note)), Ok(1));
    /// # Ok::<(), histar::Refused>(())
    /// ```
    ///
    /// # Errors
    /// [`WrongType`] for a container, [`CannotObserve`], [`CannotModify`], [`LabelRange`], [`AvoidType`], [`NoQuota`],
    /// [`NotFixed`], [`AlreadyLinked`], [`Immutable`].
    pub fn link(&self, target: Object, entry: Entry) -> Result<(), Refused> {
        self.done(&Call::Link { target, entry })
    }

    /// The object leaves the container's list, and what no path from the root leads to is gone.
    ///
    /// ```
    /// use histar::{label, Entry, Object, Refusal};
    /// # let kernel = histar::Kernel::boot(64)?;
    /// # let boot = kernel.session();
    /// let note = Entry::in_root(boot.segment_create(Object::ROOT, &label! { L1 }, 2, 1)?);
    /// boot.unref(note)?;
    /// assert_eq!(boot.segment_len(note).unwrap_err().reason, Refusal::NoEntry);
    /// assert_eq!(boot.unref(Entry::in_root(Object::ROOT)).unwrap_err().reason, Refusal::RootKept);
    /// # Ok::<(), histar::Refused>(())
    /// ```
    ///
    /// # Errors
    /// [`CannotObserve`], [`CannotModify`], [`RootKept`], [`Immutable`].
    pub fn unref(&self, entry: Entry) -> Result<(), Refused> {
        self.done(&Call::Unref { entry })
    }

    /// The object's quota grows or shrinks by so many pages of 256 bytes.
    ///
    /// ```
    /// use histar::{label, Entry, Object, Refusal};
    /// # let kernel = histar::Kernel::boot(64)?;
    /// # let boot = kernel.session();
    /// let note = Entry::in_root(boot.segment_create(Object::ROOT, &label! { L1 }, 2, 1)?);
    /// boot.quota_move(note, 3)?;
    /// assert_eq!(boot.obj_quota(note)?.quota, 5);
    /// // It uses 2 of them.
    /// assert_eq!(boot.quota_move(note, -4).unwrap_err().reason, Refusal::NoQuota);
    /// # Ok::<(), histar::Refused>(())
    /// ```
    ///
    /// # Errors
    /// [`CannotObserve`], [`CannotModify`], [`LabelRange`], [`NoQuota`], [`FixedQuota`], [`Immutable`].
    pub fn quota_move(&self, entry: Entry, change: i32) -> Result<(), Refused> {
        self.done(&Call::QuotaMove { entry, change })
    }

    /// The object's quota never changes again.
    ///
    /// ```
    /// use histar::{label, Entry, Object, Refusal};
    /// # let kernel = histar::Kernel::boot(64)?;
    /// # let boot = kernel.session();
    /// let note = Entry::in_root(boot.segment_create(Object::ROOT, &label! { L1 }, 2, 1)?);
    /// boot.set_fixed(note)?;
    /// assert_eq!(boot.quota_move(note, 1).unwrap_err().reason, Refusal::FixedQuota);
    /// # Ok::<(), histar::Refused>(())
    /// ```
    ///
    /// # Errors
    /// [`CannotObserve`], [`CannotModify`], [`Immutable`].
    pub fn set_fixed(&self, entry: Entry) -> Result<(), Refused> {
        self.done(&Call::SetFixed { entry })
    }

    /// The object is read-only for good.
    ///
    /// ```
    /// use histar::{label, Entry, Object, Refusal};
    /// # let kernel = histar::Kernel::boot(64)?;
    /// # let boot = kernel.session();
    /// let note = Entry::in_root(boot.segment_create(Object::ROOT, &label! { L1 }, 2, 1)?);
    /// boot.set_immutable(note)?;
    /// assert_eq!(boot.segment_write(note, 0, b"x").unwrap_err().reason, Refusal::Immutable);
    /// assert_eq!(boot.set_immutable(Entry::in_root(boot)).unwrap_err().reason, Refusal::WrongType);
    /// # Ok::<(), histar::Refused>(())
    /// ```
    ///
    /// # Errors
    /// [`WrongType`] for a thread or a device, [`CannotObserve`], [`CannotModify`].
    pub fn set_immutable(&self, entry: Entry) -> Result<(), Refused> {
        self.done(&Call::SetImmutable { entry })
    }

    /// The object's label.
    ///
    /// ```
    /// use histar::{label, Entry, Object, Refusal};
    /// # let kernel = histar::Kernel::boot(64)?;
    /// # let boot = kernel.session();
    /// let c = boot.cat_create()?;
    /// let secret = Entry::in_root(boot.segment_create(Object::ROOT, &label! { c => L3; L1 }, 2, 1)?);
    /// let stranger = boot.thread_create(Object::ROOT, &label! { L1 }, 1, &label! { L2 }, 0)?;
    /// // The label of an object is seen by whoever observes its container, that of a thread is not.
    /// assert_eq!(stranger.obj_label(secret)?, label! { c => L3; L1 });
    /// assert_eq!(stranger.obj_label(Entry::in_root(boot)).unwrap_err().reason, Refusal::CannotObserve);
    /// # Ok::<(), histar::Refused>(())
    /// ```
    ///
    /// # Errors
    /// [`CannotObserve`] for a thread whose label the caller may not see.
    pub fn obj_label(&self, entry: Entry) -> Result<Label, Refused> {
        expect_reply!(self.call(&Call::ObjLabel { entry })?, Reply::Label)
    }

    /// What the object may use and uses.
    ///
    /// ```
    /// use histar::{label, Entry, Object};
    /// # let kernel = histar::Kernel::boot(64)?;
    /// # let boot = kernel.session();
    /// let note = Entry::in_root(boot.segment_create(Object::ROOT, &label! { L1 }, 4, 1)?);
    /// let quota = boot.obj_quota(note)?;
    /// assert_eq!((quota.quota, quota.used, quota.fixed, quota.immutable), (4, 2, false, false));
    /// # Ok::<(), histar::Refused>(())
    /// ```
    ///
    /// # Errors
    /// [`CannotObserve`].
    pub fn obj_quota(&self, entry: Entry) -> Result<Quota, Refused> {
        expect_reply!(self.call(&Call::ObjQuota { entry })?, Reply::Quota)
    }

    /// The length of a container's list, and up to 16 of its ids, from the place `from` on.
    ///
    /// ```
    /// use histar::{Object, Refusal};
    /// # let kernel = histar::Kernel::boot(64)?;
    /// # let boot = kernel.session();
    /// let listed = boot.container_list(Object::ROOT, 0)?;
    /// assert_eq!((listed.length, listed.ids), (2, vec![boot.id(), Object::DEVICE]));
    /// assert_eq!(boot.container_list(Object::ROOT, 3).unwrap_err().reason, Refusal::Bounds);
    /// # Ok::<(), histar::Refused>(())
    /// ```
    ///
    /// # Errors
    /// [`Bounds`].
    pub fn container_list(&self, container: Object, from: u32) -> Result<Listed, Refused> {
        expect_reply!(self.call(&Call::ContainerList { container, from })?, Reply::Listed)
    }

    /// The container that lists a container; the root's is the root.
    ///
    /// ```
    /// use histar::{label, Kinds, Object, Refusal};
    /// # let kernel = histar::Kernel::boot(64)?;
    /// # let boot = kernel.session();
    /// let folder = boot.container_create(Object::ROOT, &label! { L1 }, 8, Kinds::NONE)?;
    /// assert_eq!(boot.container_parent(folder), Ok(Object::ROOT));
    /// assert_eq!(boot.container_parent(Object::DEVICE).unwrap_err().reason, Refusal::NoAccess);
    /// # Ok::<(), histar::Refused>(())
    /// ```
    ///
    /// # Errors
    /// Those of every call.
    pub fn container_parent(&self, container: Object) -> Result<Object, Refused> {
        expect_reply!(self.call(&Call::ContainerParent { container })?, Reply::Parent)
    }
}
