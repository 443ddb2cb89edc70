//! Calls about categories, labels, threads and gates. Made from bindings/calls.toml by bindings/make.py.
use super::Session;
use crate::{Call, Category, Entered, Entry, Label, NewGate, Object, Own, Refused, Reply};

#[cfg(doc)]
use crate::Refusal::*;

/// Categories, labels, threads and gates.
impl<'k> Session<'k> {
    /// A new category, which the thread owns: star in its label, 3 in its clearance.
    ///
    /// ```
    /// use histar::label;
    /// # let kernel = histar::Kernel::boot(64)?;
    /// # let boot = kernel.session();
    /// let c = boot.cat_create()?;
    /// let own = boot.self_get()?;
    /// assert_eq!((own.label, own.clearance), (label! { c => Star; L1 }, label! { c => L3; L2 }));
    /// # Ok::<(), histar::Refused>(())
    /// ```
    ///
    /// # Errors
    /// [`LabelFull`], [`Spent`].
    pub fn cat_create(&self) -> Result<Category, Refused> {
        expect_reply!(self.call(&Call::CatCreate)?, Reply::Category)
    }

    /// The thread's label rises, to its clearance at most.
    ///
    /// ```
    /// use histar::{label, Entry, Object, Refusal};
    /// # let kernel = histar::Kernel::boot(64)?;
    /// # let boot = kernel.session();
    /// let note = Entry::in_root(boot.segment_create(Object::ROOT, &label! { L1 }, 2, 1)?);
    /// boot.self_set_label(&label! { L2 })?;
    /// assert_eq!(boot.segment_write(note, 0, b"x").unwrap_err().reason, Refusal::CannotModify);
    /// assert_eq!(boot.self_set_label(&label! { L1 }).unwrap_err().reason, Refusal::LabelRange);
    /// # Ok::<(), histar::Refused>(())
    /// ```
    ///
    /// # Errors
    /// [`BadLabel`], [`LabelRange`].
    pub fn self_set_label(&self, label: &Label) -> Result<(), Refused> {
        self.done(&Call::SelfSetLabel { label: label.into() })
    }

    /// The thread's clearance changes: at least its label, and at most the maximum of the old clearance and of the
    /// label with star raised.
    ///
    /// ```
    /// use histar::{label, Refusal};
    /// # let kernel = histar::Kernel::boot(64)?;
    /// # let boot = kernel.session();
    /// let c = boot.cat_create()?;
    /// boot.self_set_clearance(&label! { L1 })?;
    /// assert_eq!(boot.self_set_label(&label! { L2 }).unwrap_err().reason, Refusal::LabelRange);
    /// // An owner takes its category's clearance back, and no other.
    /// boot.self_set_clearance(&label! { c => L3; L1 })?;
    /// assert_eq!(boot.self_set_clearance(&label! { L2 }).unwrap_err().reason, Refusal::ClearanceRange);
    /// # Ok::<(), histar::Refused>(())
    /// ```
    ///
    /// # Errors
    /// [`BadLabel`], [`ClearanceRange`].
    pub fn self_set_clearance(&self, clearance: &Label) -> Result<(), Refused> {
        self.done(&Call::SelfSetClearance { clearance: clearance.into() })
    }

    /// The thread's address space changes. `Entry::NONE` for none.
    ///
    /// ```
    /// use histar::{label, Entry, Object, Refusal};
    /// # let kernel = histar::Kernel::boot(64)?;
    /// # let boot = kernel.session();
    /// let space = Entry::in_root(boot.as_create(Object::ROOT, &label! { L1 }, 1)?);
    /// boot.self_set_as(space)?;
    /// assert_eq!(boot.self_get()?.space, space);
    /// assert_eq!(boot.self_set_as(Entry::in_root(Object::DEVICE)).unwrap_err().reason, Refusal::WrongType);
    /// # Ok::<(), histar::Refused>(())
    /// ```
    ///
    /// # Errors
    /// [`WrongType`].
    pub fn self_set_as(&self, space: Entry) -> Result<(), Refused> {
        self.done(&Call::SelfSetAs { space })
    }

    /// A new thread, last in a container's list, with the verify label `{3}`, no address space and closure 0. The
    /// answer is its session.
    ///
    /// ```
    /// use histar::{label, Entry, Object, Refusal};
    /// # let kernel = histar::Kernel::boot(64)?;
    /// # let boot = kernel.session();
    /// let c = boot.cat_create()?;
    /// let secret = Entry::in_root(boot.segment_create(Object::ROOT, &label! { c => L3; L1 }, 2, 1)?);
    /// let stranger = boot.thread_create(Object::ROOT, &label! { L1 }, 1, &label! { L2 }, 7)?;
    /// assert_eq!(stranger.self_get()?.entry_point, 7);
    /// assert_eq!(stranger.segment_read(secret, 0, 1).unwrap_err().reason, Refusal::CannotObserve);
    /// # Ok::<(), histar::Refused>(())
    /// ```
    ///
    /// # Errors
    /// [`CannotObserve`], [`CannotModify`], [`BadLabel`], [`LabelRange`], [`ClearanceRange`], [`AvoidType`],
    /// [`NoQuota`], [`Immutable`], [`Spent`].
    pub fn thread_create(
        &self,
        container: Object,
        label: &Label,
        quota: u32,
        clearance: &Label,
        entry_point: u64,
    ) -> Result<Session<'k>, Refused> {
        let call =
            Call::ThreadCreate { container, label: label.into(), quota, clearance: clearance.into(), entry_point };
        let made: Result<Object, Refused> = expect_reply!(self.call(&call)?, Reply::Object);
        made.map(|thread| Session::new(self.kernel, thread.into()))
    }

    /// A new gate, last in a container's list.
    ///
    /// ```
    /// use histar::{label, Entry, NewGate, Object, Refusal};
    /// # let kernel = histar::Kernel::boot(64)?;
    /// # let boot = kernel.session();
    /// let c = boot.cat_create()?;
    /// let (owner, clearance) = (label! { c => Star; L1 }, label! { c => L3; L2 });
    /// let gate = boot.gate_create(&NewGate { closure: 9, ..NewGate::new(&owner, &clearance) })?;
    /// assert_eq!(boot.obj_label(Entry::in_root(gate))?, owner);
    /// // Who does not own the category makes no gate that does.
    /// let stranger = boot.thread_create(Object::ROOT, &label! { L1 }, 1, &label! { L2 }, 0)?;
    /// assert_eq!(stranger.gate_create(&NewGate::new(&owner, &clearance)).unwrap_err().reason, Refusal::LabelRange);
    /// # Ok::<(), histar::Refused>(())
    /// ```
    ///
    /// # Errors
    /// [`CannotObserve`], [`CannotModify`], [`BadLabel`], [`LabelRange`], [`AvoidType`], [`NoQuota`], [`Immutable`],
    /// [`Spent`], [`ClearanceRange`], [`WrongType`].
    pub fn gate_create(&self, gate: &NewGate<'_>) -> Result<Object, Refused> {
        expect_reply!(self.call(&Call::GateCreate(gate.clone()))?, Reply::Object)
    }

    /// The thread enters the gate: it has these labels from then on, and the gate's address space, entry point and
    /// closure.
    ///
    /// ```
    /// use histar::{label, Entry, NewGate, Object, Refusal};
    /// # let kernel = histar::Kernel::boot(64)?;
    /// # let boot = kernel.session();
    /// let c = boot.cat_create()?;
    /// let (owner, clearance) = (label! { c => Star; L1 }, label! { c => L3; L2 });
    /// let gate = Entry::in_root(boot.gate_create(&NewGate { entry_point: 7, ..NewGate::new(&owner, &clearance) })?);
    /// let client = boot.thread_create(Object::ROOT, &label! { L1 }, 1, &label! { L2 }, 0)?;
    /// assert_eq!(client.gate_enter(gate, &owner, &clearance, &label! { L0 }).unwrap_err().reason, Refusal::GateDenied);
    /// assert_eq!(client.gate_enter(gate, &owner, &clearance, &label! { L3 })?.entry_point, 7);
    /// assert_eq!(client.self_get()?.label, owner);
    /// # Ok::<(), histar::Refused>(())
    /// ```
    ///
    /// # Errors
    /// [`WrongType`], [`BadLabel`], [`GateDenied`].
    pub fn gate_enter(
        &self,
        gate: Entry,
        label: &Label,
        clearance: &Label,
        verify: &Label,
    ) -> Result<Entered, Refused> {
        let call = Call::GateEnter { gate, label: label.into(), clearance: clearance.into(), verify: verify.into() };
        expect_reply!(self.call(&call)?, Reply::Entered)
    }

    /// What the thread is.
    ///
    /// ```
    /// use histar::{label, Entry};
    /// # let kernel = histar::Kernel::boot(64)?;
    /// # let boot = kernel.session();
    /// let own = boot.self_get()?;
    /// assert_eq!((own.label, own.clearance, own.space), (label! { L1 }, label! { L2 }, Entry::NONE));
    /// # Ok::<(), histar::Refused>(())
    /// ```
    ///
    /// # Errors
    /// Those of every call.
    pub fn self_get(&self) -> Result<Own, Refused> {
        expect_reply!(self.call(&Call::SelfGet)?, Reply::Own)
    }
}
