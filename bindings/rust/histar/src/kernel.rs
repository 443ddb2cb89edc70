//! A kernel.
use crate::raw::{Answer, Raw, Request};
use crate::trusted::Thread;
use crate::{Call, Limits, Refused, Reply, Session};

#[cfg(doc)]
use crate::Refusal::*;

/// A label kernel. It can be sent to another thread, and one thread at a time calls it: many threads
/// [share](crate::Seat::share) one.
///
/// ```
/// fn can_be_sent<T: Send>() {}
/// can_be_sent::<histar::Kernel>();
/// ```
///
/// ```compile_fail
/// fn can_be_shared<T: Sync>() {}
/// can_be_shared::<histar::Kernel>();
/// ```
pub struct Kernel {
    pub(crate) raw: Raw,
}

/// The reply that the library told.
pub(crate) fn told(answer: &Answer) -> Reply {
    answer.reply().unwrap_or_else(|| unreachable!("the library told no reply"))
}

impl Kernel {
    /// A new kernel, with all limits.
    ///
    /// ```
    /// use histar::{Kernel, Level, Limits, Refusal};
    /// let kernel = Kernel::boot_with(&Limits { next_category: 7, ..Limits::pages(64) })?;
    /// assert_eq!(kernel.session().cat_create()?.0, 7);
    /// let star = Limits { device: Level::Star, ..Limits::pages(64) };
    /// assert_eq!(Kernel::boot_with(&star).unwrap_err().reason, Refusal::BadLimits);
    /// # Ok::<(), histar::Refused>(())
    /// ```
    ///
    /// # Errors
    /// [`BadLimits`] where a limit is out of its range, and [`Unavailable`] for want of memory.
    pub fn boot_with(limits: &Limits) -> Result<Kernel, Refused> {
        let raw = Raw::boot(limits).map_err(|why| Refused::of("boot", why))?;
        Ok(Kernel { raw })
    }

    /// A new kernel of so many pages of 256 bytes, 8 to 1,024, with the limits of a script.
    ///
    /// ```
    /// use histar::{Entry, Kernel, Object, Refusal};
    /// let kernel = Kernel::boot(8)?;
    /// assert_eq!(kernel.session().obj_quota(Entry::in_root(Object::ROOT))?.quota, 8);
    /// assert_eq!(Kernel::boot(7).unwrap_err().reason, Refusal::BadLimits);
    /// # Ok::<(), histar::Refused>(())
    /// ```
    ///
    /// # Errors
    /// As [`boot_with`](Kernel::boot_with).
    pub fn boot(pages: u32) -> Result<Kernel, Refused> {
        Kernel::boot_with(&Limits::pages(pages))
    }

    /// The session of the boot thread, which may do all that the rules allow: it makes the other sessions.
    ///
    /// ```
    /// use histar::{label, Kernel, Object};
    /// let kernel = Kernel::boot(64)?;
    /// assert_eq!(kernel.session().id(), Object(2));
    /// assert_eq!(kernel.session().self_get()?.clearance, label! { L2 });
    /// # Ok::<(), histar::Refused>(())
    /// ```
    pub fn session(&self) -> Session<'_> {
        Session::new(self, Thread::BOOT)
    }

    /// One call of a thread, as a value.
    ///
    /// ```
    /// use histar::trusted::Thread;
    /// use histar::{Call, Category, Kernel, Refusal, Reply};
    /// let kernel = Kernel::boot(64)?;
    /// assert_eq!(kernel.call(Thread::BOOT, &Call::CatCreate), Ok(Reply::Category(Category(1))));
    /// assert_eq!(kernel.call(Thread(99), &Call::CatCreate).unwrap_err().reason, Refusal::Halted);
    /// # Ok::<(), histar::Refused>(())
    /// ```
    ///
    /// # Errors
    /// The refusal of the call's row in docs/CALLS.md; if several checks fail, the one with the lowest number. A refused call
    /// changes nothing.
    pub fn call(&self, thread: Thread, call: &Call<'_>) -> Result<Reply, Refused> {
        let fill = |request: &mut Request| {
            request.thread = thread.0;
            request.put_call(call);
        };
        self.raw.ask(fill, told)
    }
}

impl std::fmt::Debug for Kernel {
    fn fmt(&self, f: &mut std::fmt::Formatter<'_>) -> std::fmt::Result {
        f.debug_struct("Kernel").finish_non_exhaustive()
    }
}
