//! Ids of threads, sessions of any of them, and their calls as bytes. Whoever has a thread's id and the kernel calls as that thread, so this is for what
//! decides who calls: a program that maps its clients to threads, or plays scripts. What serves clients is given a
//! [`Session`], which leads to no other thread.
pub use crate::record::Record;
use crate::{Kernel, Object, Seat, Session};

/// The id of a thread, which makes calls.
#[derive(Clone, Copy, PartialEq, Eq, PartialOrd, Ord, Debug, Hash)]
pub struct Thread(pub u64);

impl Thread {
    /// The boot thread.
    pub const BOOT: Thread = Thread(2);
}

impl From<Object> for Thread {
    fn from(object: Object) -> Thread {
        Thread(object.0)
    }
}

impl From<Thread> for Object {
    fn from(thread: Thread) -> Object {
        Object(thread.0)
    }
}

/// The session of any thread of a kernel.
///
/// ```
/// use histar::trusted::{session_of, Thread};
///
/// let kernel = histar::Kernel::boot(64)?;
/// assert_eq!(session_of(&kernel, Thread(99)).self_get().unwrap_err().reason, histar::Refusal::Halted);
/// # Ok::<(), histar::Refused>(())
/// ```
pub fn session_of(kernel: &Kernel, thread: Thread) -> Session<'_> {
    Session::new(kernel, thread)
}

/// The session of any thread, through a seat.
///
/// ```
/// use histar::trusted::{session_at, Thread};
/// use histar::{Refusal, Seat};
/// let seat = Seat::share(64, 10)?;
/// assert_eq!(session_at(&seat, Thread::BOOT).cat_create()?.0, 1);
/// assert_eq!(session_at(&seat, Thread(99)).self_get().unwrap_err().reason, Refusal::Halted);
/// # Ok::<(), histar::Refused>(())
/// ```
pub fn session_at(seat: &Seat, thread: Thread) -> Session<'_> {
    seat.session_of(thread)
}
