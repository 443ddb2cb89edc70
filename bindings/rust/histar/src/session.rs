//! A thread's calls: a method a call, named as the script's word.
use crate::trusted::Thread;
use crate::{Call, Kernel, Object, Refused, Reply};
use std::rc::Rc;

#[cfg(doc)]
use crate::Refusal::*;

/// The value of a reply that the call gives.
macro_rules! expect_reply {
    ($reply:expr, $variant:path) => {
        match $reply {
            $variant(value) => Ok(value),
            other => unreachable!("the library told another reply: {other:?}"),
        }
    };
}

mod link_calls;
mod memory_calls;
mod thread_calls;

/// A kernel and one thread of it. Whoever has a session calls as its thread and as no other: it leads to no other thread's calls
/// but to those of threads that it makes. [`Kernel::session`] is the boot thread's.
///
/// Each call may be refused [`Halted`], where the thread is gone, [`BadBatch`], where the arguments
/// make no call, as 65 bytes, and, where calls are kept, [`Memory`], without memory for it, and [`LogFull`]. One that names an
/// entry may be refused [`NoAccess`], where its container is not there or not observed, and
/// [`NoEntry`], where the container does not list the object. A method's Errors name the refusals beside these.
/// If several checks fail, the one with the lowest number is given. A refused call changes nothing.
#[derive(Clone, Copy, Debug)]
pub struct Session<'k> {
    kernel: &'k Kernel,
    thread: Thread,
}

/// The thread as an object, for entries.
impl From<Session<'_>> for Object {
    fn from(session: Session<'_>) -> Object {
        session.thread.into()
    }
}

/// The same.
impl From<&Session<'_>> for Object {
    fn from(session: &Session<'_>) -> Object {
        session.thread.into()
    }
}

impl<'k> Session<'k> {
    /// The session of a thread of a kernel.
    pub(crate) fn new(kernel: &'k Kernel, thread: Thread) -> Session<'k> {
        Session { kernel, thread }
    }

    /// The thread's id as an object, for entries.
    ///
    /// ```
    /// use histar::{label, Object};
    /// # let kernel = histar::Kernel::boot(64)?;
    /// # let boot = kernel.session();
    /// let made = boot.thread_create(Object::ROOT, &label! { L1 }, 1, &label! { L2 }, 0)?;
    /// assert_eq!((boot.id(), made.id()), (Object(2), Object(4)));
    /// # Ok::<(), histar::Refused>(())
    /// ```
    pub fn id(&self) -> Object {
        self.thread.into()
    }

    /// One call, as a value.
    ///
    /// ```
    /// use histar::{Call, Category, Entry, Refusal, Reply};
    /// # let kernel = histar::Kernel::boot(64)?;
    /// # let boot = kernel.session();
    /// assert_eq!(boot.call(&Call::CatCreate), Ok(Reply::Category(Category(1))));
    /// assert_eq!(boot.call(&Call::Unref { entry: Entry::NONE }).unwrap_err().reason, Refusal::NoAccess);
    /// # Ok::<(), histar::Refused>(())
    /// ```
    ///
    /// # Errors
    /// Those of the call.
    pub fn call(&self, call: &Call<'_>) -> Result<Reply, Refused> {
        self.kernel.call(self.thread, call)
    }

    /// What a container lists, by as many calls of [`container_list`](Session::container_list) as it takes. It ends after a refusal.
    ///
    /// ```
    /// use histar::{label, Object, Refusal};
    /// # let kernel = histar::Kernel::boot(64)?;
    /// # let boot = kernel.session();
    /// for _ in 0..20 {
    ///     boot.segment_create(Object::ROOT, &label! { L1 }, 1, 0)?;
    /// }
    /// assert_eq!(boot.objects_in(Object::ROOT).count(), 22);
    /// assert_eq!(boot.objects_in(Object(99)).next().unwrap().unwrap_err().reason, Refusal::NoAccess);
    /// # Ok::<(), histar::Refused>(())
    /// ```
    pub fn objects_in(&self, container: Object) -> ObjectsIn<'k> {
        ObjectsIn { session: *self, container, from: 0, listed: Vec::new().into_iter(), is_over: false }
    }

    /// The session as one that has its kernel, where it is of this one: it can be stored, as in a struct.
    ///
    /// ```
    /// use histar::{Kernel, StoredSession};
    /// use std::rc::Rc;
    ///
    /// struct Client {
    ///     session: StoredSession,
    /// }
    /// let kernel = Rc::new(Kernel::boot(64)?);
    /// let client = Client { session: kernel.session().stored(&kernel).unwrap() };
    /// assert!(Kernel::boot(8)?.session().stored(&kernel).is_none());
    /// drop(kernel);
    /// assert_eq!(client.session.session().cat_create()?.0, 1);
    /// # Ok::<(), histar::Refused>(())
    /// ```
    pub fn stored(&self, kernel: &Rc<Kernel>) -> Option<StoredSession> {
        let is_its = std::ptr::eq(self.kernel, &**kernel);
        is_its.then(|| StoredSession { kernel: Rc::clone(kernel), thread: self.thread })
    }

    /// A call that answers nothing but its refusal.
    fn done(&self, call: &Call<'_>) -> Result<(), Refused> {
        self.call(call).map(drop)
    }
}

/// A session that has its kernel, together with others: [`Session::stored`] gives it.
#[derive(Clone, Debug)]
pub struct StoredSession {
    kernel: Rc<Kernel>,
    thread: Thread,
}

impl StoredSession {
    /// The session, to call by.
    ///
    /// ```
    /// use histar::{Kernel, Object};
    /// use std::rc::Rc;
    /// let kernel = Rc::new(Kernel::boot(64)?);
    /// let stored = kernel.session().stored(&kernel).unwrap();
    /// assert_eq!(stored.session().id(), Object(2));
    /// # Ok::<(), histar::Refused>(())
    /// ```
    pub fn session(&self) -> Session<'_> {
        Session::new(&self.kernel, self.thread)
    }
}

/// The objects of a container: [`Session::objects_in`] gives them.
#[derive(Debug)]
pub struct ObjectsIn<'k> {
    session: Session<'k>,
    container: Object,
    from: u32,
    listed: std::vec::IntoIter<Object>,
    is_over: bool,
}

impl Iterator for ObjectsIn<'_> {
    type Item = Result<Object, Refused>;

    fn next(&mut self) -> Option<Result<Object, Refused>> {
        if self.listed.len() == 0 && !self.is_over {
            match self.session.container_list(self.container, self.from) {
                Ok(more) => {
                    self.from += more.ids.len() as u32;
                    self.is_over = more.ids.is_empty();
                    self.listed = more.ids.into_iter();
                }
                Err(refused) => {
                    self.is_over = true;
                    return Some(Err(refused));
                }
            }
        }
        self.listed.next().map(Ok)
    }
}
