//! One kernel for many threads, with no lock: each thread has a seat.
use crate::raw::{Answer, Raw, Request};
use crate::trusted::Thread;
use crate::{Call, Entry, Kernel, Limits, Refusal, Refused, Reply, Session};
use std::marker::PhantomData;
use std::sync::atomic::{AtomicU64, Ordering};

#[cfg(doc)]
use crate::Refusal::*;

/// How many kernels were shared: each has a number of its own.
static COUNT: AtomicU64 = AtomicU64::new(0);

/// Whether the list of a shared kernel's write calls has a log.
#[derive(Clone, Copy, PartialEq, Eq, Debug)]
pub enum Log {
    /// It gives back what all seats have seen, and has no dump.
    None,
    /// It keeps all write calls, so that seats have dumps.
    Whole,
}

/// What a seat has seen, for another seat of the same kernel to [learn](Seat::learn).
#[derive(Clone, Copy, PartialEq, Eq, Debug)]
pub struct Note {
    shared: u64,
    calls: u64,
}

/// One thread's seat at a kernel that threads share. Each thread calls through a seat of its own, and all seats are in one state: each
/// write call stands in one list, and a call through a seat first plays what others added to it since, on the seat's own kernel. No call
/// takes a lock, and a read waits for nobody. That the calls are one history, and that each seat answers by the rules, is proved of the
/// library. The kernel is shared by its first seat, and [another](Seat::another) is opened beside any; it goes with the last.
///
/// The list gives back what all seats have seen, so a seat that makes no call keeps what it lacks.
///
/// ```
/// use histar::{label, Entry, Object, Seat};
///
/// let seat = Seat::share(64, 1000)?;
/// let made = Entry::in_root(seat.session().segment_create(Object::ROOT, &label! { L1 }, 2, 1)?);
/// let other = seat.another()?;
/// std::thread::spawn(move || other.session().segment_write(made, 0, b"mine")).join().unwrap()?;
/// assert_eq!(seat.session().segment_read(made, 0, 4)?, b"mine");
/// # Ok::<(), histar::Refused>(())
/// ```
///
/// ```
/// fn can_be_sent<T: Send + 'static>() {}
/// can_be_sent::<histar::Seat>();
/// ```
///
/// ```compile_fail
/// fn can_be_shared<T: Sync>() {}
/// can_be_shared::<histar::Seat>();
/// ```
pub struct Seat {
    kernel: Kernel,
    shared: u64,
}

impl Seat {
    /// The first seat of a kernel for threads to share, with all limits. A seat may lack so many write calls, of which a batch counts as
    /// one: at most 4,194,304, for which `u64::MAX` stands, rounded up to a multiple of 256, and 256 more. A list with a log may have so
    /// many. The list takes memory as it grows.
    ///
    /// ```
    /// use histar::{Limits, Log, Refusal, Seat};
    /// let seat = Seat::share_with(&Limits { next_category: 7, ..Limits::pages(64) }, 1, Log::Whole)?;
    /// assert_eq!(seat.session().cat_create()?.0, 7);
    /// assert!(seat.dump()?.contains("cat_create => cat #7"));
    /// # Ok::<(), histar::Refused>(())
    /// ```
    ///
    /// # Errors
    /// [`BadLimits`] where a limit is out of its range, and [`Unavailable`] for want of memory.
    pub fn share_with(limits: &Limits, most: u64, log: Log) -> Result<Seat, Refused> {
        let raw = Raw::first_seat(limits, most, log == Log::Whole).map_err(|why| Refused::of("share", why))?;
        Ok(Seat { kernel: Kernel { raw }, shared: COUNT.fetch_add(1, Ordering::Relaxed) })
    }

    /// The same, of so many pages of 256 bytes, 8 to 1,024, with the limits of a script, and no log.
    ///
    /// ```
    /// use histar::{Refusal, Seat};
    /// assert!(Seat::share(8, 10).is_ok());
    /// assert_eq!(Seat::share(7, 10).unwrap_err().reason, Refusal::BadLimits);
    /// # Ok::<(), histar::Refused>(())
    /// ```
    ///
    /// # Errors
    /// As [`share_with`](Seat::share_with).
    pub fn share(pages: u32, most: u64) -> Result<Seat, Refused> {
        Seat::share_with(&Limits::pages(pages), most, Log::None)
    }

    /// Another seat of the same kernel, for another thread. Its own kernel is a copy of this one's: it has seen what this one has, and no
    /// call is played again.
    ///
    /// ```
    /// use histar::{label, Seat};
    /// let seat = Seat::share(64, 10)?;
    /// let c = seat.session().cat_create()?;
    /// assert_eq!(seat.another()?.session().self_get()?.label, label! { c => Star; L1 });
    /// # Ok::<(), histar::Refused>(())
    /// ```
    ///
    /// # Errors
    /// [`Unavailable`] for want of memory, and where the kernel has 4,096 seats.
    pub fn another(&self) -> Result<Seat, Refused> {
        let raw = self.kernel.raw.seat_beside().map_err(|why| Refused::of("another", why))?;
        Ok(Seat { kernel: Kernel { raw }, shared: self.shared })
    }

    /// The seat as it stands, for many threads to read at once: each through a [reader](View::reader) of its own, which has no other
    /// kernel. No call goes through the seat as long as it is viewed; other seats go on.
    ///
    /// ```
    /// use histar::{label, Entry, Object, Seat};
    ///
    /// let mut seat = Seat::share(64, 1000)?;
    /// let made = Entry::in_root(seat.session().segment_create(Object::ROOT, &label! { L1 }, 2, 1)?);
    /// seat.session().segment_write(made, 0, b"seen")?;
    /// let other = seat.another()?;
    /// let view = seat.view();
    /// let readers = [view.reader()?, view.reader()?, view.reader()?, view.reader()?];
    /// std::thread::scope(|scope| {
    ///     for reader in readers {
    ///         scope.spawn(move || assert_eq!(reader.session().segment_read(made, 0, 4).unwrap(), b"seen"));
    ///     }
    ///     other.session().segment_write(made, 0, b"then")
    /// })?;
    /// assert_eq!(seat.session().segment_read(made, 0, 4)?, b"then");
    /// # Ok::<(), histar::Refused>(())
    /// ```
    ///
    /// ```compile_fail
    /// let mut seat = histar::Seat::share(64, 10).unwrap();
    /// let view = seat.view();
    /// let _ = seat.session().cat_create();
    /// let _ = view.reader();
    /// ```
    pub fn view(&mut self) -> View<'_> {
        View { seat: self }
    }

    /// The session of the boot thread, as [`Kernel::session`].
    ///
    /// ```
    /// use histar::{Object, Seat};
    /// let seat = Seat::share(64, 10)?;
    /// assert_eq!(seat.session().id(), Object(2));
    /// # Ok::<(), histar::Refused>(())
    /// ```
    pub fn session(&self) -> Session<'_> {
        self.kernel.session()
    }

    /// The session of any thread: for what decides who calls, as [`trusted::session_of`](crate::trusted::session_of).
    pub(crate) fn session_of(&self, thread: Thread) -> Session<'_> {
        Session::new(&self.kernel, thread)
    }

    /// One call of a thread, as [`Kernel::call`]. A write call becomes the last of the list.
    ///
    /// ```
    /// use histar::trusted::Thread;
    /// use histar::{Call, Reply, Seat};
    /// let seat = Seat::share(64, 10)?;
    /// assert!(matches!(seat.call(Thread::BOOT, &Call::CatCreate), Ok(Reply::Category(_))));
    /// assert!(seat.call(Thread::BOOT, &Call::SelfGet).is_ok());
    /// # Ok::<(), histar::Refused>(())
    /// ```
    ///
    /// # Errors
    /// Those of the call; and of a write call [`Memory`], where there is none to keep it, [`ListFull`], where a seat lacks as many as
    /// it may lack, or a list with a log has as many as it may have, and [`Busy`], where another thread stands still in the middle of adding its call. It is not made then.
    pub fn call(&self, thread: Thread, call: &Call<'_>) -> Result<Reply, Refused> {
        self.kernel.call(thread, call)
    }

    /// 1 to 16 write calls of a thread, which are made at once: no other call stands between them, and no seat sees some of them without
    /// the rest. Each is answered in the state that those before it leave; one that is refused changes nothing, and the rest are made.
    ///
    /// ```
    /// use histar::trusted::Thread;
    /// use histar::{label, Call, Object, Refusal, Refused, Reply, Seat};
    ///
    /// let seat = Seat::share(64, u64::MAX)?;
    /// let large = Call::SegmentCreate { container: Object::ROOT, label: label! { L1 }.into(), quota: 99, pages: 1 };
    /// let replies = seat.batch(Thread::BOOT, &[large, Call::CatCreate])?;
    /// assert_eq!(replies[0].as_ref().unwrap_err().reason, Refusal::NoQuota);
    /// assert!(matches!(replies[1], Ok(Reply::Category(_))));
    /// assert_eq!(seat.batch(Thread::BOOT, &[]).unwrap_err().reason, Refusal::BadBatch);
    /// # Ok::<(), Refused>(())
    /// ```
    ///
    /// # Errors
    /// `BadBatch` of another number of calls, and where one is no write call or its arguments make none; and `Memory`, `ListFull` and
    /// `Busy` as of one [call](Seat::call). No call is made then.
    pub fn batch(&self, thread: Thread, calls: &[Call<'_>]) -> Result<Vec<Result<Reply, Refused>>, Refused> {
        let raw = &self.kernel.raw;
        raw.ask(|request| request.put(45, &Entry::NONE, []), |_| ())?;
        for call in calls {
            raw.ask(|request| request.put_batch_call(call), |_| ())?;
        }
        let make = |request: &mut Request| {
            request.thread = thread.0;
            request.put(46, &Entry::NONE, []);
        };
        raw.ask(make, |_| ())?;
        let told = |at| {
            let reply = |answer: &Answer| answer.reply().unwrap_or_else(|| unreachable!("the library told no reply"));
            raw.ask(|request| request.put(47, &Entry::NONE, [at]), reply)
        };
        let each = calls.iter().zip(0..);
        Ok(each.map(|(call, at)| told(at).map_err(|refused| Refused::call(call, refused.reason))).collect())
    }

    /// The dump of what the seat has seen: each batch of each seat as an event, with the answers of its calls. It is what a
    /// [`Kernel::dump`] is, so `histar-audit` tells whether its answers are those of the rules.
    ///
    /// ```
    /// use histar::{Limits, Log, Refusal, Seat};
    /// let first = Seat::share_with(&Limits::pages(64), 10, Log::Whole)?;
    /// let second = first.another()?;
    /// first.session().cat_create()?;
    /// second.learn(first.seen())?;
    /// assert!(second.dump()?.contains("cat_create => cat #1"));
    /// assert_eq!(Seat::share(64, 10)?.dump().unwrap_err().reason, Refusal::BadBatch);
    /// # Ok::<(), histar::Refused>(())
    /// ```
    ///
    /// # Errors
    /// `BadBatch` where the list has no log, and `TextMemory` where the library has no memory for the text.
    pub fn dump(&self) -> Result<String, Refused> {
        self.kernel.dump()
    }

    /// Writes the [`dump`](Seat::dump) of what the seat has seen, as [`Kernel::dump_to`] writes a kernel's.
    ///
    /// ```
    /// use histar::{Limits, Log, Seat};
    /// let seat = Seat::share_with(&Limits::pages(64), 10, Log::Whole)?;
    /// seat.session().cat_create()?;
    /// let mut text = Vec::new();
    /// seat.dump_to(&mut text)?;
    /// assert_eq!(text, seat.dump()?.as_bytes());
    /// # Ok::<(), std::io::Error>(())
    /// ```
    ///
    /// # Errors
    /// As [`dump`](Seat::dump), and what `out` gives.
    pub fn dump_to(&self, out: &mut impl std::io::Write) -> std::io::Result<()> {
        self.kernel.dump_to(out)
    }

    /// Writes the dump of what this seat has seen since an older one, as [`dump_to`](Seat::dump_to). It begins at a checkpoint of the older
    /// seat's state, where each thread's first event has number 1, and needs no log. So a service of weeks has all its calls in dumps, and keeps
    /// those since the last alone.
    ///
    /// ```
    /// use histar::{Kernel, Seat};
    /// let seat = Seat::share(64, 1000)?;
    /// let mut older = seat.another()?;
    /// for number in 1..3 {
    ///     seat.session().cat_create()?;
    ///     let mut text = Vec::new();
    ///     seat.dump_since(&older, &mut text)?;
    ///     let text = String::from_utf8(text).unwrap();
    ///     assert!(text.contains(&format!("\nevent 2 1 cat_create => cat #{number}\n")));
    ///     assert_eq!(text.matches("\nevent ").count(), 1);
    ///     older = seat.another()?;
    /// }
    /// # Ok::<(), std::io::Error>(())
    /// ```
    ///
    /// # Errors
    /// [`OtherList`] where the older seat is of another shared kernel, or has seen more, `TextMemory` where the library has no memory for a
    /// part, and what `out` gives; what was written before stays.
    pub fn dump_since(&self, older: &Seat, out: &mut impl std::io::Write) -> std::io::Result<()> {
        let note = self.try_seen()?;
        if note.shared != older.shared {
            return Err(Refused::of("dump_since", Refusal::OtherList).into());
        }
        older.kernel.raw.ask(|request| request.put(50, &Entry::NONE, [note.calls]), |_| ())?;
        older.kernel.dump_to(out)
    }

    /// A note of what the seat has seen. It panics where it is asked for by what a dump of the seat is written to, where a reader of the seat was
    /// forgotten, and in a child of fork.
    ///
    /// ```
    /// let first = histar::Seat::share(64, 10)?;
    /// let second = first.another()?;
    /// assert_eq!(first.seen(), second.seen());
    /// first.session().cat_create()?;
    /// assert_ne!(first.seen(), second.seen());
    /// # Ok::<(), histar::Refused>(())
    /// ```
    pub fn seen(&self) -> Note {
        self.try_seen().unwrap_or_else(|refused| panic!("the seat is not to be asked: {refused}"))
    }

    fn try_seen(&self) -> Result<Note, Refused> {
        let calls = self.kernel.raw.ask(|request| request.put(43, &Entry::NONE, []), |answer| answer.numbers[0])?;
        Ok(Note { shared: self.shared, calls })
    }

    /// The seat sees all that the note tells, so its reads from here on do.
    ///
    /// ```
    /// use histar::{Refusal, Seat};
    /// let first = Seat::share(64, 10)?;
    /// let second = first.another()?;
    /// first.session().cat_create()?;
    /// second.learn(first.seen())?;
    /// assert_eq!(second.seen(), first.seen());
    /// assert_eq!(Seat::share(64, 10)?.learn(first.seen()).unwrap_err().reason, Refusal::OtherList);
    /// # Ok::<(), histar::Refused>(())
    /// ```
    ///
    /// # Errors
    /// [`OtherList`] where the note is of another shared kernel, and nothing changes.
    pub fn learn(&self, note: Note) -> Result<(), Refused> {
        if note.shared != self.shared {
            return Err(Refused::of("learn", Refusal::OtherList));
        }
        self.kernel.raw.ask(|request| request.put(44, &Entry::NONE, [note.calls]), |_| ())
    }
}

/// A seat as it stands, of which there are readers.
pub struct View<'a> {
    seat: &'a mut Seat,
}

impl View<'_> {
    /// A reader of the seat, for another thread. It takes no kernel. Where it is forgotten (`std::mem::forget`), calls through the seat are refused
    /// [`Busy`] from then on.
    ///
    /// ```
    /// let mut seat = histar::Seat::share(64, 10)?;
    /// let view = seat.view();
    /// let (one, other) = (view.reader()?, view.reader()?);
    /// assert_eq!(one.session().self_get()?, other.session().self_get()?);
    /// # Ok::<(), histar::Refused>(())
    /// ```
    ///
    /// # Errors
    /// [`Unavailable`] for want of memory.
    pub fn reader(&self) -> Result<Reader<'_>, Refused> {
        let raw = self.seat.kernel.raw.reader().map_err(|why| Refused::of("reader", why))?;
        Ok(Reader { kernel: Kernel { raw }, seat: PhantomData })
    }
}

/// A reader of a seat as it stands. It can be sent to another thread; readers of one seat read at once, and nothing that they share is
/// written.
///
/// ```
/// fn can_be_sent<T: Send>() {}
/// can_be_sent::<histar::Reader<'_>>();
/// ```
pub struct Reader<'a> {
    kernel: Kernel,
    seat: PhantomData<&'a ()>,
}

impl Reader<'_> {
    /// The session of the boot thread, as [`Kernel::session`]. Its write calls are refused `BadBatch`.
    ///
    /// ```
    /// use histar::{Refusal, Seat};
    /// let mut seat = Seat::share(64, 10)?;
    /// let view = seat.view();
    /// let reader = view.reader()?;
    /// assert!(reader.session().self_get().is_ok());
    /// assert_eq!(reader.session().cat_create().unwrap_err().reason, Refusal::BadBatch);
    /// # Ok::<(), histar::Refused>(())
    /// ```
    pub fn session(&self) -> Session<'_> {
        self.kernel.session()
    }

    /// One query of a thread, as [`Kernel::call`].
    ///
    /// ```
    /// use histar::trusted::Thread;
    /// use histar::{Call, Refusal, Seat};
    /// let mut seat = Seat::share(64, 10)?;
    /// let view = seat.view();
    /// let reader = view.reader()?;
    /// assert!(reader.call(Thread::BOOT, &Call::SelfGet).is_ok());
    /// assert_eq!(reader.call(Thread(99), &Call::SelfGet).unwrap_err().reason, Refusal::Halted);
    /// # Ok::<(), histar::Refused>(())
    /// ```
    ///
    /// # Errors
    /// Those of the query, and `BadBatch` of a write call.
    pub fn call(&self, thread: Thread, call: &Call<'_>) -> Result<Reply, Refused> {
        self.kernel.call(thread, call)
    }
}

/// It tells nothing of the calls, which have bytes in them.
impl std::fmt::Debug for Seat {
    fn fmt(&self, f: &mut std::fmt::Formatter<'_>) -> std::fmt::Result {
        f.debug_struct("Seat").finish_non_exhaustive()
    }
}
