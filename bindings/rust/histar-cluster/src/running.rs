//! A node that runs in this process.
use crate::engine::{Answer, Answers, Engine, Request, TakesAnswers};
use crate::node::{Node, Options, Output, Status};
use crate::receipt::{Fault, Note, Receipt, Told};
use crate::waiting::{waiting, Teller, Unsettled, Waiting};
use crate::{Item, Machine, Replica};
use histar::trusted::{Record, Thread};
use histar::{Call, Kernel, Refused, Reply};
use std::collections::HashMap;
use std::fmt;
use std::future::Future;
use std::pin::Pin;
use std::sync::mpsc::{channel, RecvTimeoutError, Sender};
use std::sync::{Arc, Condvar, Mutex, MutexGuard, PoisonError};
use std::task::{Context, Poll};
use std::time::{Duration, Instant};

/// Time passes for a node in steps of so much.
const TICK: Duration = Duration::from_millis(40);

/// Where a node's requests go.
type Asks = Box<dyn Fn(u64, Request) + Send>;

struct Core<M: Machine> {
    node: Node<M>,
    asks: Option<Asks>,
    tickets: u64,
    waiting: HashMap<u64, Teller<M::Reply>>,
    // How many threads wait until the node goes on.
    watchers: usize,
}

/// A receipt, and where it goes.
type Sent<R> = (Teller<R>, Receipt<R>);

struct Shared<M: Machine> {
    core: Mutex<Core<M>>,
    /// The node has played more, or has stopped.
    goes_on: Condvar,
}

impl<M: Machine> Core<M> {
    /// Asks what the node wants, and gives what is to be told. A node that has stopped tells nobody anything more.
    fn act(&mut self) -> Vec<Sent<M::Reply>> {
        let mut told = Vec::new();
        while let Some(output) = self.node.next_output() {
            match (output, &self.asks) {
                (Output::Ask(number, request), Some(asks)) => asks(number, request),
                (Output::Ask(..), None) => {}
                (Output::Tell(ticket, receipt), _) => {
                    told.extend(self.waiting.remove(&ticket).map(|waiting| (waiting, receipt)));
                }
            }
        }
        if self.node.fault().is_some() {
            self.waiting.clear();
        }
        told
    }
}

impl<M: Machine> Shared<M> {
    /// (No code that a panic could interrupt leaves a core half changed.)
    fn core(&self) -> MutexGuard<'_, Core<M>> {
        self.core.lock().unwrap_or_else(PoisonError::into_inner)
    }

    fn with<T>(&self, act: impl FnOnce(&mut Core<M>) -> T) -> T {
        let mut core = self.core();
        let done = act(&mut core);
        let told = core.act();
        let is_watched = core.watchers > 0;
        drop(core); // (who gets a receipt submits again)
        if is_watched {
            self.goes_on.notify_all();
        }
        told.into_iter().for_each(|(teller, receipt)| teller.tell(receipt));
        done
    }
}

impl<M: Machine> TakesAnswers for Shared<M> {
    fn take(&self, number: u64, engine: u64, answer: Answer) {
        self.with(|core| core.node.answer(number, engine, answer));
    }
}

/// A node, as threads of a program use it. It runs until it and its readers are dropped; its incarnation is closed by another node then, or by
/// its next start.
pub struct Running<M: Machine> {
    shared: Arc<Shared<M>>,
    // The thread in which time passes ends with the last of these.
    time: Sender<()>,
    // A wait ends after so long.
    patience: Duration,
}

/// A seat at a node for one thread that reads, by a machine of its own: it waits for no other reader, nor for what the node does. What it has
/// not played yet it keeps, 8 MiB at most, until it reads.
///
/// ```
/// fn can_be_sent<T: Send + 'static>() {}
/// can_be_sent::<histar_cluster::Reader<histar::Kernel>>();
/// ```
pub struct Reader<M: Machine> {
    node: Running<M>,
    replica: Replica<M>,
}

impl<M: Machine + Send + 'static> Running<M>
where
    M::Reply: Send,
{
    /// Starts a node.
    pub fn open(engine: impl Engine, options: Options) -> Running<M> {
        let core = Core { node: Node::new(options), asks: None, tickets: 0, waiting: HashMap::new(), watchers: 0 };
        let shared = Arc::new(Shared { core: Mutex::new(core), goes_on: Condvar::new() });
        let weak = Arc::downgrade(&shared);
        let asks = engine.start(Answers(weak.clone()));
        shared.with(|core| core.asks = Some(asks));
        let (time, ended) = channel();
        std::thread::spawn(move || {
            while ended.recv_timeout(TICK) == Err(RecvTimeoutError::Timeout) {
                let Some(shared) = weak.upgrade() else { return };
                shared.with(|core| core.node.tick());
            }
        });
        Running { shared, time, patience: Duration::MAX }
    }

    /// The same node, each of whose waits ends after a time. What was submitted is played all the same.
    ///
    /// ```
    /// # use histar_cluster::{memory::Memory, limits, Name, Options, Running, Uncalled, Unread};
    /// # use std::time::Duration;
    /// # let name = |text| Name::new(text).unwrap();
    /// # let limits = limits(&histar::Limits::pages(64));
    /// # let options = Options { cluster: name("c"), node: name("n"), limits, lanes: 1, interval: 1000, any: 1 };
    /// let node: Running<histar::Kernel> = Running::open(Memory::new(), options);
    /// let mut note = node.latest().unwrap();
    /// note.place += 1000;
    /// assert_eq!(node.within(Duration::from_millis(20)).reaches(note), Err(Unread::Late));
    /// ```
    pub fn within(&self, time: Duration) -> Running<M> {
        Running { shared: self.shared.clone(), time: self.time.clone(), patience: time }
    }

    /// Submits up to 16 items, which are played together.
    ///
    /// # Errors
    /// [`Uncalled::Stopped`], or [`Uncalled::NoCall`] where they are more.
    pub fn submit(&self, items: &[Item<M::Call>]) -> Result<Waiting<M::Reply>, Uncalled> {
        self.shared.with(|core| {
            if let Some(fault) = core.node.fault() {
                return Err(Uncalled::Stopped(fault.clone()));
            }
            let (teller, waiting) = waiting();
            core.tickets += 1;
            if !core.node.submit(core.tickets, items) {
                return Err(Uncalled::NoCall);
            }
            core.waiting.insert(core.tickets, teller);
            Ok(waiting)
        })
    }

    /// Reads of the machine, which has all that the node has played, once it has booted. A read that no thread of the cluster could make is the
    /// caller's fault.
    ///
    /// # Errors
    /// Why nothing was read.
    pub fn read<T>(&self, read: impl FnOnce(M::View<'_>) -> T) -> Result<T, Unread> {
        if let Some(view) = self.shared.core().node.view() {
            return Ok(read(view));
        }
        let mut core = self.booted()?;
        let view = core.node.view().unwrap_or_else(|| unreachable!("the node has booted"));
        Ok(read(view))
    }

    /// A seat for a thread that reads, once the node has booted.
    ///
    /// # Errors
    /// Why there is none; [`Fault::NoMemory`] where there is none for another machine.
    pub fn reader(&self) -> Result<Reader<M>, Unread> {
        let node = self.within(self.patience);
        let replica = node.replica()?;
        Ok(Reader { node, replica })
    }

    fn replica(&self) -> Result<Replica<M>, Unread> {
        let core = self.booted()?;
        let start = core.node.start().unwrap_or_else(|| unreachable!("the node has booted"));
        drop(core); // (what takes the longest, others need not wait for)
        Ok(start?.open()?)
    }

    /// Waits until the node has a machine.
    fn booted(&self) -> Result<MutexGuard<'_, Core<M>>, Unread> {
        self.until(|node| node.view().is_some())
    }

    fn until(&self, holds: impl Fn(&mut Node<M>) -> bool) -> Result<MutexGuard<'_, Core<M>>, Unread> {
        let began = Instant::now();
        let mut core = self.shared.core();
        loop {
            if let Some(fault) = core.node.fault() {
                return Err(Unread::Stopped(fault.clone()));
            }
            if holds(&mut core.node) {
                return Ok(core);
            }
            let left = self.patience.checked_sub(began.elapsed()).ok_or(Unread::Late)?;
            core.watchers += 1;
            core = self.shared.goes_on.wait_timeout(core, left).unwrap_or_else(PoisonError::into_inner).0;
            core.watchers -= 1;
        }
    }

    /// Gives the node's fence back: its incarnation is closed, once what is on its way is played or never will be, so no other node has to wait for its
    /// lease. What is submitted from here on is never made.
    ///
    /// # Errors
    /// That this was not done in the time of [`within`](Running::within), or why the node has stopped.
    pub fn leave(&self) -> Result<(), Unread> {
        self.shared.with(|core| core.node.leave());
        self.until(|node| node.has_left()).map(drop)
    }

    /// Waits until the node has played all up to a note: reads from here on see it.
    ///
    /// # Errors
    /// Why it has not.
    pub fn reaches(&self, note: Note) -> Result<(), Unread> {
        let core =
            self.until(|node| node.seen().is_some_and(|seen| seen.engine != note.engine || seen.place >= note.place))?;
        match core.node.seen() {
            Some(seen) if seen.engine == note.engine => Ok(()),
            _ => Err(Unread::OtherEngine),
        }
    }

    /// Waits until the node has played all that any node of the cluster has told anybody so far, and gives a note of it. It takes part in
    /// the node's next entry.
    ///
    /// # Errors
    /// Why the node has stopped, or that nothing was learned.
    pub fn latest(&self) -> Result<Note, Uncalled> {
        match self.submit(&[])?.wait_for(self.patience) {
            Ok(Receipt::Told { note, .. }) => Ok(note),
            receipt => Err(self.uncalled(receipt)),
        }
    }

    fn uncalled(&self, receipt: Result<Receipt<M::Reply>, Unsettled>) -> Uncalled {
        match receipt {
            Ok(Receipt::NeverMade) => Uncalled::NeverMade,
            Ok(Receipt::MadeUnseen) => Uncalled::MadeUnseen,
            Err(Unsettled::Late) => Uncalled::Late,
            _ => self.fault().map_or(Uncalled::Unknown, Uncalled::Stopped),
        }
    }

    /// Why the node has stopped, if it has.
    pub fn fault(&self) -> Option<Fault> {
        self.shared.core().node.fault().cloned()
    }

    /// Why the engine does not do what the node asks, also before it has booted.
    pub fn trouble(&self) -> Option<String> {
        self.shared.core().node.trouble()
    }

    /// How the node is, unless it has not booted yet or has stopped.
    pub fn status(&self) -> Option<Status> {
        self.shared.core().node.status()
    }
}

impl<M: Machine + Send + 'static> Reader<M>
where
    M::Reply: Send,
{
    /// Reads of the machine, which has all that the node has played: what the node has told, and what it has [reached](Running::reaches). A read
    /// that no thread of the cluster could make is the caller's fault.
    ///
    /// # Errors
    /// As [`Running::reader`].
    #[inline]
    pub fn read<T>(&mut self, read: impl FnOnce(M::View<'_>) -> T) -> Result<T, Unread> {
        loop {
            if let Some(view) = self.replica.view() {
                return Ok(read(view));
            }
            self.begin_anew()?;
        }
    }

    #[cold]
    fn begin_anew(&mut self) -> Result<(), Unread> {
        self.replica = self.node.replica()?;
        Ok(())
    }
}

/// A call's reply, with a note of its place.
#[derive(Clone, PartialEq, Eq, Debug)]
pub struct Called {
    /// The kernel's reply.
    pub reply: Result<Reply, Refused>,
    /// What a reader has to have seen to see it.
    pub note: Note,
}

/// Why nothing is read.
#[derive(Clone, PartialEq, Eq, Debug)]
pub enum Unread {
    /// It took longer than the wait may.
    Late,
    /// The note is of another engine.
    OtherEngine,
    /// The node has stopped.
    Stopped(Fault),
}

impl From<Fault> for Unread {
    fn from(fault: Fault) -> Unread {
        Unread::Stopped(fault)
    }
}

impl fmt::Display for Unread {
    fn fmt(&self, f: &mut fmt::Formatter<'_>) -> fmt::Result {
        match self {
            Unread::Late => f.write_str("it took too long"),
            Unread::OtherEngine => f.write_str("the note is of another engine"),
            Unread::Stopped(fault) => write!(f, "the node has stopped: {fault}"),
        }
    }
}

impl std::error::Error for Unread {}

/// Why a call has no reply.
#[derive(Clone, PartialEq, Eq, Debug)]
pub enum Uncalled {
    /// The arguments make no call, or it changes nothing, or more than 16 items were submitted together. Nothing was submitted.
    NoCall,
    /// The thread belongs to another node. Nothing was done.
    OtherNode,
    /// It was not made and never will be.
    NeverMade,
    /// It was made, and its reply is lost to this node.
    MadeUnseen,
    /// It was made once or never.
    Unknown,
    /// It took longer than the wait may: it may still be made.
    Late,
    /// The node has stopped. What waited was made once or never.
    Stopped(Fault),
}

impl fmt::Display for Uncalled {
    fn fmt(&self, f: &mut fmt::Formatter<'_>) -> fmt::Result {
        match self {
            Uncalled::NoCall => f.write_str("what was submitted is no call that changes something, or over 16 items"),
            Uncalled::OtherNode => f.write_str("the thread belongs to another node"),
            Uncalled::NeverMade => f.write_str("the call was not made and never will be"),
            Uncalled::MadeUnseen => f.write_str("the call was made, and its reply is lost"),
            Uncalled::Unknown => f.write_str("the call was made once or never"),
            Uncalled::Late => f.write_str("it took too long: the call may still be made"),
            Uncalled::Stopped(fault) => write!(f, "the node has stopped: {fault}"),
        }
    }
}

impl std::error::Error for Uncalled {}

/// A call on its way: for a thread that waits for its reply, or a task of any runtime, to which it is a future. A wait that is late loses nothing.
///
/// ```
/// # use histar_cluster::{memory::Memory, limits, Name, Options, Running, Uncalled};
/// # use histar::{trusted::Thread, Call};
/// # use std::time::Duration;
/// # let name = |text| Name::new(text).unwrap();
/// # let limits = limits(&histar::Limits::pages(64));
/// # let options = Options { cluster: name("c"), node: name("n"), limits, lanes: 1, interval: 1000, any: 1 };
/// let node: Running<histar::Kernel> = Running::open(Memory::new(), options);
/// let mut calling = node.calls(Thread::BOOT, &Call::CatCreate).unwrap();
/// let called = match calling.wait_for(Duration::from_millis(1)) {
///     Err(Uncalled::Late) => calling.wait_for(Duration::from_secs(60)),
///     called => called,
/// };
/// assert!(called.unwrap().reply.is_ok());
/// ```
pub struct Calling<'n> {
    node: &'n Running<Kernel>,
    waiting: Waiting<Result<Reply, Refused>>,
}

impl Calling<'_> {
    /// Waits for the reply.
    ///
    /// # Errors
    /// Why there is none; [`Uncalled::Late`] where one may wait again.
    pub fn wait_for(&mut self, time: Duration) -> Result<Called, Uncalled> {
        self.node.called(self.waiting.wait_for(time))
    }
}

impl Future for Calling<'_> {
    type Output = Result<Called, Uncalled>;

    fn poll(mut self: Pin<&mut Self>, context: &mut Context<'_>) -> Poll<Self::Output> {
        let receipt = Pin::new(&mut self.waiting).poll(context);
        receipt.map(|receipt| self.node.called(receipt.ok_or(Unsettled::Never)))
    }
}

impl Running<Kernel> {
    /// A write call of a thread of this node, once it is played. Where the wait is late, its reply is lost: [`calls`](Running::calls) keeps it.
    ///
    /// # Errors
    /// Why it has no reply.
    pub fn call(&self, thread: Thread, call: &Call<'_>) -> Result<Called, Uncalled> {
        self.calls(thread, call)?.wait_for(self.patience)
    }

    /// The same, on its way.
    ///
    /// # Errors
    /// Why it is no call, or that the node has stopped.
    pub fn calls(&self, thread: Thread, call: &Call<'_>) -> Result<Calling<'_>, Uncalled> {
        let record = Record::new(thread, call).map_err(|_| Uncalled::NoCall)?;
        Ok(Calling { node: self, waiting: self.submit(&[Item::Call(record)])? })
    }

    fn called(&self, receipt: Result<Receipt<Result<Reply, Refused>>, Unsettled>) -> Result<Called, Uncalled> {
        match receipt {
            Ok(Receipt::Told { mut told, note }) => match told.pop() {
                Some(Told::Reply(reply)) => Ok(Called { reply, note }),
                _ => Err(Uncalled::OtherNode),
            },
            receipt => Err(self.uncalled(receipt)),
        }
    }
}
