//! A node as a state machine: what came in goes to a function, what is to be sent or told comes out of [`Node::next_output`]. It does no
//! input or output and looks at no clock, so a simulation plays the same code as a program.
use crate::agreements::Agreements;
use crate::engine::{Answer, Pair, Request};
use crate::keys::{Key, Keys};
use crate::receipt::{Fault, Note, Receipt};
use crate::replica::Start;
use crate::sha256::Digest;
use crate::state::{Boot, Mark, State};
use crate::{Machine, Name};
use pages::Pages;
use std::collections::{BTreeMap, VecDeque};
use write::{Queued, Writer};

mod follow;
mod keep;
mod pages;
mod write;

/// After so many ticks a node looks around: it keeps its lease, and looks at the others' fences.
pub const LOOK: u64 = 25;

/// An engine that answers nothing for so many ticks is told of.
const SILENT: u64 = 4 * LOOK;

/// How a node is started.
#[derive(Clone, Debug)]
pub struct Options {
    /// The cluster's name.
    pub cluster: Name,
    /// The node's name. One process at a time has it.
    pub node: Name,
    /// What each machine boots with. A node with other limits does not start.
    pub limits: Vec<u8>,
    /// How many entries may be on their way at once. What is submitted waits until it is a lane's share of all that has no receipt yet.
    pub lanes: usize,
    /// Nodes compare their states, and the log may be dropped, after so many entries. The first node's holds for all.
    pub interval: u64,
    /// A number that no start of the node had before.
    pub any: u64,
}

impl Options {
    /// What a cluster is begun with by a node that is started so.
    pub(crate) fn boot<M: Machine>(&self) -> Boot {
        let (interval, limits) = (self.interval.max(1), self.limits.clone());
        Boot { rules: M::RULES, interval, limits, first: self.node.clone(), from: None }
    }
}

/// What a node wants done.
#[derive(Debug)]
pub enum Output<R> {
    /// A request to the engine. Its answers go to [`Node::answer`] with this number.
    Ask(u64, Request),
    /// What became of what was submitted under this number.
    Tell(u64, Receipt<R>),
}

/// What a request was asked for.
enum Purpose {
    Boot,
    Pages(Pages),
    Watch,
    Lease,
    Fence {
        lease: u64,
        fence: Key,
    },
    Entry {
        incarnation: u64,
        lane: usize,
        number: u64,
    },
    Point,
    /// It is asked until it is answered.
    Surely,
    /// It is asked once.
    Once,
    Drop,
    /// A fence is given back.
    Leave,
}

struct Asked {
    purpose: Purpose,
    request: Request,
}

/// How far a node is.
enum Phase<M> {
    /// It looks what the cluster boots with.
    Boots,
    /// It plays the log by pages, or follows it.
    Plays { state: Box<State<M>>, is_loading: bool, is_watching: bool },
    /// It has stopped.
    Stopped(Fault),
}

/// Whether a node gives its fence back.
#[derive(Clone, Copy, PartialEq, Eq)]
enum Leaving {
    No,
    /// Once none of its entries is on its way.
    Waits,
    /// Once its incarnation is closed.
    Closes,
    /// The fence is on its way.
    GivesBack,
    HasLeft,
}

/// What an operator wants to know of a node.
#[derive(Clone, PartialEq, Eq, Debug)]
pub struct Status {
    /// The revision up to which all is played.
    pub reached: u64,
    /// How many entries have counted.
    pub entries: u64,
    /// The number of the rules.
    pub rules: u64,
    /// The digest of all entries and replies so far: equal for nodes that have counted as many entries.
    pub digest: Digest,
    /// The incarnation, where the node may write.
    pub incarnation: Option<u64>,
    /// Whether it follows the log, and does not load what it lacks.
    pub is_following: bool,
    /// The greatest number of entries after which the node and another one agree.
    pub agreed: Option<u64>,
    /// How many fences of the node's name stand beside its own: another process has its name, or had and is gone for less than its lease.
    pub namesakes: usize,
    /// How many submissions wait for their receipt.
    pub waiting: usize,
    /// After so many entries the node lacked memory for a checkpoint. It keeps its own keys up to the next one for which it does not.
    pub unwritten: Option<u64>,
    /// Why the engine does not do what the node asks, as that it has no space. What waits goes on once it does.
    pub trouble: Option<String>,
}

/// A node of a cluster.
pub struct Node<M: Machine> {
    options: Options,
    keys: Keys,
    phase: Phase<M>,
    engine: Option<u64>,
    // What the cluster was begun with.
    begun: Option<Pair>,
    reached: u64,
    // The last marks that the node came by, by their numbers of entries.
    marks: BTreeMap<u64, Mark>,
    unwritten: Option<u64>,
    agreements: Agreements,
    // The places up to which nodes have played.
    seen: BTreeMap<Name, u64>,
    // The number of entries of the point that the node has put.
    said: Option<u64>,
    dropped: u64,
    drops: VecDeque<Request>,
    forgotten: u64,
    namesakes: usize,
    leaving: Leaving,
    writer: Writer,
    queue: VecDeque<Queued>,
    trouble: Option<String>,
    // Why no member was reached.
    unreached: Option<String>,
    ticks: u64,
    // The tick of the last answer.
    last_answer: u64,
    registrations: u64,
    number: u64,
    asked: BTreeMap<u64, Asked>,
    again: Vec<Asked>,
    outputs: VecDeque<Output<M::Reply>>,
}

impl<M: Machine> Node<M> {
    /// A node that begins: it boots the cluster, or restores and plays what the others have.
    pub fn new(options: Options) -> Node<M> {
        let keys = Keys::new(options.cluster.clone());
        let mut node = Node {
            options,
            keys,
            phase: Phase::Boots,
            engine: None,
            begun: None,
            reached: 0,
            marks: BTreeMap::new(),
            unwritten: None,
            agreements: Agreements::default(),
            seen: BTreeMap::new(),
            said: None,
            dropped: 0,
            drops: VecDeque::new(),
            forgotten: 0,
            namesakes: 0,
            leaving: Leaving::No,
            writer: Writer::None,
            queue: VecDeque::new(),
            trouble: None,
            unreached: None,
            ticks: 0,
            last_answer: 0,
            registrations: 0,
            number: 0,
            asked: BTreeMap::new(),
            again: Vec::new(),
            outputs: VecDeque::new(),
        };
        node.look_at_boot();
        node
    }

    /// What is to be done next. To be called until there is nothing, after each other function.
    pub fn next_output(&mut self) -> Option<Output<M::Reply>> {
        self.outputs.pop_front()
    }

    /// Why the node has stopped, if it has.
    pub fn fault(&self) -> Option<&Fault> {
        match &self.phase {
            Phase::Stopped(fault) => Some(fault),
            _ => None,
        }
    }

    /// A view of the machine; none before it is booted and once the node has stopped.
    pub fn view(&mut self) -> Option<M::View<'_>> {
        self.state_mut().map(|state| state.machine.view())
    }

    /// Where a replica of the machine begins; nothing before it is booted and once the node has stopped.
    ///
    /// # Errors
    /// [`Fault::NoMemory`], and where no machine of this kind begins at a state.
    pub fn start(&self) -> Option<Result<Start<M>, Fault>> {
        self.state().map(State::start)
    }

    /// What the node has seen: all of the log up to a place.
    pub fn seen(&self) -> Option<Note> {
        self.engine.map(|engine| Note { engine, place: self.reached })
    }

    /// How the node is, unless it has not booted yet or has stopped.
    pub fn status(&self) -> Option<Status> {
        let state = self.state()?;
        let point = state.point();
        let incarnation = self.writer.incarnation().map(|of| of.number);
        Some(Status {
            reached: self.reached,
            entries: point.entries,
            rules: state.rules(),
            digest: point.digest,
            incarnation,
            is_following: self.is_following(),
            agreed: self.agreed(),
            namesakes: self.namesakes,
            waiting: self.queue.len() + self.writer.waiting(),
            unwritten: self.unwritten,
            trouble: self.trouble(),
        })
    }

    /// Why the engine does not do what the node asks, also before it has booted. What waits goes on once it does.
    pub fn trouble(&self) -> Option<String> {
        let is_silent = self.fault().is_none() && self.ticks >= self.last_answer + SILENT;
        let why = self.unreached.as_ref().map(|why| format!(": {why}")).unwrap_or_default();
        self.trouble.clone().or_else(|| is_silent.then(|| format!("no member of the engine answers{why}")))
    }

    fn state(&self) -> Option<&State<M>> {
        match &self.phase {
            Phase::Plays { state, .. } => Some(state),
            _ => None,
        }
    }

    fn state_mut(&mut self) -> Option<&mut State<M>> {
        match &mut self.phase {
            Phase::Plays { state, .. } => Some(state),
            _ => None,
        }
    }

    /// Whether all pages are played, so that the log comes by the watch.
    fn is_following(&self) -> bool {
        matches!(self.phase, Phase::Plays { is_loading: false, .. })
    }

    fn ask(&mut self, purpose: Purpose, request: Request) {
        if self.fault().is_some() {
            return;
        }
        self.number += 1;
        self.outputs.push_back(Output::Ask(self.number, request.clone()));
        self.asked.insert(self.number, Asked { purpose, request });
    }

    fn ask_put(&mut self, purpose: Purpose, key: Key, value: Vec<u8>, lease: Option<u64>) {
        self.ask(purpose, Request::Put { key, value, lease, only_new: false });
    }

    fn tell(&mut self, ticket: u64, receipt: Receipt<M::Reply>) {
        self.outputs.push_back(Output::Tell(ticket, receipt));
    }

    /// Stops for good. Who waits is told nothing: a later start of the node can't know either. A node that has answered by another log than some
    /// node's says so, as it can't know which of both was changed: then that one stops too.
    fn stop(&mut self, fault: Fault) {
        let differs = matches!(fault, Fault::Differs { .. } | Fault::Gap { .. });
        let last = self.state().filter(|_| differs && self.is_following()).map(|state| state.point().bytes());
        self.asked.clear();
        self.again.clear();
        self.outputs.clear();
        if let Some(value) = last {
            self.ask_put(Purpose::Point, self.keys.seen(&self.options.node), value, None);
        }
        self.phase = Phase::Stopped(fault);
    }

    /// An answer of the engine to the request of a number, with the identity of the engine's cluster.
    pub fn answer(&mut self, number: u64, engine: u64, answer: Answer) {
        let Some(asked) = self.asked.remove(&number) else { return };
        match answer {
            Answer::Lost => return self.lost(asked),
            Answer::Unreached(why) => {
                self.unreached = Some(why);
                return self.lost(asked);
            }
            _ => self.unreached = None,
        }
        self.last_answer = self.ticks;
        if let Answer::Refused(why) = answer {
            self.trouble = Some(why);
            return self.lost(asked);
        }
        // (an end tells no identity; what is asked next does)
        let is_end = matches!(answer, Answer::Forgotten | Answer::Ended);
        if !is_end && *self.engine.get_or_insert(engine) != engine {
            return self.stop(Fault::OtherEngine);
        }
        if matches!(asked.request, Request::Put { .. }) {
            self.trouble = None;
        }
        self.answered(number, asked, answer);
    }

    fn answered(&mut self, number: u64, asked: Asked, answer: Answer) {
        match (asked.purpose, answer) {
            (Purpose::Boot, _) => self.look_at_boot(),
            (Purpose::Pages(pages), Answer::Page { revision, pairs, is_more }) => {
                self.paged(pages, revision, pairs, is_more)
            }
            (Purpose::Pages(pages), _) => self.forgotten(&pages),
            (Purpose::Watch, answer) => self.watched(number, asked.request, answer),
            (Purpose::Lease, Answer::Lease(lease)) => self.leased(lease),
            (Purpose::Fence { lease, fence }, Answer::Put { revision, is_done }) => {
                self.fenced(lease, fence, revision, is_done);
            }
            (Purpose::Entry { incarnation, lane, number }, _) => self.is_put(incarnation, lane, number),
            (Purpose::Drop, _) => self.drop_next(),
            (Purpose::Leave, _) => self.leaving = Leaving::HasLeft,
            _ => {}
        }
    }

    /// There is no answer, so what was asked may have been done or not.
    fn lost(&mut self, asked: Asked) {
        match asked.purpose {
            Purpose::Watch => self.watch_lost(),
            Purpose::Fence { .. } => self.writer = Writer::None, // (a fence that was put ends with its lease)
            Purpose::Point => self.said = None,
            Purpose::Once => {}
            Purpose::Pages(pages) if pages.is_now_and_then() => {}
            _ => self.again.push(asked),
        }
    }

    /// Time passes: what had no answer is asked again, and what is to be done now and then is done. How much time, has no part in what is
    /// right: 20 to 50 ms serve.
    pub fn tick(&mut self) {
        if self.fault().is_some() {
            return;
        }
        self.ticks += 1;
        for asked in std::mem::take(&mut self.again) {
            match asked.purpose {
                // (who begins the cluster may be an operator)
                Purpose::Boot if self.ticks % LOOK > 0 => self.again.push(asked),
                Purpose::Boot => self.look_at_boot(),
                purpose if self.is_needed(&purpose) => self.ask(purpose, asked.request),
                _ => {}
            }
        }
        self.leave_on();
        if self.is_following() {
            self.watch_unless_watching();
            self.register_unless_registered();
            if self.ticks % LOOK == 0 {
                self.look_around();
            }
        }
    }

    /// Whether a request still has to be answered.
    fn is_needed(&self, purpose: &Purpose) -> bool {
        match purpose {
            Purpose::Entry { incarnation, lane, number } => self.writer.is_on_its_way(*incarnation, *lane, *number),
            _ => true,
        }
    }
}
