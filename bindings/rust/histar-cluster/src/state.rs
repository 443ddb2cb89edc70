//! The replicated state: what each node has after it played the log up to a place.
use crate::entry::{self, Head, Item};
use crate::history::{History, Point};
use crate::keys::{Keys, Lane, LogKey};
use crate::order::{Order, Turn};
use crate::replica::{Played, Start};
use crate::sha256::{sha256, Digest};
use crate::spelling::{put_bytes, put_number, take, take_bytes, take_number};
use crate::{Fault, Machine, Name, Told, Unrestored, Written};
use std::collections::{BTreeMap, BTreeSet};

/// The thread that a machine boots with.
const BOOT_THREAD: u64 = 2;

/// The first byte of what a cluster boots with, and of each checkpoint.
const FORMAT: u8 = 2;

/// A mark stands after entries of so many bytes at the latest, so that a node that starts has no more to play than about that.
const MARK_BYTES: usize = 16 << 20;

/// A checkpoint of more bytes is not put: an engine takes no such value. etcd takes 1.5 MiB with a key, if it isn't told otherwise.
pub(crate) const MOST_BYTES: usize = 1 << 20;

/// What each node of a cluster boots with, as the key `boot` has it.
#[derive(Clone, PartialEq, Eq, Debug)]
pub(crate) struct Boot {
    pub rules: u64,
    /// A mark stands after so many entries, or fewer long ones.
    pub interval: u64,
    pub limits: Vec<u8>,
    /// The node that the boot thread belongs to.
    pub first: Name,
    /// The digest of the beginning that the key `start` has, where the cluster begins at another one's state.
    pub from: Option<Digest>,
}

impl Boot {
    pub fn bytes(&self) -> Vec<u8> {
        let mut out = vec![FORMAT];
        put_number(&mut out, self.rules);
        put_number(&mut out, self.interval);
        put_bytes(&mut out, &self.limits);
        put_bytes(&mut out, self.first.text().as_bytes());
        out.extend(self.from.iter().flatten());
        out
    }

    /// What a cluster boots with.
    pub fn read(bytes: &[u8]) -> Result<Boot, Fault> {
        match bytes.split_first() {
            Some((&FORMAT, rest)) => Boot::take(rest).ok_or(Fault::OtherBoot),
            Some((format, _)) => Err(Fault::OtherFormat(*format)),
            None => Err(Fault::OtherBoot),
        }
    }

    fn take(mut rest: &[u8]) -> Option<Boot> {
        let rest = &mut rest;
        let (rules, interval, limits) = (take_number(rest)?, take_number(rest)?, take_bytes(rest)?.to_vec());
        let first = Name::new(std::str::from_utf8(take_bytes(rest)?).ok()?)?;
        let from = if rest.is_empty() { None } else { Some(take(rest, 32)?.try_into().ok()?) };
        (rest.is_empty() && interval > 0).then_some(Boot { rules, interval, limits, first, from })
    }
}

/// Which node a thread belongs to.
pub(crate) type Owners = BTreeMap<u64, Name>;

fn put_owners(out: &mut Vec<u8>, owners: &Owners) {
    put_number(out, owners.len() as u64);
    for (thread, node) in owners {
        put_number(out, *thread);
        put_bytes(out, node.text().as_bytes());
    }
}

fn take_owners(rest: &mut &[u8]) -> Option<Owners> {
    let mut owners = BTreeMap::new();
    for _ in 0..take_number(rest)? {
        let thread = take_number(rest)?;
        owners.insert(thread, Name::new(std::str::from_utf8(take_bytes(rest)?).ok()?)?);
    }
    Some(owners)
}

/// What a cluster begins with that begins at another one's state.
#[derive(Clone, PartialEq, Eq, Debug)]
pub(crate) struct Beginning {
    pub owners: Owners,
    /// The machine's state.
    pub machine: Vec<u8>,
}

impl Beginning {
    pub fn bytes(&self) -> Vec<u8> {
        let mut out = Vec::new();
        put_owners(&mut out, &self.owners);
        out.extend_from_slice(&self.machine);
        out
    }

    pub fn read(mut bytes: &[u8]) -> Option<Beginning> {
        let owners = take_owners(&mut bytes)?;
        Some(Beginning { owners, machine: bytes.to_vec() })
    }

    /// The machine of the state, under these rules and limits.
    pub fn machine<M: Machine>(&self, boot: &Boot) -> Result<M, Fault> {
        restored(&boot.limits, boot.rules, &self.machine)
    }
}

/// The state after some entries.
#[derive(Clone, Debug)]
pub(crate) struct Mark {
    pub entries: u64,
    /// The place of the last of these.
    pub place: u64,
    /// The node that put it.
    pub writer: Name,
    /// The digest of the checkpoint, with which other nodes compare theirs.
    pub digest: Digest,
    /// The checkpoint, where the machine can be begun at one and an engine takes it.
    pub checkpoint: Option<Vec<u8>>,
}

/// The node lacks memory for a checkpoint, so it has no mark of the place. A digest of anything less would be that of another state, and without
/// one the node is in nobody's way: others agree at the place, and it does at the next one.
#[derive(Debug)]
pub(crate) struct NoMemory;

/// What came of a key of the log.
pub(crate) enum Step<R> {
    /// An entry counted, and its items were answered.
    Entry { lane: Lane, number: u64, told: Vec<Told<R>> },
    /// An incarnation was closed by a node, which counts as an entry does.
    Closed { by: Name },
    /// A node has a digest after so many entries.
    Agreed { node: Name, entries: u64, digest: Digest },
    /// A node has played up to a point.
    Seen { node: Name, point: Point },
    /// It counts for nothing.
    Nothing,
}

/// The replicated state. All of it but the keys, what is void and the history is in a checkpoint.
pub(crate) struct State<M> {
    keys: Keys,
    boot: Boot,
    // At these places an operator has the entries void: nothing of their incarnations counts from there on.
    voids: BTreeSet<u64>,
    pub machine: M,
    pub order: Order,
    // A thread that is gone may stand in it until the next mark.
    owners: Owners,
    rules: u64,
    // The points after the last entries: what an entry or a node has to agree with.
    history: History,
    // The place of the last mark, and how many entries and bytes have come after it.
    marked: u64,
    since: (u64, usize),
    played: Played,
}

impl<M: Machine> State<M> {
    /// The state of a newly booted cluster. The bytes are what the key `start` has.
    pub fn new(keys: Keys, boot: Boot, voids: BTreeSet<u64>, start: Option<&[u8]>) -> Result<State<M>, Fault> {
        let (machine, mut owners) = match (&boot.from, start) {
            (None, _) => (booted(&boot)?, Owners::new()),
            (Some(digest), Some(start)) if sha256(start) == *digest => {
                let beginning = Beginning::read(start).ok_or(Fault::OtherBoot)?;
                (beginning.machine(&boot)?, beginning.owners)
            }
            (Some(_), _) => return Err(Fault::OtherBoot),
        };
        owners.insert(BOOT_THREAD, boot.first.clone());
        let first = Point { entries: 0, place: 0, digest: sha256(&boot.bytes()) };
        let rules = boot.rules;
        Ok(State {
            keys,
            boot,
            voids,
            machine,
            order: Order::default(),
            owners,
            rules,
            history: History::new(first),
            marked: 0,
            since: (0, 0),
            played: Played::default(),
        })
    }

    /// The point up to which all is played.
    pub fn point(&self) -> Point {
        self.history.last()
    }

    pub fn rules(&self) -> u64 {
        self.rules
    }

    /// Whether what another node had played up to a point, as it says at a place, is what was played here. Of what it had played nothing has a
    /// place that this node is not beyond.
    pub fn agrees_with(&self, node: &Name, point: &Point, place: u64) -> Result<(), Fault> {
        if self.history.has(point) {
            return Ok(());
        }
        Err(Fault::Differs { node: node.clone(), entries: point.entries, place })
    }

    /// From here on what stands at a place is void. False where the node is beyond the place.
    pub fn voids(&mut self, place: u64, reached: u64) -> bool {
        self.voids.contains(&place) || (place > reached && self.voids.insert(place))
    }

    /// Plays what stands at a place of the log. Places rise, and what has one place comes by rising key.
    pub fn play(&mut self, place: u64, key: &[u8], value: &[u8]) -> Result<Step<M::Reply>, Fault> {
        match self.keys.read(key) {
            None => Ok(Step::Nothing),
            Some(LogKey::Agree(node, entries)) => match value.try_into() {
                Ok(digest) => Ok(Step::Agreed { node, entries, digest }),
                Err(_) => Ok(Step::Nothing),
            },
            Some(LogKey::Seen(node)) => {
                Ok(Point::read(value).map_or(Step::Nothing, |point| Step::Seen { node, point }))
            }
            // (an incarnation is older than its entries, and than its closing)
            Some(LogKey::Entry(Lane { of, .. }, _)) if of.number >= place => Ok(Step::Nothing),
            Some(LogKey::Entry(Lane { of, .. }, _)) if self.voids.contains(&place) => {
                Ok(self.counts_closed(of.number, of.node, place, key))
            }
            Some(LogKey::Close(by, number)) if number < place && self.order.is_known_number(number) => {
                Ok(self.counts_closed(number, by, place, key))
            }
            Some(LogKey::Close(..)) => Ok(Step::Nothing),
            Some(LogKey::Entry(lane, number)) => match self.order.turn(&lane, number) {
                Turn::Nothing => Ok(Step::Nothing),
                Turn::Gap => Err(Fault::Gap { node: lane.of.node, place }),
                Turn::Next => {
                    let told = self.play_entry(place, &lane, key, value)?;
                    Ok(Step::Entry { lane, number, told })
                }
            },
        }
    }

    /// Closes an incarnation, which counts as an entry does, unless it is closed.
    fn counts_closed(&mut self, number: u64, by: Name, place: u64, key: &[u8]) -> Step<M::Reply> {
        if !self.order.close(number) {
            return Step::Nothing;
        }
        self.counts(place, key, &[0; 32], &[]);
        Step::Closed { by }
    }

    /// What stands at a place counts: its key, the digest of its value, and what it was answered.
    fn counts(&mut self, place: u64, key: &[u8], value: &Digest, answers: &[u8]) {
        let mut trace = self.point().digest.to_vec();
        put_number(&mut trace, place);
        put_bytes(&mut trace, key);
        trace.extend_from_slice(value);
        trace.extend_from_slice(answers);
        self.history.add(place, sha256(&trace));
        self.since.0 += 1;
    }

    fn play_entry(&mut self, place: u64, lane: &Lane, key: &[u8], value: &[u8]) -> Result<Vec<Told<M::Reply>>, Fault> {
        let (mut told, mut played, mut answers) = (Vec::new(), Vec::new(), Vec::new());
        if let Some((head, items)) = entry::read::<M>(value) {
            self.follows(lane, place, &head)?;
            for item in items {
                let answer = self.play_item(&lane.of.node, place, &item)?;
                if self.played.is_read() && !matches!(answer, Told::OtherNode) {
                    entry::add::<M>(&mut played, &item);
                }
                match &answer {
                    Told::Reply(reply) => M::put_reply(reply, &mut answers),
                    Told::Done => answers.push(1),
                    Told::OtherNode => answers.push(2),
                }
                told.push(answer);
            }
        }
        self.played.add(played);
        let digest = sha256(value);
        self.order.goes_on(lane, entry::short(&digest));
        self.counts(place, key, &digest, &answers);
        self.since.1 += key.len() + value.len();
        Ok(told)
    }

    /// Whether an entry follows what was played here: what its node had played, and the entry before it in its lane.
    fn follows(&self, lane: &Lane, place: u64, head: &Head) -> Result<(), Fault> {
        let point = self.history.after(head.entries);
        let is_so = match point {
            Some(point) => *head == Head::new(&point, &self.order.last(lane).digest),
            None => head.entries <= self.point().entries, // (older than what this node can compare)
        };
        if is_so {
            return Ok(());
        }
        Err(Fault::Differs { node: lane.of.node.clone(), entries: head.entries, place })
    }

    fn play_item(&mut self, node: &Name, place: u64, item: &Item<M::Call>) -> Result<Told<M::Reply>, Fault> {
        match item {
            Item::Call(call) => {
                if self.is_others(M::thread(call), node) {
                    return Ok(Told::OtherNode);
                }
                let reply = self.machine.play(call);
                if let Some(made) = M::made(call, &reply) {
                    self.owners.insert(made, node.clone());
                }
                Ok(Told::Reply(reply))
            }
            Item::HandOver { thread, to } => {
                if self.owners.get(thread) != Some(node) {
                    return Ok(Told::OtherNode);
                }
                self.owners.insert(*thread, to.clone());
                Ok(Told::Done)
            }
            Item::Rules(rules) => {
                if !self.machine.set_rules(*rules) {
                    return Err(Fault::UnknownRules { rules: *rules, place });
                }
                self.rules = *rules;
                Ok(Told::Done)
            }
        }
    }

    /// What another cluster begins with that begins at this state.
    pub fn beginning(&self) -> Result<Beginning, Fault> {
        match self.machine.checkpoint() {
            Written::State(machine) => Ok(Beginning { owners: self.owners.clone(), machine }),
            Written::Never => Err(Fault::NoMachine("it is begun at no state".into())),
            Written::NoMemory => Err(Fault::NoMemory),
        }
    }

    /// Where a replica of the machine begins.
    pub fn start(&self) -> Result<Start<M>, Fault> {
        match self.machine.checkpoint() {
            Written::State(state) => Ok(self.played.start(&self.boot.limits, self.rules, state)),
            Written::Never => Err(Fault::NoMachine("it is begun at no state".into())),
            Written::NoMemory => Err(Fault::NoMemory),
        }
    }

    /// Whether a thread belongs to another node. One that is gone belongs to none: the machine says so.
    fn is_others(&self, thread: u64, node: &Name) -> bool {
        self.owners.get(&thread).is_some_and(|owner| owner != node)
    }

    /// The mark after the last entry, which a node put, if one stands there. What nobody needs any more is forgotten at it, on each node alike.
    pub fn mark(&mut self, writer: &Name) -> Option<Result<Mark, NoMemory>> {
        if self.since.0 < self.boot.interval && self.since.1 < MARK_BYTES {
            return None;
        }
        let machine = &self.machine;
        self.owners.retain(|thread, _| machine.is_live(*thread));
        self.order.forget(self.marked);
        self.marked = self.point().place;
        self.since = (0, 0);
        Some(self.written(writer.clone()))
    }

    /// The digest is of all bytes, whether a node puts them or not.
    fn written(&self, writer: Name) -> Result<Mark, NoMemory> {
        let (bytes, is_begun_at) = match self.machine.checkpoint() {
            Written::State(state) => (self.bytes(&state), true),
            Written::Never => (self.bytes(&[]), false),
            Written::NoMemory => return Err(NoMemory),
        };
        let digest = sha256(&bytes);
        let checkpoint = Some(bytes).filter(|bytes| is_begun_at && bytes.len() <= MOST_BYTES);
        let Point { entries, place, .. } = self.point();
        Ok(Mark { entries, place, writer, digest, checkpoint })
    }

    /// The bytes of a checkpoint, with those of the machine.
    fn bytes(&self, machine: &[u8]) -> Vec<u8> {
        let mut out = vec![FORMAT];
        out.extend_from_slice(&self.point().bytes());
        [self.marked, self.rules].iter().for_each(|number| put_number(&mut out, *number));
        self.order.put(&mut out);
        put_owners(&mut out, &self.owners);
        out.extend_from_slice(machine);
        out
    }

    /// The state of a checkpoint after so many entries.
    pub fn restore(&self, entries: u64, bytes: &[u8]) -> Result<State<M>, Fault> {
        let state = self.take(bytes).unwrap_or(Err(Fault::NoCheckpoint))?;
        if state.point().entries == entries {
            Ok(state)
        } else {
            Err(Fault::NoCheckpoint)
        }
    }

    /// The state of a checkpoint. None where the bytes are none.
    fn take(&self, bytes: &[u8]) -> Option<Result<State<M>, Fault>> {
        let rest = &mut bytes.strip_prefix(&[FORMAT])?;
        let point = Point::take(rest)?;
        let (marked, rules) = (take_number(rest)?, take_number(rest)?);
        let order = Order::take(rest)?;
        let owners = take_owners(rest)?;
        let restored = restored(&self.boot.limits, rules, rest);
        Some(restored.map(|machine| State {
            keys: self.keys.clone(),
            boot: self.boot.clone(),
            voids: self.voids.clone(),
            machine,
            order,
            owners,
            rules,
            history: History::new(point),
            marked,
            since: (0, 0),
            played: Played::default(),
        }))
    }
}

/// A newly booted machine.
fn booted<M: Machine>(boot: &Boot) -> Result<M, Fault> {
    let mut machine = M::boot(&boot.limits).map_err(Fault::NoMachine)?;
    if machine.set_rules(boot.rules) {
        Ok(machine)
    } else {
        Err(Fault::UnknownRules { rules: boot.rules, place: 0 })
    }
}

/// A machine in a state, under these rules.
pub(crate) fn restored<M: Machine>(limits: &[u8], rules: u64, state: &[u8]) -> Result<M, Fault> {
    let mut machine = M::restore(limits, state).map_err(|why| match why {
        Unrestored::NoState => Fault::NoCheckpoint,
        Unrestored::NoMemory => Fault::NoMemory,
    })?;
    if machine.set_rules(rules) {
        Ok(machine)
    } else {
        Err(Fault::UnknownRules { rules, place: 0 })
    }
}
