//! An engine in this process, without a disk: for tests, and for what a simulation does to it.
use crate::engine::{Answer, Answers, Engine, Event, Pair, Request};
use std::collections::{BTreeMap, BTreeSet};
use std::sync::mpsc::{channel, RecvTimeoutError, Sender};
use std::sync::{Arc, Mutex, MutexGuard, PoisonError};
use std::time::Duration;

struct Version {
    revision: u64,
    created: u64,
    value: Option<Vec<u8>>,
    lease: Option<u64>,
}

/// Keys with all their versions, and leases that end when they are told to.
#[derive(Default)]
pub struct Store {
    /// The revision of the last change.
    pub revision: u64,
    /// The identity of the cluster of the engine.
    pub id: u64,
    forgotten: u64,
    keys: BTreeMap<Vec<u8>, Vec<Version>>,
    puts: Vec<Event>,
    leases: BTreeSet<u64>,
    next_lease: u64,
}

impl Store {
    /// A store without a key.
    pub fn new() -> Store {
        Store { id: 1, ..Store::default() }
    }

    fn last(&self, key: &[u8]) -> Option<&Version> {
        self.keys.get(key)?.last().filter(|version| version.value.is_some())
    }

    /// Puts a value under a key.
    pub fn put(&mut self, key: &[u8], value: &[u8], lease: Option<u64>) {
        self.revision += 1;
        self.put_now(key, value, lease);
    }

    /// Does changes as one transaction does, at one revision: each key gets its value, or is deleted.
    pub fn transact(&mut self, changes: &[(Vec<u8>, Option<Vec<u8>>)]) {
        self.revision += 1;
        for (key, value) in changes {
            match value {
                Some(value) => self.put_now(key, value, None),
                None => self.delete_now(key.clone()),
            }
        }
    }

    fn put_now(&mut self, key: &[u8], value: &[u8], lease: Option<u64>) {
        let (revision, created) = (self.revision, self.last(key).map_or(self.revision, |version| version.created));
        self.puts.push(Event { key: key.to_vec(), value: value.to_vec(), revision, is_new: created == revision });
        let version = Version { revision, created, value: Some(value.to_vec()), lease };
        self.keys.entry(key.to_vec()).or_default().push(version);
    }

    fn delete(&mut self, keys: Vec<Vec<u8>>) {
        self.revision += 1;
        keys.into_iter().for_each(|key| self.delete_now(key));
    }

    fn delete_now(&mut self, key: Vec<u8>) {
        let gone = Version { revision: self.revision, created: 0, value: None, lease: None };
        self.keys.entry(key).or_default().push(gone);
    }

    /// The keys of a range at a revision.
    pub fn range(&self, from: &[u8], to: &[u8], at: u64) -> Vec<Pair> {
        let mut found = Vec::new();
        for (key, versions) in self.keys.range(from.to_vec()..to.to_vec()) {
            if let Some(version) = versions.iter().rev().find(|version| version.revision <= at) {
                let pair = |value: &Vec<u8>| Pair { key: key.clone(), value: value.clone(), created: version.created };
                found.extend(version.value.as_ref().map(pair));
            }
        }
        found
    }

    /// Does a request, and answers it. A page has at most so many keys.
    pub fn act(&mut self, request: &Request, page: usize) -> Answer {
        match request {
            Request::Put { lease: Some(lease), .. } if !self.leases.contains(lease) => Answer::Lost,
            Request::Put { key, only_new: true, .. } if self.last(key).is_some() => {
                Answer::Put { revision: self.revision, is_done: false }
            }
            Request::Put { key, value, lease, .. } => {
                self.put(key, value, *lease);
                Answer::Put { revision: self.revision, is_done: true }
            }
            Request::Page { at, .. } if *at > 0 && *at < self.forgotten => Answer::Forgotten,
            Request::Page { from, to, at } => {
                let at = if *at == 0 { self.revision } else { *at };
                let mut pairs = self.range(from, to, at);
                let is_more = pairs.len() > page;
                pairs.truncate(page);
                Answer::Page { revision: self.revision, pairs, is_more }
            }
            Request::Watch { .. } => Answer::Watching(self.revision),
            Request::Lease => {
                self.next_lease += 1;
                self.leases.insert(self.next_lease);
                Answer::Lease(self.next_lease)
            }
            Request::Keep { .. } => Answer::Kept,
            Request::Drop { from, to } => {
                let gone = self.range(from, to, self.revision);
                self.delete(gone.into_iter().map(|pair| pair.key).collect());
                Answer::Dropped
            }
            Request::Forget { before } => {
                self.forgotten = self.forgotten.max(*before);
                Answer::Dropped
            }
        }
    }

    /// What a watch reports next: so many changes after a revision, and what the last of them was put with. None where they are forgotten.
    pub fn changes(&self, from: &[u8], to: &[u8], after: u64, most: usize) -> Option<Vec<Event>> {
        if after < self.forgotten {
            return None;
        }
        let first = self.puts.partition_point(|event| event.revision <= after);
        let is_in = |event: &&Event| from <= &event.key[..] && &event.key[..] < to;
        let mut found: Vec<Event> = Vec::new();
        for event in self.puts[first..].iter().filter(is_in) {
            if found.len() >= most && found.last().is_some_and(|last| last.revision < event.revision) {
                break;
            }
            found.push(event.clone());
        }
        Some(found)
    }

    /// Whether a value with these bytes was ever put.
    pub fn has_put(&self, bytes: &[u8]) -> bool {
        self.puts.iter().any(|event| event.value.windows(bytes.len()).any(|part| part == bytes))
    }

    /// Forgets all changes up to the last one.
    pub fn forget(&mut self) {
        self.forgotten = self.revision;
    }

    /// The lease at a place ends, and its keys with it.
    pub fn end_lease(&mut self, place: usize) {
        let lease = self.leases.iter().nth(place % self.leases.len().max(1)).copied();
        lease.into_iter().for_each(|lease| self.end(lease));
    }

    /// The leases of the keys of a range end, and their keys with them.
    pub fn end_leases_of(&mut self, from: &[u8], to: &[u8]) {
        let keys = self.keys.range(from.to_vec()..to.to_vec());
        let leases: Vec<u64> = keys.filter_map(|(_, versions)| versions.last()?.lease).collect();
        leases.into_iter().for_each(|lease| self.end(lease));
    }

    fn end(&mut self, lease: u64) {
        self.leases.remove(&lease);
        let is_of = |versions: &[Version]| {
            versions.last().is_some_and(|last| last.value.is_some() && last.lease == Some(lease))
        };
        let gone = self.keys.iter().filter(|(_, versions)| is_of(versions)).map(|(key, _)| key.clone()).collect();
        self.delete(gone);
    }

    /// The disks of the engine are lost, and it is restored from a copy: it is another cluster then.
    pub fn restore(&mut self, revision: u64) {
        self.id += 1;
        self.revision = revision;
        self.puts.retain(|event| event.revision <= revision);
        self.keys.values_mut().for_each(|versions| versions.retain(|version| version.revision <= revision));
    }
}

/// How many keys a page has.
const PAGE: usize = 1000;

/// Each so long a watch looks for changes.
const LOOK: Duration = Duration::from_millis(1);

/// A store that nodes of this process share. Its leases never end.
///
/// ```
/// use histar_cluster::memory::Memory;
/// use histar_cluster::{limits, Name, Options, Running};
/// use histar::{trusted::Thread, Call, Kernel, Limits, Reply};
///
/// let options = |node| Options {
///     cluster: Name::new("example").unwrap(),
///     node: Name::new(node).unwrap(),
///     limits: limits(&Limits::pages(64)),
///     lanes: 4,
///     interval: 10_000,
///     any: 1,
/// };
/// let store = Memory::new();
/// let north: Running<Kernel> = Running::open(store.clone(), options("north"));
/// let called = north.call(Thread::BOOT, &Call::CatCreate).unwrap();
/// assert!(matches!(called.reply, Ok(Reply::Category(_))));
/// let south: Running<Kernel> = Running::open(store, options("south"));
/// south.reaches(called.note).unwrap();
/// assert_eq!(south.read(|kernel| kernel.of(Thread::BOOT).self_get().unwrap().label.pairs.len()), Ok(1));
/// ```
#[derive(Clone)]
pub struct Memory(Arc<Mutex<Store>>);

impl Memory {
    /// A store without a key.
    pub fn new() -> Memory {
        Memory(Arc::new(Mutex::new(Store::new())))
    }

    /// The store, for what a test does to it. No node is answered meanwhile.
    pub fn store(&self) -> MutexGuard<'_, Store> {
        self.0.lock().unwrap_or_else(PoisonError::into_inner)
    }
}

impl Default for Memory {
    fn default() -> Memory {
        Memory::new()
    }
}

impl Engine for Memory {
    fn start(self, answers: Answers) -> Box<dyn Fn(u64, Request) + Send> {
        let (sender, requests) = channel::<(u64, Request)>();
        std::thread::spawn(move || {
            let mut watch = None;
            loop {
                let next = requests.recv_timeout(LOOK);
                let mut store = self.store();
                let mut told = Vec::new();
                match next {
                    Ok((number, request)) => {
                        told.push((number, store.act(&request, PAGE)));
                        if let Request::Watch { from, to, after } = request {
                            watch = Some((number, from, to, after));
                        }
                    }
                    Err(RecvTimeoutError::Disconnected) => return,
                    Err(RecvTimeoutError::Timeout) => {}
                }
                if let Some((number, from, to, after)) = &mut watch {
                    match store.changes(from, to, *after, PAGE) {
                        None => {
                            told.push((*number, Answer::Forgotten));
                            watch = None;
                        }
                        Some(events) => {
                            if let Some(last) = events.last() {
                                *after = last.revision;
                                told.push((*number, Answer::Events(events)));
                            }
                        }
                    }
                }
                let id = store.id;
                drop(store);
                if !told.into_iter().all(|(number, answer)| answers.give(number, id, answer)) {
                    return;
                }
            }
        });
        asking(sender)
    }
}

fn asking(sender: Sender<(u64, Request)>) -> Box<dyn Fn(u64, Request) + Send> {
    Box::new(move |number, request| {
        let _ = sender.send((number, request)); // (a node that is closed asks nobody)
    })
}
