//! A cluster of kernels whose log is dropped: what a new node begins at, and what it refuses.
#[path = "simulation/model.rs"]
#[allow(dead_code)]
mod model;
#[path = "simulation/player.rs"]
#[allow(dead_code)]
mod player;

use histar::trusted::Thread;
use histar::{label, Call, Entry, Kernel, Level, Limits, Object, Reply};
use histar_cluster::engine::{Pair, Request};
use histar_cluster::memory::Memory;
use histar_cluster::{
    audit, beginning_from, export, limits, range, retired, Digest, Fault, Item, Machine, Name, Options, Receipt,
    Running, Told, Unexported, Unrestored, Written,
};
use player::{Player, Real};
use std::time::{Duration, Instant};

/// So many entries stand between two places at which states are compared.
const INTERVAL: u64 = 8;

fn name(text: &str) -> Name {
    Name::new(text).expect("a name")
}

fn open<M: Machine + Send + 'static>(store: &Memory, node: &str) -> Running<M>
where
    M::Reply: Send,
{
    let limits = limits(&Limits::pages(64));
    let options = Options { cluster: name("c"), node: name(node), limits, lanes: 2, interval: INTERVAL, any: 1 };
    Running::open(store.clone(), options)
}

/// The keys that begin so.
fn keys(store: &Memory, prefix: &str) -> Vec<Pair> {
    store.store().range(format!("/c/{prefix}/").as_bytes(), format!("/c/{prefix}0").as_bytes(), u64::MAX)
}

/// Waits for something, for a minute at most.
fn until<T>(mut find: impl FnMut() -> Option<T>) -> T {
    let end = Instant::now() + Duration::from_secs(60);
    while Instant::now() < end {
        if let Some(found) = find() {
            return found;
        }
        std::thread::sleep(Duration::from_millis(10));
    }
    panic!("it does not come")
}

/// Why a node has stopped, once it has.
fn stops(node: &Running<Kernel>) -> Fault {
    until(|| node.fault())
}

fn told<M: Machine + Send + 'static>(node: &Running<M>, item: Item<M::Call>) -> Told<M::Reply>
where
    M::Reply: Send,
{
    match node.submit(&[item]).expect("a node that runs").wait() {
        Some(Receipt::Told { mut told, .. }) => told.pop().expect("an answer"),
        _ => panic!("no answer"),
    }
}

/// A segment, and how often it was written.
struct Deeds {
    segment: Entry,
    writes: u64,
}

impl Deeds {
    fn begin(node: &Running<Kernel>) -> Deeds {
        let make = Call::SegmentCreate { container: Object::ROOT, label: label! { L1 }.into(), quota: 2, pages: 1 };
        let called = node.call(Thread::BOOT, &make).expect("a call");
        let Ok(Reply::Object(segment)) = called.reply else { panic!("{called:?}") };
        Deeds { segment: Entry::in_root(segment), writes: 0 }
    }

    /// Writes, makes a category or writes again, and makes a thread and cuts it off, by an entry each.
    fn go_on(&mut self, node: &Running<Kernel>) {
        self.writes += 1;
        let (entry, offset) = (self.segment, 8 * (self.writes % 32) as u32);
        let write = Call::SegmentWrite { entry, offset, bytes: self.writes.to_be_bytes().to_vec().into() };
        let thread = Call::ThreadCreate {
            container: Object::ROOT,
            label: label! { L1 }.into(),
            quota: 1,
            clearance: label! { L2 }.into(),
            entry_point: self.writes,
        };
        // (the thread's label takes 16 categories)
        let other = if self.writes % 2 == 0 { Call::CatCreate } else { write.clone() };
        let made = [write, other, thread].map(|call| node.call(Thread::BOOT, &call).expect("a call").reply);
        let [Ok(_), Ok(_), Ok(Reply::Object(made))] = made else { panic!("{made:?}") };
        node.call(Thread::BOOT, &Call::Unref { entry: Entry::in_root(made) }).expect("a call");
    }
}

/// Two nodes that have passed several checkpoints and dropped all of the log but what comes after the last.
fn dropped(store: &Memory) -> (Running<Kernel>, Running<Kernel>, Deeds) {
    let north = open(store, "north");
    let mut deeds = Deeds::begin(&north);
    let south = open(store, "south");
    for _ in 0..2 {
        (0..INTERVAL).for_each(|_| deeds.go_on(&north));
        until(|| (keys(store, "log/e").len() <= INTERVAL as usize).then_some(()));
    }
    (north, south, deeds)
}

/// All nodes see all that any of them has put: also the first entry of each.
fn see_all<M: Machine + Send + 'static>(nodes: &[&Running<M>])
where
    M::Reply: Send,
{
    let notes: Vec<_> = nodes.iter().map(|node| node.latest().expect("a note")).collect();
    let last = notes.into_iter().max().expect("a note");
    nodes.iter().for_each(|node| node.reaches(last).expect("a node that runs"));
}

/// How many entries have counted, the digest of all and their replies, and the text of the kernel.
fn state(node: &Running<Kernel>) -> (u64, Digest, String) {
    let text = node.read(|kernel| kernel.checkpoint()).expect("a machine").expect("a text");
    let status = node.status().expect("a status");
    (status.entries, status.digest, text)
}

/// The text of a reader's kernel.
fn read(node: &Running<Kernel>) -> String {
    node.reader().expect("a reader").read(|kernel| kernel.checkpoint()).expect("a machine").expect("a text")
}

/// All nodes are in one state.
fn are_alike(nodes: &[&Running<Kernel>]) {
    see_all(nodes);
    nodes.iter().for_each(|node| assert_eq!(state(node), state(nodes[0])));
    nodes.iter().for_each(|node| assert_eq!(read(node), state(node).2));
}

#[test]
fn a_new_node_begins_at_a_checkpoint_of_kernels() {
    let store = Memory::new();
    let (north, south, mut deeds) = dropped(&store);
    assert!(keys(&store, "log/e")
        .iter()
        .all(|pair| !pair.key.starts_with(b"/c/log/e/north") || !pair.key.ends_with(b"/01")));
    let east = open(&store, "east");
    are_alike(&[&north, &south, &east]);
    deeds.go_on(&north);
    are_alike(&[&north, &south, &east]);
    // (what the new node answers is what a kernel at the others' text answers)
    assert_eq!(told(&north, Item::HandOver { thread: 2, to: name("east") }), Told::Done);
    let alone = Kernel::open_at(state(&north).2).expect("a kernel");
    let calls = [Call::CatCreate, Call::SegmentRead { entry: deeds.segment, offset: 0, count: 64 }];
    let reply = east.call(Thread::BOOT, &calls[0]).expect("a call").reply;
    assert_eq!(reply, alone.call(Thread::BOOT, &calls[0]));
    let read = east.read(|kernel| kernel.of(Thread::BOOT).segment_read(deeds.segment, 0, 64)).expect("a machine");
    assert_eq!(read.map(Reply::Bytes), alone.call(Thread::BOOT, &calls[1]));
    assert_eq!(Machine::checkpoint(&alone), Written::State(state(&east).2.into_bytes()));
    (0..INTERVAL).for_each(|_| deeds.go_on(&east));
    are_alike(&[&east, &south, &north]);
}

#[test]
fn a_log_that_was_dropped_is_audited_from_a_checkpoint() {
    let store = Memory::new();
    let (north, _south, mut deeds) = dropped(&store);
    deeds.go_on(&north);
    let pairs = store.store().range(b"/c/", b"/c0", u64::MAX);
    let dump = audit(&name("c"), &pairs).expect("a dump");
    assert!(dump.starts_with("histar-dump 2\nlimits 64 1 4 1\nstate ") && dump.contains("event 2 1 "), "{dump}");
    assert!(!dump.contains(" segment_create "), "{dump}");
    // (its calls lead to the state of the nodes)
    let tables = |text: &str| text.split_once("\nlive ").map(|(_, tables)| tables.to_string());
    assert_eq!(tables(&dump), tables(&state(&north).2));
    let mut left = pairs;
    left.retain(|pair| !pair.key.starts_with(b"/c/state/"));
    assert!(matches!(audit(&name("c"), &left), Err(Fault::Gap { .. } | Fault::Differs { .. } | Fault::NoCheckpoint)));
    left.retain(|pair| !pair.key.starts_with(b"/c/log/e/"));
    assert_eq!(audit(&name("c"), &left), Err(Fault::NoCheckpoint));
}

#[test]
fn a_checkpoint_that_is_broken_in_a_byte_is_refused() {
    let store = Memory::new();
    let (north, south, _) = dropped(&store);
    let checkpoints = keys(&store, "state");
    for part in 0..8 {
        for Pair { key, value, .. } in &checkpoints {
            let mut value = value.clone();
            let at = part * (value.len() - 1) / 7;
            value[at] ^= 1;
            store.store().put(key, &value, None);
        }
        let said = stops(&open(&store, &format!("new-{part}"))).to_string();
        assert_eq!(said, "the log was dropped, and no checkpoint can be restored");
    }
    checkpoints.iter().for_each(|pair| store.store().put(&pair.key, &pair.value, None));
    are_alike(&[&north, &south, &open(&store, "new")]);
}

#[test]
fn what_is_left_of_a_log_is_not_played_without_its_checkpoint() {
    let store = Memory::new();
    let (north, south, _) = dropped(&store);
    drop((north, south));
    // (with no entry at all none is missing between two others)
    for Pair { key, .. } in keys(&store, "log/e").into_iter().chain(keys(&store, "state")) {
        store.store().act(&Request::Drop { to: [&key[..], &[0]].concat(), from: key }, 1);
    }
    assert_eq!(stops(&open(&store, "east")), Fault::NoCheckpoint);
}

#[test]
fn a_text_of_another_kernel_is_no_checkpoint() {
    let kernel = Kernel::boot(64).expect("a kernel");
    let segment = kernel.session().segment_create(Object::ROOT, &label! { L1 }, 2, 1).expect("a segment");
    kernel.session().segment_write(Entry::in_root(segment), 0, b"secret").expect("a write");
    let Written::State(text) = Machine::checkpoint(&kernel) else { panic!("no text") };
    let opened = |of: &Limits, text: &[u8]| <Kernel as Machine>::restore(&limits(of), text);
    let own = Limits::pages(64);
    let again = opened(&own, &text).expect("a kernel");
    assert_eq!(Machine::checkpoint(&again), Written::State(text.clone()));
    let others = [
        Limits::pages(65),
        Limits { next_id: 5, ..own },
        Limits { next_category: 2, ..own },
        Limits { device: Level::L2, ..own },
    ];
    for other in others {
        assert_eq!(opened(&other, &text).err(), Some(Unrestored::NoState), "{other:?}");
    }
    assert_eq!(<Kernel as Machine>::restore(b"none", &text).err(), Some(Unrestored::NoState));
    assert_eq!(opened(&own, b"histar-dump 1\nlimits 64 1 4 1\nend\n").err(), Some(Unrestored::NoState));
    // (what another byte leaves is no text, or that of another kernel)
    for at in 0..text.len() {
        let mut other = text.clone();
        other[at] ^= 1;
        match opened(&own, &other) {
            Ok(kernel) => assert_eq!(Machine::checkpoint(&kernel), Written::State(other)),
            Err(why) => assert_eq!(why, Unrestored::NoState, "byte {at}"),
        }
    }
}

#[test]
fn a_node_without_memory_for_a_text_does_no_harm() {
    let store = Memory::new();
    let north: Running<Real> = open(&store, "north");
    north.latest().expect("a note");
    let others = ["south", "west"].map(|node| open::<Real>(&store, node));
    let [south, west] = &others;
    let mut calls = 0;
    let mut play = |count: u64| {
        for _ in 0..count {
            calls += 1;
            assert!(matches!(told(&north, Item::Call(Real::call(2, calls, 1))), Told::Reply(Ok(_))));
        }
        see_all(&[&north, south, west]);
        let states = [&north, south, west].map(|node| node.status().map(|it| (it.entries, it.digest)));
        assert!(states.iter().all(|state| *state == states[0]), "{states:?}");
    };
    play(1);
    west.read(|real| real.lack_memory(true)).expect("a machine");
    play(4 * INTERVAL);
    let lacked = west.status().and_then(|status| status.unwritten).expect("a place");
    let place = format!("/{:x}{lacked:x}", format!("{lacked:x}").len() - 1);
    let agree = |node: &str| keys(&store, &format!("log/a/{node}")).iter().any(|it| it.key.ends_with(place.as_bytes()));
    until(|| (agree("north") && agree("south")).then_some(()));
    assert!(!agree("west"));
    // (it takes part again once it has memory)
    west.read(|real| real.lack_memory(false)).expect("a machine");
    play(2 * INTERVAL);
    let agreed =
        || keys(&store, "log/a/west").last().is_some_and(|it| it.key > format!("/c/log/a/west{place}").into_bytes());
    until(|| agreed().then_some(()));
    assert_eq!([north.fault(), south.fault(), west.fault()], [None, None, None]);
}

/// What begins a cluster with so many pages, whose boot thread is a node's.
fn begins(node: &str, pages: u32) -> Options {
    let limits = limits(&Limits::pages(pages));
    Options { cluster: name("d"), node: name(node), limits, lanes: 1, interval: INTERVAL, any: 1 }
}

fn all(store: &Memory) -> Vec<Pair> {
    let (from, to) = range(&name("c"));
    store.store().range(&from, &to, u64::MAX)
}

#[test]
fn a_cluster_begins_at_the_state_of_another_one_with_more_pages() {
    let store = Memory::new();
    let (north, _south, mut deeds) = dropped(&store);
    deeds.go_on(&north);
    let (_, _, before) = state(&north);
    let bytes = export(&name("c"), &all(&store)).expect("a state");
    let other = Memory::new();
    other.store().transact(
        &beginning_from(&begins("north", 100), &bytes).expect("a beginning").map(|(key, value)| (key, Some(value))),
    );
    let open = |node: &str| Running::<Kernel>::open(other.clone(), begins(node, 100));
    let (first, second) = (open("north"), open("south"));
    first.latest().expect("a note");
    let grown =
        before.replace("limits 64 ", "limits 100 ").replace("object 1 container 64 ", "object 1 container 100 ");
    assert_eq!(first.read(|kernel| kernel.checkpoint()).expect("a machine").expect("a text"), grown);
    // (it goes on, also past its own checkpoints, and its threads are whose they were)
    (0..2 * INTERVAL).for_each(|_| deeds.go_on(&first));
    see_all(&[&first, &second]);
    are_alike(&[&first, &second, &open("east")]);
    let wrong = second.call(Thread::BOOT, &Call::CatCreate);
    assert_eq!(wrong, Err(histar_cluster::Uncalled::OtherNode));
    // (the audit of it begins at the state)
    let pairs = other.store().range(b"/d/", b"/d0", u64::MAX);
    assert!(audit(&name("d"), &pairs).expect("a dump").starts_with("histar-dump 2\nlimits 100 "));
    // (what it begins at is changed: no node starts)
    other.store().put(b"/d/start", b"x", None);
    assert_eq!(stops(&open("west")), Fault::OtherBoot);
}

#[test]
fn what_is_no_exported_state_begins_nothing() {
    let store = Memory::new();
    let (north, _south, _) = dropped(&store);
    north.latest().expect("a note");
    let bytes = export(&name("c"), &all(&store)).expect("a state");
    for at in 0..bytes.len() {
        let mut changed = bytes.clone();
        changed[at] ^= 1;
        assert_eq!(beginning_from(&begins("north", 64), &changed), Err(Unexported::NoExport), "byte {at}");
        assert_eq!(beginning_from(&begins("north", 64), &bytes[..at]), Err(Unexported::NoExport), "{at} bytes");
    }
    assert!(beginning_from(&begins("north", 64), &bytes).is_ok());
    assert_eq!(beginning_from(&begins("north", 4), &bytes), Err(Unexported::NoKernel(Fault::NoCheckpoint)));
}

#[test]
fn what_a_retired_node_agrees_on_stays_where_another_needs_it() {
    let store = Memory::new();
    let (north, south, mut deeds) = dropped(&store);
    drop(south);
    let agreements = || keys(&store, "log/a");
    let number = |key: &[u8]| key.rsplit(|it| *it == b'/').next().map(<[u8]>::to_vec);
    let both = |found: &[Pair]| {
        found
            .iter()
            .map(|it| number(&it.key))
            .filter(|it| found.iter().filter(|other| number(&other.key) == *it).count() == 2)
            .max()
    };
    let found = until(|| Some(agreements()).filter(|found| both(found).is_some()));
    let goes = retired(&name("c"), &name("south"), &found);
    assert!(goes[2..].iter().all(|(from, _)| both(&found) != Some(number(from))), "{goes:?}");
    let east: Running<Kernel> = open(&store, "east");
    until(|| {
        deeds.go_on(&north);
        (both(&agreements()) > both(&found) && east.fault().is_none()).then_some(())
    });
    for (from, to) in retired(&name("c"), &name("south"), &agreements()) {
        store.store().act(&Request::Drop { from, to }, 1);
    }
    see_all(&[&north, &open(&store, "west")]);
}
