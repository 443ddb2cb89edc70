//! What nodes do with what is wrong, and what one node tells another.
#[path = "simulation/model.rs"]
mod model;

use histar_cluster::engine::{Answer, Answers, Engine, Request};
use histar_cluster::memory::{Memory, Store};
use histar_cluster::{
    beginning, void, Fault, Item, Name, Node, Options, Output, Receipt, Running, Told, Uncalled, Unread, Unsettled,
};
use model::{Call, Model, Reply};
use std::collections::{BTreeSet, VecDeque};
use std::sync::atomic::{AtomicBool, AtomicU64, Ordering};
use std::time::{Duration, Instant};

fn name(text: &str) -> Name {
    Name::new(text).expect("a name")
}

fn options(node: &str) -> Options {
    Options { cluster: name("c"), node: name(node), limits: b"limits".to_vec(), lanes: 2, interval: 4, any: 1 }
}

/// A node of a cluster whose checkpoints are too long for an engine.
fn open_long(store: &Memory, node: &str) -> Running<Model> {
    Running::open(store.clone(), Options { limits: model::LONG.to_vec(), ..options(node) })
}

fn open(store: &Memory, node: &str) -> Running<Model> {
    Running::open(store.clone(), options(node))
}

/// Two nodes. Thread 2 belongs to the one that boots first: to north.
fn north_and_south(store: &Memory) -> (Running<Model>, Running<Model>) {
    let north = open(store, "north");
    north.latest().expect("a note");
    (north, open(store, "south"))
}

fn call(thread: u64, number: u64, deed: u64) -> Item<Call> {
    Item::Call(Call { thread, number, deed })
}

fn told(node: &Running<Model>, items: &[Item<Call>]) -> Vec<Told<Reply>> {
    match node.submit(items).expect("a node that runs").wait() {
        Some(Receipt::Told { told, .. }) => told,
        receipt => panic!("{receipt:?}"),
    }
}

/// Waits until a node has stopped.
fn stops(node: &Running<Model>) -> Fault {
    until(|| node.fault().is_some());
    node.fault().expect("a fault")
}

/// Waits until something holds, for a minute at most.
fn until(mut holds: impl FnMut() -> bool) {
    let end = Instant::now() + Duration::from_secs(60);
    while !holds() {
        assert!(Instant::now() < end, "it does not come");
        std::thread::sleep(Duration::from_millis(5));
    }
}

fn with(store: &Memory, act: impl FnOnce(&mut Store)) {
    act(&mut store.store());
}

#[test]
fn a_read_sees_what_its_note_tells() {
    let store = Memory::new();
    let (north, south) = north_and_south(&store);
    for number in 1..100 {
        assert!(matches!(told(&north, &[call(2, number, 0)])[0], Told::Reply(_)));
        let note = south.latest().expect("a note");
        assert!(south.read(|model| model.replies.contains_key(&number)).expect("a machine"));
        assert_eq!(north.reaches(note), Ok(()));
    }
    let other = histar_cluster::Note { engine: 99, place: 1 };
    assert_eq!(north.reaches(other), Err(Unread::OtherEngine));
}

#[test]
fn readers_see_what_their_nodes_are_told() {
    let store = Memory::new();
    let (north, south) = north_and_south(&store);
    let (last, is_over) = (AtomicU64::new(0), AtomicBool::new(false));
    std::thread::scope(|scope| {
        let readers: Vec<_> = [&north, &south, &south, &south]
            .map(|node| node.reader().expect("a reader"))
            .into_iter()
            .map(|mut reader| {
                let (last, is_over) = (&last, &is_over);
                scope.spawn(move || {
                    let mut seen = BTreeSet::new();
                    while !is_over.load(Ordering::Acquire) {
                        let number = last.load(Ordering::Acquire);
                        let has = |model: &mut Model| number == 0 || model.replies.contains_key(&number);
                        assert!(reader.read(has).expect("a machine"));
                        seen.insert(number);
                    }
                    (seen.len(), reader.read(|model| model.replies.clone()).expect("a machine"))
                })
            })
            .collect();
        for number in 1..300 {
            assert!(matches!(told(&north, &[call(2, number, 0)])[0], Told::Reply(_)));
            assert_eq!(told(&south, &[call(2, 1000 + number, 0)]), [Told::OtherNode]);
            last.store(number, Ordering::Release);
        }
        is_over.store(true, Ordering::Release);
        let replies = north.read(|model| model.replies.clone()).expect("a machine");
        for it in readers {
            let (seen, read) = it.join().expect("no reader panics");
            assert!(seen > 1 && read == replies, "{seen}");
        }
    });
}

#[test]
fn a_node_runs_while_it_is_read() {
    let store = Memory::new();
    let (north, south) = north_and_south(&store);
    let mut reader = south.reader().expect("a reader");
    drop(south);
    told(&north, &[call(2, 1, 0)]);
    while !reader.read(|model| model.replies.contains_key(&1)).expect("a machine") {
        std::thread::yield_now();
    }
}

#[test]
fn a_thread_calls_by_its_node_alone() {
    let store = Memory::new();
    let north = open(&store, "north");
    let made = told(&north, &[call(2, 1, 1)]);
    let Told::Reply(Reply { made: Some(thread), .. }) = made[0] else { panic!("{made:?}") };
    let south = open(&store, "south");
    assert_eq!(told(&south, &[call(thread, 2, 0)]), [Told::OtherNode]);
    assert_eq!(told(&south, &[Item::HandOver { thread, to: name("south") }]), [Told::OtherNode]);
    assert_eq!(told(&north, &[Item::HandOver { thread, to: name("south") }]), [Told::Done]);
    assert!(matches!(told(&south, &[call(thread, 3, 0)])[0], Told::Reply(_)));
    assert_eq!(told(&north, &[call(thread, 4, 0)]), [Told::OtherNode]);
}

/// A node over a store that puts its entries one by one, when it is told to.
struct Held {
    node: Node<Model>,
    store: Store,
    watch: Option<(u64, Request)>,
    seen: u64,
    entries: VecDeque<(u64, Request)>,
    told: Vec<u64>,
}

impl Held {
    fn new() -> Held {
        let (node, store) = (Node::new(Options { interval: 1 << 40, ..options("north") }), Store::new());
        let mut held = Held { node, store, watch: None, seen: 0, entries: VecDeque::new(), told: Vec::new() };
        while held.node.status().and_then(|status| status.incarnation).is_none() {
            held.settle();
            held.node.tick();
        }
        held.settle();
        held.put();
        held
    }

    /// Does all that the node asks but for entries.
    fn settle(&mut self) {
        while let Some(output) = self.node.next_output() {
            match output {
                Output::Tell(ticket, _) => self.told.push(ticket),
                Output::Ask(number, Request::Put { key, value, lease: None, only_new: false }) => {
                    self.entries.push_back((number, Request::Put { key, value, lease: None, only_new: false }))
                }
                Output::Ask(number, request) => self.act(number, request),
            }
        }
    }

    fn act(&mut self, number: u64, request: Request) {
        let answer = self.store.act(&request, 100);
        if let Request::Watch { after, .. } = &request {
            self.seen = *after;
            self.watch = Some((number, request));
        }
        self.node.answer(number, self.store.id, answer);
        if let Some((number, Request::Watch { from, to, .. })) = &self.watch {
            let events = self.store.changes(from, to, self.seen, 100).expect("nothing is forgotten");
            self.seen = self.store.revision;
            self.node.answer(*number, self.store.id, Answer::Events(events));
        }
    }

    fn submit(&mut self, tickets: std::ops::RangeInclusive<u64>) {
        for ticket in tickets {
            assert!(self.node.submit(ticket, &[call(2, ticket, 0)]));
            self.settle();
        }
    }

    /// The first of the entries is put. Gives who gets a receipt.
    fn put(&mut self) -> Vec<u64> {
        let (number, request) = self.entries.pop_front().expect("an entry");
        self.act(number, request);
        self.settle();
        std::mem::take(&mut self.told)
    }
}

#[test]
fn what_waits_goes_once_it_is_a_lanes_share() {
    let mut held = Held::new();
    held.submit(1..=6);
    assert_eq!(held.entries.len(), 2, "both lanes have an entry on its way");
    assert_eq!(held.put(), [1]);
    held.submit(7..=7);
    assert_eq!(held.put(), [2]);
    assert_eq!(held.entries.len(), 1, "one of five is less than a half");
    held.submit(8..=10);
    assert_eq!(held.entries.len(), 2, "four of eight are a half");
    assert_eq!(held.put(), [3, 4, 5, 6]);
    assert_eq!(held.put(), [7, 8, 9, 10]);
    held.submit(11..=11);
    assert_eq!(held.put(), [11], "nothing waits where nothing is on its way");
}

/// An engine that is not there.
struct Silent;

impl Engine for Silent {
    fn start(self, _: Answers) -> Box<dyn Fn(u64, Request) + Send> {
        Box::new(|_, _| {})
    }
}

#[test]
fn an_engine_that_is_not_there_is_told_of() {
    let north: Running<Model> = Running::open(Silent, options("north"));
    let _waiting = north.submit(&[call(2, 1, 0)]).expect("a node that runs");
    let trouble = loop {
        if let Some(trouble) = north.trouble() {
            break trouble;
        }
        std::thread::yield_now();
    };
    assert_eq!((trouble.as_str(), north.fault()), ("no member of the engine answers", None));
    assert_eq!(open(&Memory::new(), "south").trouble(), None);
}

#[test]
fn other_limits_start_no_node() {
    let store = Memory::new();
    told(&open(&store, "north"), &[call(2, 1, 0)]);
    let other = Options { limits: b"others".to_vec(), ..options("south") };
    assert_eq!(stops(&Running::<Model>::open(store.clone(), other)), Fault::OtherBoot);
    let beyond = Options { cluster: name("d"), limits: b"none".to_vec(), ..options("south") };
    assert_eq!(stops(&Running::<Model>::open(store, beyond)), Fault::NoMachine("no such limits".into()));
}

#[test]
fn unknown_rules_stop_each_node_at_their_place() {
    let store = Memory::new();
    let (north, south) = north_and_south(&store);
    assert_eq!(told(&north, &[Item::Rules(2)]), [Told::Done]);
    let mut reader = north.reader().expect("a reader");
    assert_eq!(reader.read(|model| model.replies.len()), Ok(0));
    let waiting = north.submit(&[call(2, 1, 0), Item::Rules(3)]).expect("a node that runs");
    let Fault::UnknownRules { rules: 3, place } = stops(&north) else { panic!("{:?}", north.fault()) };
    let fault = Fault::UnknownRules { rules: 3, place };
    assert_eq!((waiting.wait(), stops(&south)), (None, fault.clone()));
    assert_eq!(north.latest(), Err(Uncalled::Stopped(fault.clone())));
    assert_eq!(reader.read(|model| model.replies.len()), Err(Unread::Stopped(fault)));
}

#[test]
fn bytes_that_are_no_entry_are_played_as_nothing() {
    let store = Memory::new();
    let north = open(&store, "north");
    told(&north, &[call(2, 1, 0)]);
    let digest = north.status().map(|status| status.entries);
    with(&store, |store| {
        store.put(b"/c/log/e/south/02.00/01", b"\x02anything", None);
        store.put(b"/c/log/e/south/02.00/1f", b"\x01", None); // (no number of a key is spelled so)
        store.put(b"/c/log/e/South/02.00/02", b"\x01", None);
        store.put(b"/c/log/x", b"", None);
    });
    told(&north, &[call(2, 2, 0)]);
    assert_eq!(north.status().map(|status| status.entries), digest.map(|entries| entries + 2));
}

#[test]
fn a_gap_stops_each_node() {
    let store = Memory::new();
    let north = open(&store, "north");
    told(&north, &[call(2, 1, 0)]);
    with(&store, |store| store.put(b"/c/log/e/south/02.00/02", b"\x01", None));
    assert!(matches!(stops(&north), Fault::Gap { node, .. } if node == name("south")));
}

#[test]
fn another_state_at_a_place_stops_a_node() {
    let store = Memory::new();
    let north = open(&store, "north");
    let agreement = loop {
        told(&north, &[call(2, 1, 0)]);
        let found = store.store().range(b"/c/log/a/", b"/c/log/a0", u64::MAX);
        if let Some(pair) = found.first() {
            break String::from_utf8(pair.key.clone()).expect("a key");
        }
    };
    with(&store, |store| store.put(agreement.replace("north", "south").as_bytes(), &[7; 32], None));
    assert!(matches!(stops(&north), Fault::Differs { node, entries: 4, .. } if node == name("south")));
}

#[test]
fn a_checkpoint_that_nobody_can_restore_stops_a_new_node() {
    let store = Memory::new();
    told(&open(&store, "north"), &[call(2, 1, 0)]);
    with(&store, |store| {
        let digest = model_digest(b"nothing");
        store.put(b"/c/log/a/east/2100", &digest, None);
        store.put(b"/c/log/a/west/2100", &digest, None);
        store.put(b"/c/state/west/2100", b"nothing", None);
    });
    assert_eq!(stops(&open(&store, "south")), Fault::NoCheckpoint);
}

#[test]
fn a_checkpoint_that_is_too_long_is_agreed_on_and_not_put() {
    let store = Memory::new();
    let north = open_long(&store, "north");
    let south = open_long(&store, "south");
    south.latest().expect("a note");
    for number in 1..30 {
        told(&north, &[call(2, number, 0)]);
    }
    let found = |of: &str| store.store().range(of.as_bytes(), format!("{of}~").as_bytes(), u64::MAX);
    while found("/c/log/a/north/").len() < 7 || found("/c/log/a/south/").len() < 7 {
        std::thread::yield_now();
    }
    std::thread::sleep(Duration::from_millis(2500)); // (a node looks each second how far the others are)
    assert_eq!((found("/c/state/").len(), found("/c/log/e/north/").len() >= 29), (0, true));
    // (a new node plays the whole log, and comes by what the others agree on)
    let east = open_long(&store, "east");
    let note = east.latest().expect("a note");
    assert_eq!((north.reaches(note), south.reaches(note)), (Ok(()), Ok(())));
    assert_eq!(north.status().map(|it| it.digest), east.status().map(|it| it.digest));
}

#[path = "../src/sha256.rs"]
#[allow(dead_code)]
mod sha256;

fn model_digest(bytes: &[u8]) -> sha256::Digest {
    sha256::sha256(bytes)
}

#[test]
fn a_lost_engine_is_told_of() {
    let store = Memory::new();
    let north = open(&store, "north");
    told(&north, &[call(2, 1, 0)]);
    with(&store, |store| store.restore(1));
    assert_eq!(stops(&north), Fault::OtherEngine);
}

#[test]
fn the_log_is_dropped_where_two_nodes_agree() {
    let store = Memory::new();
    let (north, south) = north_and_south(&store);
    let entries = |of: &str| {
        let (from, to) = (format!("/c/log/e/{of}/"), format!("/c/log/e/{of}0"));
        let request = Request::Page { from: from.into_bytes(), to: to.into_bytes(), at: 0 };
        match store.store().act(&request, usize::MAX) {
            histar_cluster::engine::Answer::Page { pairs, .. } => pairs.len(),
            other => panic!("{other:?}"),
        }
    };
    let mut number = 0;
    while number < 50 || entries("north") > 20 {
        number += 1;
        assert!(matches!(told(&north, &[call(2, number, 0)])[0], Told::Reply(_)));
        if number > 50 {
            std::thread::sleep(Duration::from_millis(200)); // (a node looks each second how far the others are)
        }
    }
    let east = open(&store, "east");
    east.latest().expect("a note");
    assert!(east.read(|model| (1..=number).all(|it| model.replies.contains_key(&it))).expect("a machine"));
    assert_eq!(south.fault(), None);
}

/// Nodes that have seen all that any of them has put are in one state, or one of them has stopped.
fn are_alike_or_stop(nodes: &[&Running<Model>]) {
    let end = Instant::now() + Duration::from_secs(10);
    while Instant::now() < end {
        if nodes.iter().any(|node| node.fault().is_some()) {
            return;
        }
        std::thread::sleep(Duration::from_millis(20));
    }
    let notes: Vec<_> = nodes.iter().map(|node| node.latest()).collect();
    if let Some(last) = notes.into_iter().collect::<Result<Vec<_>, _>>().ok().and_then(|notes| notes.into_iter().max())
    {
        if nodes.iter().all(|node| node.reaches(last).is_ok()) {
            let states: Vec<_> = nodes.iter().map(|it| it.status().map(|it| (it.entries, it.digest))).collect();
            assert!(states.iter().all(|state| *state == states[0]), "{states:?}");
        }
    }
}

/// The first entry of a lane of a node that lies.
fn lie(lane: u64) -> Vec<u8> {
    format!("/c/log/e/evil/02.0{lane}/01").into_bytes()
}

#[test]
fn entries_of_one_transaction_are_played_alike() {
    let store = Memory::new();
    let (north, south) = north_and_south(&store);
    told(&north, &[call(2, 1, 0)]);
    with(&store, |store| store.transact(&[(lie(1), Some(b"x".to_vec())), (lie(0), Some(b"y".to_vec()))]));
    told(&north, &[call(2, 2, 0)]);
    let east = open(&store, "east");
    are_alike_or_stop(&[&north, &south, &east]);
}

#[test]
fn each_wait_ends_after_its_time() {
    let time = Duration::from_millis(30);
    let alone: Running<Model> = Running::open(Silent, options("north"));
    let node = alone.within(time);
    assert_eq!(node.read(|_| ()), Err(Unread::Late));
    assert_eq!(node.reader().err(), Some(Unread::Late));
    assert_eq!(node.latest(), Err(Uncalled::Late));
    assert_eq!(node.reaches(histar_cluster::Note { engine: 1, place: 1 }), Err(Unread::Late));
    let waiting = alone.submit(&[call(2, 1, 0)]).expect("a node that runs");
    assert_eq!(waiting.wait_for(time), Err(Unsettled::Late));
    // (it has put nothing, so it leaves at once; what waits is never made)
    assert_eq!(node.leave(), Ok(()));
    assert_eq!(waiting.wait_for(time), Ok(Receipt::NeverMade));
}

#[test]
fn a_receipt_that_was_late_is_told_all_the_same() {
    let store = Memory::new();
    let (north, _south) = north_and_south(&store);
    let held = store.store();
    let waiting = north.submit(&[call(2, 1, 0)]).expect("a node that runs");
    assert_eq!(waiting.wait_for(Duration::from_millis(20)), Err(Unsettled::Late));
    drop(held);
    assert!(matches!(waiting.wait_for(Duration::from_secs(60)), Ok(Receipt::Told { .. })));
}

#[test]
fn a_node_that_leaves_gives_its_fence_back() {
    let store = Memory::new();
    let (north, south) = north_and_south(&store);
    told(&north, &[call(2, 1, 0)]);
    until(|| north.status().is_some_and(|status| status.incarnation.is_some()));
    let fences = |store: &Memory| store.store().range(b"/c/fence/north/", b"/c/fence/north0", u64::MAX).len();
    assert_eq!(fences(&store), 1);
    let closing = format!("/c/log/c/north/{}", spelled(north.status().and_then(|it| it.incarnation).expect("one")));
    let waiting: Vec<_> =
        (2..20).map(|number| north.submit(&[call(2, number, 0)]).expect("a node that runs")).collect();
    assert_eq!(north.within(Duration::from_secs(60)).leave(), Ok(()));
    assert_eq!(fences(&store), 0);
    assert_eq!(store.store().range(closing.as_bytes(), &[closing.as_bytes(), &[0]].concat(), u64::MAX).len(), 1);
    let made: Vec<bool> = waiting
        .into_iter()
        .map(|it| match it.wait() {
            Some(Receipt::Told { .. }) => true,
            Some(Receipt::NeverMade) => false,
            other => panic!("{other:?}"),
        })
        .collect();
    let later = north.submit(&[call(2, 30, 0)]).expect("a node that runs").wait();
    assert_eq!(later, Some(Receipt::NeverMade));
    south.latest().expect("a note");
    let played = south.read(|model| (2..20).map(|it| model.replies.contains_key(&it)).collect::<Vec<_>>());
    assert_eq!(played, Ok(made));
    // (the next start has its threads)
    assert!(matches!(told(&open(&store, "north"), &[call(2, 31, 0)])[0], Told::Reply(_)));
}

#[test]
fn who_has_a_nodes_name_too_is_told_of() {
    let store = Memory::new();
    let (north, _south) = north_and_south(&store);
    until(|| north.status().is_some_and(|it| it.incarnation.is_some() && it.namesakes == 0));
    let twin = Running::<Model>::open(store.clone(), Options { any: 1 << 20, ..options("north") });
    until(|| [&north, &twin].iter().all(|it| it.status().is_some_and(|it| it.namesakes == 1)));
}

#[test]
fn an_entry_that_is_deleted_or_changed_is_told_of() {
    for left in [None, Some(b"other".to_vec())] {
        let store = Memory::new();
        let (north, south) = north_and_south(&store);
        told(&north, &[call(2, 1, 0)]);
        with(&store, |store| store.put(&lie(0), b"x", None));
        told(&north, &[call(2, 2, 0)]);
        with(&store, |store| store.transact(&[(lie(0), left)]));
        let east = open(&store, "east");
        are_alike_or_stop(&[&north, &south, &east]);
    }
}

#[test]
fn what_the_cluster_began_with_is_not_changed() {
    let (key, value) = beginning::<Model>(&options("south"));
    for changed in [Some(value), Some(b"\x02".to_vec()), None] {
        let store = Memory::new();
        let (north, south) = north_and_south(&store);
        south.latest().expect("a note");
        with(&store, |store| store.transact(&[(key.clone(), changed)]));
        assert_eq!([stops(&north), stops(&south)], [Fault::OtherBoot, Fault::OtherBoot]);
    }
}

#[test]
fn a_node_takes_the_cluster_that_an_operator_began() {
    let store = Memory::new();
    let (key, value) = beginning::<Model>(&options("south"));
    with(&store, |store| store.put(&key, &value, None));
    let (north, south) = (open(&store, "north"), open(&store, "south"));
    assert_eq!(told(&north, &[call(2, 1, 0)]), [Told::OtherNode]);
    assert!(matches!(told(&south, &[call(2, 1, 0)])[0], Told::Reply(_)));
}

#[test]
fn a_cluster_of_an_older_format_is_refused() {
    let store = Memory::new();
    let (key, mut value) = beginning::<Model>(&options("north"));
    value[0] = 1;
    with(&store, |store| store.put(&key, &value, None));
    let fault = stops(&open(&store, "north"));
    assert_eq!(fault, Fault::OtherFormat(1));
    assert_eq!(fault.to_string(), "the cluster was begun in format 1, which this node does not know");
}

/// The place at which a node has stopped.
fn stopped_at(node: &Running<Model>) -> u64 {
    match stops(node) {
        Fault::Gap { place, .. } | Fault::UnknownRules { place, .. } | Fault::Differs { place, .. } => place,
        fault => panic!("{fault}"),
    }
}

#[test]
fn a_cluster_goes_on_once_what_stopped_it_is_void() {
    let gap = |store: &Memory| with(store, |store| store.put(b"/c/log/e/evil/02.00/02", b"x", None));
    let rules = |store: &Memory| {
        let evil = open(store, "evil");
        drop(evil.submit(&[Item::Rules(99)]).expect("a node that runs"));
        until(|| store.store().has_put(&[2, 99]));
    };
    let differs = |store: &Memory| {
        let value = [&[2, 0][..], &[7; 16]].concat();
        with(store, |store| store.put(b"/c/log/e/evil/02.00/01", &value, None));
    };
    for stop in [&gap as &dyn Fn(&Memory), &rules, &differs] {
        let store = Memory::new();
        let (north, south) = north_and_south(&store);
        let first = told(&north, &[call(2, 1, 0)]);
        stop(&store);
        let place = stopped_at(&north);
        assert_eq!(stopped_at(&south), place);
        assert_eq!(stopped_at(&open(&store, "north")), place);
        with(&store, |store| store.put(&void(&name("c"), place), b"", None));
        let (north, south) = (open(&store, "north"), open(&store, "south"));
        told(&north, &[call(2, 2, 0)]);
        south.reaches(north.latest().expect("a note")).expect("a node that runs");
        for node in [&north, &south] {
            let reply = node.read(|model| model.replies.get(&1).cloned()).expect("a machine");
            assert_eq!(reply.map(Told::Reply).as_slice(), &first[..]);
        }
        // (what a node has played is void for nobody)
        let played = north.latest().expect("a note").place;
        with(&store, |store| store.put(&void(&name("c"), played), b"", None));
        assert_eq!([stops(&north), stops(&south)], [Fault::OtherBoot, Fault::OtherBoot]);
    }
}

#[test]
fn a_cluster_in_which_nothing_happens_puts_nothing() {
    let store = Memory::new();
    let (north, south) = north_and_south(&store);
    told(&north, &[call(2, 1, 0)]);
    south.latest().expect("a note");
    // (a node looks around each second)
    let mut before = 0;
    until(|| {
        std::thread::sleep(Duration::from_secs(4));
        let revision = store.store().revision;
        std::mem::replace(&mut before, revision) == revision
    });
}

#[test]
fn long_entries_are_marked_sooner() {
    let store = Memory::new();
    let seldom = Options { interval: 1 << 40, ..options("north") };
    let north: Running<Model> = Running::open(store.clone(), seldom);
    told(&north, &[call(2, 1, 0)]);
    for number in 1..=16 {
        let spelled = if number < 16 { format!("0{number:x}") } else { format!("1{number:x}") };
        with(&store, |store| store.put(format!("/c/log/e/evil/02.00/{spelled}").as_bytes(), &vec![7; 1 << 20], None));
    }
    told(&north, &[call(2, 2, 0)]);
    until(|| !store.store().range(b"/c/log/a/", b"/c/log/a0", u64::MAX).is_empty());
}

/// What docs/CLUSTER.md says that a liar can: take back a call that was told, if its node dies before it has said what it had played.
#[test]
fn a_call_is_taken_back_before_its_node_has_said_so_and_not_after() {
    let runs = |says: bool| {
        let store = Memory::new();
        let north = open(&store, "north");
        told(&north, &[call(2, 1, 0)]);
        with(&store, |store| store.put(&lie(0), b"x", None));
        told(&north, &[call(2, 2, 0)]);
        if says {
            told(&north, &[call(2, 3, 0)]);
        }
        drop(north);
        with(&store, |store| store.transact(&[(lie(0), None)]));
        let north = open(&store, "north");
        north.latest().err()
    };
    assert!(matches!(runs(true), Some(Uncalled::Stopped(Fault::Differs { .. }))));
    until(|| runs(false).is_none()); // (it says so each second)
}

/// A mark may stand between two entries of one transaction, and a node that lies may put its checkpoint.
#[test]
fn a_node_begins_between_two_entries_of_one_transaction() {
    let store = Memory::new();
    let (north, south) = north_and_south(&store);
    let evil = open(&store, "evil");
    let last = [&north, &south, &evil].map(|node| node.latest().expect("a note")).into_iter().max().expect("a note");
    [&north, &south, &evil].iter().for_each(|node| node.reaches(last).expect("a node that runs"));
    // (states are compared after each four entries)
    let entries = north.status().expect("a status").entries;
    let puts: Vec<_> = (0..6 + (4 - entries % 4)).map(|lane| (lie(lane), Some(b"x".to_vec()))).collect();
    with(&store, |store| store.transact(&puts));
    let marked = entries + puts.len() as u64 - 2;
    let found = |of: &str| {
        let key = format!("/c/{of}/{}", spelled(marked));
        !store.store().range(key.as_bytes(), format!("{key}~").as_bytes(), u64::MAX).is_empty()
    };
    until(|| ["state/evil", "log/a/evil", "log/a/north", "log/a/south"].iter().all(|of| found(of)));
    let east = open(&store, "east");
    let note = east.latest().expect("a note");
    south.reaches(note).expect("a node that runs");
    assert_eq!(south.status().map(|it| it.digest), east.status().map(|it| it.digest));
}

/// A number as keys spell it.
fn spelled(number: u64) -> String {
    let digits = format!("{number:x}");
    format!("{:x}{digits}", digits.len() - 1)
}

#[test]
fn a_cluster_goes_on_once_a_false_digest_is_deleted() {
    for key in ["/c/log/s/evil/", "/c/log/a/evil/04"] {
        let store = Memory::new();
        let (north, south) = north_and_south(&store);
        let first = told(&north, &[call(2, 1, 0)]);
        let value = if key.contains("/s/") { [&[1, 1][..], &[7; 32]].concat() } else { vec![7; 32] };
        with(&store, |store| store.put(key.as_bytes(), &value, None));
        for number in 2.. {
            let waiting = north.submit(&[call(2, number, 0)]);
            if waiting.is_err() || waiting.is_ok_and(|it| it.wait().is_none()) {
                break;
            }
        }
        for node in [&north, &south] {
            assert!(matches!(stops(node), Fault::Differs { node, .. } if node == name("evil")), "{:?}", node.fault());
        }
        with(&store, |store| store.transact(&[(key.into(), None)]));
        let (north, south) = (open(&store, "north"), open(&store, "south"));
        south.reaches(north.latest().expect("a note")).expect("a node that runs");
        let reply = south.read(|model| model.replies.get(&1).cloned()).expect("a machine");
        assert_eq!(reply.map(Told::Reply).as_slice(), &first[..]);
    }
}
