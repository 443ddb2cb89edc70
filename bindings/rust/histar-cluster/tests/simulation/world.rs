//! Nodes and an engine, to which faults are done as a seed has it, and what was promised to callers.
use crate::liar::{put_number, spelled, Change, Liar, Played};
use crate::player::Player;
use histar_cluster::engine::{Answer, Pair, Request};
use histar_cluster::memory::Store;
use histar_cluster::{Fault, Item, Name, Node, Options, Output, Receipt, Replica, Start, Told, LOOK};
use std::collections::{BTreeMap, BTreeSet};

/// The nodes that call.
const NODES: [&str; 3] = ["a", "b", "c"];

/// Calls with such numbers are made by a node that lies, as threads of others.
const OTHERS: u64 = 1 << 41;

/// The node that lies, as the last of all that threads belong to.
const EVIL: usize = 3;

/// Where nothing changes in so many turns, a call that was submitted is answered.
const SHORT: usize = 8;

/// Where nothing changes in so many turns, nothing is left to be done.
const LONG: usize = 20;

/// After so many turns a node that gets nowhere never will.
const MOST: usize = 300;

/// In so many of 1,000 cases where nothing else befalls a node, it is away for long.
const AWAY: u64 = 20;

/// The same of a node that has just begun an incarnation.
const NEW: u64 = 250;

/// Nobody calls for so many steps after the writer of a checkpoint died before it agreed.
const RESTS: u64 = 800;

/// Numbers as a seed gives them.
pub struct Random(u64);

impl Random {
    pub fn below(&mut self, end: u64) -> u64 {
        self.0 = self.0.wrapping_add(0x9e37_79b9_7f4a_7c15);
        let mixed = (self.0 ^ (self.0 >> 30)).wrapping_mul(0xbf58_476d_1ce4_e5b9);
        let mixed = (mixed ^ (mixed >> 27)).wrapping_mul(0x94d0_49bb_1331_11eb);
        (mixed ^ (mixed >> 31)) % end
    }

    fn hits(&mut self, thousandths: u64) -> bool {
        self.below(1000) < thousandths
    }
}

struct Watch {
    number: u64,
    from: Vec<u8>,
    to: Vec<u8>,
    after: u64,
}

/// The numbers of the calls, how many calls had been answered by then, and a thread that is handed over to a process.
type Submitted = (Vec<u64>, usize, Option<(u64, usize)>);

/// A process that runs a node.
struct Process<P: Player> {
    node: Node<P>,
    /// The machine of a reader.
    replica: Option<Replica<P>>,
    start: u64,
    paused: u64,
    /// It is away until the others have gone on past this place.
    left: Option<u64>,
    /// The incarnation that it had when it was told to end.
    incarnation: Option<u64>,
    /// It was told to give its fence back.
    is_ending: bool,
    inbox: Vec<(u64, u64, Answer)>,
    watch: Option<Watch>,
    /// What was submitted under a ticket.
    waiting: BTreeMap<u64, Submitted>,
}

impl<P: Player> Process<P> {
    /// The machine of a reader; none where the node has none, or lacks memory.
    fn reads(&mut self) -> Option<&mut P> {
        if self.replica.as_mut().and_then(Replica::view).is_none() {
            self.replica = self.node.start()?.and_then(Start::open).ok();
        }
        self.replica.as_mut().and_then(Replica::view)
    }
}

/// A request on its way.
struct Sent {
    process: usize,
    start: u64,
    number: u64,
    request: Request,
    is_given_up: bool,
}

/// What was done and told in a run.
#[derive(Default)]
pub struct Counts {
    pub faults: u64,
    pub answered: u64,
    pub never: u64,
    pub unseen: u64,
    pub unknown: u64,
    pub refused: u64,
    /// Nodes that have stopped at what a node changed that lies.
    pub stopped: u64,
}

pub struct World<P: Player> {
    random: Random,
    /// Whether a node has memory is chosen apart, so that all else of a seed is the same with it and without.
    memory: Random,
    /// The same of whether a node is told to end.
    ending: Random,
    store: Store,
    sent: Vec<Sent>,
    /// Requests that arrive once so many steps were done.
    held: BTreeMap<u64, Sent>,
    steps: u64,
    /// Until so many steps were done nobody calls, and nodes look around instead.
    rests: u64,
    processes: Vec<Process<P>>,
    /// The threads by which each node calls, and the one that lies: its own, as far as it knows. The first is its own for good.
    threads: [Vec<u64>; 4],
    starts: u64,
    calls: u64,
    tickets: u64,
    lies: u64,
    /// What each call was answered where it was first played.
    played: BTreeMap<u64, P::Reply>,
    answered: Vec<(u64, P::Reply)>,
    /// Of each call that was answered: the start of its node, and how many entries that had played by then.
    tellers: Vec<(u64, u64)>,
    /// Up to how many entries each start of a node has put what it had played, where others find it.
    said: BTreeMap<u64, u64>,
    /// Of a world in which a node changes what it has put, and how often it does.
    liar: Option<Liar>,
    lying: u64,
    never: BTreeSet<u64>,
    unseen: BTreeSet<u64>,
    is_quiet: bool,
    /// Faults are rarer by this factor.
    calm: u64,
    lacks_checkpoints: bool,
    /// The fault at which each node stops, where one does.
    expected: Option<fn(&Fault) -> bool>,
    pub counts: Counts,
    pub broken: Option<String>,
}

fn name(text: &str) -> Name {
    Name::new(text).expect("a name")
}

impl<P: Player> World<P> {
    pub fn new(seed: u64) -> World<P> {
        let mut world = World {
            random: Random(seed),
            memory: Random(!seed),
            ending: Random(seed ^ 0x5555_5555),
            store: Store::new(),
            sent: Vec::new(),
            held: BTreeMap::new(),
            steps: 0,
            rests: 0,
            processes: Vec::new(),
            threads: Default::default(),
            starts: 0,
            calls: 0,
            tickets: 0,
            lies: 0,
            played: BTreeMap::new(),
            answered: Vec::new(),
            tellers: Vec::new(),
            said: BTreeMap::new(),
            liar: (seed % 5 > 1).then(|| Liar::new(seed % 5 == 2)),
            lying: [60, 0, 0][(seed / 5) as usize % 3],
            never: BTreeSet::new(),
            unseen: BTreeSet::new(),
            is_quiet: false,
            calm: [1, 2, 6][seed as usize % 3],
            lacks_checkpoints: false,
            expected: None,
            counts: Counts::default(),
            broken: None,
        };
        if seed % 4 > 0 {
            world.begin();
        } else {
            world.threads = [(); 4].map(|()| vec![2; 2]);
            NODES.iter().for_each(|node| world.start(node));
        }
        world
    }

    /// The first node boots, makes a thread for each, and hands them over. Then the others start. (Else all start at once.)
    fn begin(&mut self) {
        self.is_quiet = true;
        self.start(NODES[0]);
        self.submits(0, &[(2, 1); 4], None);
        self.settle(SHORT);
        for (to, thread) in std::mem::take(&mut self.threads[0]).into_iter().enumerate() {
            self.submits(0, &[], Some((thread, to)));
            self.settle(SHORT);
        }
        self.threads.iter_mut().for_each(|threads| threads.push(2));
        NODES[1..].iter().for_each(|node| self.start(node));
        self.is_quiet = false;
    }

    fn process(&mut self, node: &str) -> Process<P> {
        self.starts += 1;
        let options = Options {
            cluster: name("sim"),
            node: name(node),
            limits: P::limits(),
            lanes: 2,
            interval: 8,
            any: self.starts << 20,
        };
        Process {
            node: Node::new(options),
            replica: None,
            start: self.starts,
            paused: 0,
            left: None,
            incarnation: None,
            is_ending: false,
            inbox: Vec::new(),
            watch: None,
            waiting: BTreeMap::new(),
        }
    }

    fn start(&mut self, node: &str) {
        let process = self.process(node);
        self.processes.push(process);
    }

    fn breaks(&mut self, what: impl Into<String>) {
        self.broken.get_or_insert(what.into());
    }

    /// Whether a fault is done that befalls so many of a thousand in the roughest of worlds.
    fn fault(&mut self, thousandths: u64) -> bool {
        self.aimed(thousandths / self.calm)
    }

    /// The same of a fault that is aimed at some rule.
    fn aimed(&mut self, thousandths: u64) -> bool {
        let hits = !self.is_quiet && self.random.hits(thousandths);
        self.counts.faults += u64::from(hits);
        hits
    }

    /// One thing happens.
    pub fn step(&mut self) {
        self.steps += 1;
        self.sent.extend(self.held.remove(&self.steps));
        let process = self.random.below(self.processes.len() as u64) as usize;
        match self.random.below(100) {
            0..=39 => self.deliver(),
            40..=59 => self.report(process),
            60..=79 => self.turn(process),
            80..=84 => self.look_around(process),
            85..=93 if self.steps < self.rests => self.look_around(process),
            85..=93 => self.submit(process),
            _ => self.hurt(process),
        }
    }

    /// A fault of a process or of the engine, or a lie.
    fn hurt(&mut self, process: usize) {
        if self.liar.is_some() && self.aimed(self.lying) {
            self.tamper(process);
        } else if self.processes[process].node.fault().is_some() && self.random.below(4) == 0 {
            self.restart(process); // (as its operator does, once others have gone on)
        } else if self.fault(60) {
            self.restart(process);
        } else if self.fault(80) {
            self.pause(process);
        } else if self.ending.hits(40) && !self.is_quiet {
            self.ends(process);
        } else if self.aimed(AWAY) {
            self.leave(process);
        } else if self.fault(150) {
            let place = self.random.below(8) as usize;
            self.store.end_lease(place);
        } else if self.fault(60) {
            self.lie();
        } else if self.fault(150) {
            self.store.forget(); // (any user of an engine may do that)
        }
    }

    /// A node stands still, for a short time or for one in which its watch ends.
    fn pause(&mut self, process: usize) {
        let is_long = self.random.below(3) == 0;
        let time = self.random.below(if is_long { 400 } else { 60 });
        self.stop(process, time, is_long);
    }

    /// A node stands still for so many turns after it submitted something.
    fn stop(&mut self, process: usize, time: u64, ends_watch: bool) {
        self.submit(process);
        let it = &mut self.processes[process];
        it.paused = time;
        if let Some(watch) = if ends_watch { it.watch.take() } else { None } {
            it.inbox.push((watch.number, self.store.id, Answer::Ended));
        }
    }

    /// A node is away until the others have gone on without it, and the engine has forgotten what was before.
    fn leave(&mut self, process: usize) {
        if self.processes.iter().any(|it| it.left.is_some()) {
            return; // (so that two are there to agree)
        }
        self.stop(process, 400, true);
        self.processes[process].left = Some(self.store.revision);
        self.end_leases(process);
    }

    /// Mostly the leases of a node end.
    fn end_leases(&mut self, process: usize) {
        if self.random.below(4) > 0 {
            let node = NODES.get(process).copied().unwrap_or("d");
            let fences = |end: &str| format!("/sim/fence/{node}{end}").into_bytes();
            self.store.end_leases_of(&fences("/"), &fences("0"));
        }
    }

    /// A node is told to give its fence back, with what waits for its receipt, and started anew once it has.
    fn ends(&mut self, process: usize) {
        self.counts.faults += 1;
        self.submit(process);
        let it = &mut self.processes[process];
        // (the fence of one that was ended by another ends with its lease)
        it.incarnation = it.node.status().and_then(|status| status.incarnation);
        it.is_ending = true;
        it.node.leave();
        self.submit(process);
        self.look(process, 0);
    }

    /// What has left has no fence of the incarnation that it had, and nobody waits.
    fn has_ended(&mut self, process: usize) {
        let it = &self.processes[process];
        let (incarnation, waits) = (it.incarnation, !it.waiting.is_empty());
        let fences = self.store.range(b"/sim/fence/", b"/sim/fence0", self.store.revision);
        if fences.iter().any(|pair| Some(pair.created) == incarnation) {
            self.breaks("a node has left and has a fence");
        }
        if waits {
            self.breaks("a node has left and a caller waits");
        }
        self.restart(process);
    }

    fn restart(&mut self, process: usize) {
        self.processes[process] = self.process(NODES.get(process).copied().unwrap_or("d"));
        self.end_leases(process);
    }

    /// A node that lies changes what it has put, or puts more. Then a node may be started, which reads what is left.
    fn tamper(&mut self, process: usize) {
        let Some(played) = self.played_by(process) else { return };
        let Some(liar) = &mut self.liar else { return };
        let changes: Vec<Change> = liar.transaction::<P>(&mut self.random, self.threads[EVIL][0], &played, &self.store);
        self.store.transact(&changes);
        match self.random.below(6) {
            0 => self.restart(process),
            1 => self.stop(process, 400, true),
            2 => self.store.forget(),
            _ => {}
        }
    }

    /// A node that lies puts an entry of other nodes' threads, bytes that are no entry, or a checkpoint that no other agrees on.
    fn lie(&mut self) {
        self.lies += 1;
        let (lies, key) = (self.lies, format!("/sim/log/e/evil/{}.00/01", spelled(self.store.revision)));
        match self.random.below(3) {
            0 => {
                let Some(played) = self.played_by(0) else { return };
                let mut item = vec![0];
                P::put_call(&P::call(2, OTHERS + lies, 0), &mut item);
                self.store.put(key.as_bytes(), &crate::liar::entry(&played, &[0; 16], &item), None);
            }
            1 => self.store.put(key.as_bytes(), b"\x02\x00???", None),
            _ => self.forge(),
        }
    }

    /// Whether a node changes what it has put: then a node that read something else than another may stop, until it is told so it answers by that.
    fn is_tampered_with(&self) -> bool {
        self.liar.as_ref().is_some_and(|liar| !liar.is_mild)
    }

    /// A node that lies has a fence without a lease, and says that it has played nothing: the log is dropped behind four marks all the same.
    fn keep_back(&mut self) {
        self.store.put(b"/sim/fence/evil/1", &[0], None);
        for at in 0..48 {
            let process = at % 3;
            self.submits(process, &[(self.threads[process][0], 0)], None);
            self.settle(SHORT);
        }
        self.settle(LONG);
        let of = |node: &str| {
            let (from, to) = (format!("/sim/log/e/{node}/"), format!("/sim/log/e/{node}0"));
            self.store.range(from.as_bytes(), to.as_bytes(), self.store.revision).len()
        };
        if NODES.into_iter().map(of).sum::<usize>() > 44 {
            self.breaks("a node that stands still keeps the log");
        }
    }

    /// A node that lies puts rules that nobody knows, at which each node stops. An operator voids them, and with them what its incarnation put after
    /// them: then all go on.
    fn void(&mut self) {
        let Some(played) = self.played_by(0) else { return };
        let lane = format!("/sim/log/e/evil/{}.00/", spelled(self.store.revision));
        let rules = crate::liar::entry(&played, &[0; 16], &[2, 99]);
        self.expected = Some(|fault| matches!(fault, Fault::UnknownRules { rules: 99, .. }));
        self.store.put(format!("{lane}01").as_bytes(), &rules, None);
        let place = self.store.revision;
        self.store.put(format!("{lane}02").as_bytes(), b"x", None);
        self.settle(SHORT);
        if self.processes.iter().any(|it| it.node.fault() != Some(&Fault::UnknownRules { rules: 99, place })) {
            self.breaks("a node does not stop at rules that it does not know");
        }
        self.expected = None;
        self.store.put(&histar_cluster::void(&name("sim"), place), b"", None);
        (0..self.processes.len()).for_each(|process| self.restart(process));
        self.settle(LONG);
        self.holds();
    }

    /// What the cluster began with is changed: no node goes on.
    fn change_boot(&mut self) {
        self.counts.faults += 1;
        let boot = self.store.range(b"/sim/boot", b"/sim/boot0", self.store.revision).remove(0);
        self.expected = Some(|fault| *fault == Fault::OtherBoot);
        let other = [&boot.value[..boot.value.len() - 1], b"z"].concat();
        self.store.put(&boot.key, &other, None);
        self.settle(SHORT);
        (0..self.processes.len()).for_each(|process| self.look_around(process)); // (nothing happens else, and some may not yet have looked)
        self.settle(LONG);
        if self.processes.iter().any(|it| it.node.fault() != Some(&Fault::OtherBoot)) {
            self.breaks("a node goes on where what the cluster began with was changed");
        }
    }

    /// A node that lies takes back an entry that others have played, and all nodes are started anew: once they have said what they had played, by
    /// points or by entries, none goes on without it.
    fn cut(&mut self) {
        let going: Vec<usize> =
            (0..self.processes.len()).filter(|it| self.processes[*it].node.fault().is_none()).collect();
        let Some((&first, played)) = going.first().and_then(|first| Some((first, self.played_by(*first)?))) else {
            return;
        };
        let call = [(self.threads[first % EVIL][0], 0)];
        self.submits(first, &call, None);
        let Some(liar) = &mut self.liar else { return };
        let (key, value) = liar.call::<P>(self.threads[EVIL][0], &played, self.store.revision);
        self.store.transact(&[(key.clone(), value)]);
        let way = self.random.below(6);
        let stays = if way < 2 {
            // (what it answered no other has heard of, and it goes on)
            self.hurries(&[first]);
            self.says_all(&[first]);
            vec![first]
        } else if way < 4 {
            self.settle(LONG);
            self.says_all(&going);
            Vec::new()
        } else {
            self.hurries(&[first]);
            self.submits(first, &call, None);
            self.hurries(&[first]);
            Vec::new()
        };
        self.store.transact(&[(key, None)]);
        self.counts.faults += 1;
        let others: Vec<usize> = (0..self.processes.len()).filter(|it| !stays.contains(it)).collect();
        others.iter().for_each(|process| self.restart(*process));
        (0..3).for_each(|_| self.hurries(&others));
        self.settle(LONG);
        self.holds();
    }

    /// Nodes have said, or will say, all that they have played.
    fn says_all(&mut self, processes: &[usize]) {
        self.said.extend(processes.iter().map(|process| (self.processes[*process].start, u64::MAX)));
    }

    /// What is on its way arrives, and is told to some nodes, before they look around.
    fn hurries(&mut self, processes: &[usize]) {
        for _ in 0..6 {
            (0..20).for_each(|_| self.deliver());
            for process in processes {
                (0..20).for_each(|_| self.report(*process));
                self.turn(*process);
            }
        }
    }

    /// What a node has played.
    fn played_by(&self, process: usize) -> Option<Played> {
        let status = self.processes[process].node.status()?;
        Some(Played { entries: status.entries, digest: status.digest })
    }

    /// Puts a checkpoint after more entries, after which no honest node compares states, with another last reply.
    fn forge(&mut self) {
        let states = self.store.range(b"/sim/state/", b"/sim/state0", self.store.revision);
        let Some(state) = states.iter().rev().find(|pair| !pair.key.starts_with(b"/sim/state/evil")) else { return };
        let entries = place_in(&state.key).expect("a number of entries") + 3;
        let rest = 1 + state.value[1..].iter().position(|byte| byte & 128 == 0).expect("a number") + 1;
        let mut value = vec![2];
        put_number(&mut value, entries);
        value.extend_from_slice(&state.value[rest..]);
        *value.last_mut().expect("a state") ^= 1;
        let digest = crate::digest(&value);
        self.store.put(format!("/sim/state/evil/{}", spelled(entries)).as_bytes(), &value, None);
        self.store.put(format!("/sim/log/a/evil/{}", spelled(entries)).as_bytes(), &digest, None);
    }

    /// A request arrives at the engine, and is answered.
    fn deliver(&mut self) {
        if self.sent.is_empty() {
            return;
        }
        let is_first = self.is_quiet || self.random.hits(500);
        let at = if is_first { 0 } else { self.random.below(self.sent.len() as u64) as usize };
        let sent = self.sent.remove(at);
        if self.fault(80) {
            return self.told(&sent, Answer::Lost);
        }
        if let Some(place) = place_of_mark(&self.store, &sent.request).filter(|_| sent.process < 3 && self.aimed(100)) {
            // (it dies before its checkpoint or its agreement is put, and is started anew after some time. Where it dies between both, the others
            // come to drop the log before a later mark stands)
            if lacks_agreement(&self.store, &sent.request) {
                self.rests = self.steps + RESTS;
            }
            self.restart(sent.process);
            self.processes[sent.process].left = Some(place);
            self.processes[sent.process].paused = 100 + self.random.below(300);
            return;
        }
        let page = 1 + self.random.below(6) as usize;
        self.says(&sent);
        let answer = self.store.act(&sent.request, page);
        if let Request::Watch { from, to, after } = &sent.request {
            let watch = Watch { number: sent.number, from: from.clone(), to: to.clone(), after: *after };
            // (a stream that its node has given up is nobody's)
            if let Some(process) = self.running(&sent).filter(|_| !sent.is_given_up) {
                self.processes[process].watch = Some(watch);
            }
        }
        let answer = if self.fault(100) { Answer::Lost } else { answer };
        self.told(&sent, answer);
        let process = sent.process;
        if self.fault(50) {
            self.sent.push(Sent { is_given_up: true, ..sent }); // (it is done twice)
        }
        if self.random.below(2) == 0 {
            self.turn(process);
        }
    }

    /// An entry and a point say up to how many entries their node had played.
    fn says(&mut self, sent: &Sent) {
        let Request::Put { key, value, .. } = &sent.request else { return };
        let number = match (key.starts_with(b"/sim/log/e/"), key.starts_with(b"/sim/log/s/")) {
            (true, _) => &value[1..],
            (_, true) => &value[..],
            _ => return,
        };
        let said = self.said.entry(sent.start).or_default();
        *said = number_in(number).max(*said);
    }

    fn running(&self, sent: &Sent) -> Option<usize> {
        (self.processes[sent.process].start == sent.start).then_some(sent.process)
    }

    fn told(&mut self, sent: &Sent, answer: Answer) {
        if let Some(process) = self.running(sent).filter(|_| !sent.is_given_up) {
            self.processes[process].inbox.push((sent.number, self.store.id, answer));
        }
    }

    /// A watch reports some changes, or ends.
    fn report(&mut self, process: usize) {
        let is_lost = self.fault(15);
        let most = 1 + self.random.below(6) as usize;
        let Process { watch, inbox, .. } = &mut self.processes[process];
        let Some(it) = watch else { return };
        let answer = match self.store.changes(&it.from, &it.to, it.after, most) {
            _ if is_lost => Answer::Ended,
            None => Answer::Forgotten,
            Some(events) if events.is_empty() => return,
            Some(events) => {
                it.after = events[events.len() - 1].revision;
                Answer::Events(events)
            }
        };
        let goes_on = matches!(answer, Answer::Events(_));
        inbox.push((it.number, self.store.id, answer));
        if !goes_on {
            *watch = None;
        }
    }

    /// A node takes what came in, and time passes for it. It may lack memory for its checkpoints for some time.
    fn turn(&mut self, process: usize) {
        let lacks = !self.is_quiet && self.memory.hits(30);
        let it = &mut self.processes[process];
        if it.left.is_some_and(|place| has_gone_on(&self.store, NODES[process], place)) {
            it.paused = 0;
        }
        if it.paused > 0 {
            it.paused -= 1;
            return;
        }
        if it.left.take().is_some() {
            self.store.forget();
        }
        let incarnation = it.node.status().and_then(|status| status.incarnation);
        if let Some(machine) = it.node.view() {
            machine.lack_memory(lacks);
        }
        let reached = it.node.seen();
        for (number, engine, answer) in std::mem::take(&mut it.inbox) {
            it.node.answer(number, engine, answer);
        }
        it.node.tick();
        let before = reached.map_or(0, |note| note.place);
        self.look(process, before);
        let registered = self.processes[process].node.status().and_then(|status| status.incarnation);
        let node = &self.processes[process].node;
        if node.has_left() && node.fault().is_none() {
            return self.has_ended(process); // (who waits at a node that has stopped is told nothing)
        }
        if registered.is_some() && registered != incarnation && self.aimed(NEW) {
            self.leave(process);
        }
    }

    /// So much time passes for a node that it looks around.
    fn look_around(&mut self, process: usize) {
        if self.processes[process].paused == 0 {
            (0..LOOK).for_each(|_| self.processes[process].node.tick());
            self.turn(process);
        }
    }

    /// Looks at what a node has played, sends and tells.
    fn look(&mut self, process: usize, before: u64) {
        let played = self.processes[process].node.view().map(Player::take_played);
        for (number, reply) in played.unwrap_or_default() {
            if number >= OTHERS {
                self.breaks("a call of another node's thread was played");
            }
            let first = self.played.entry(number).or_insert(reply.clone()).clone();
            if self.is_tampered_with() {
                continue; // (until a node that read something else has stopped)
            }
            if self.never.contains(&number) {
                self.breaks("a call was played that was told never to be made");
            }
            if first != reply {
                self.breaks("a call was answered in two ways");
            }
        }
        if self.processes[process].node.seen().is_some_and(|note| note.place < before) {
            self.breaks("a node went back");
        }
        if let Some(fault) = self.processes[process].node.fault() {
            if *fault == Fault::NoMemory && !self.is_quiet {
                return self.restart(process); // (as its operator does)
            }
            let is_right = match fault {
                Fault::OtherEngine => self.store.id != 1,
                Fault::NoCheckpoint if self.lacks_checkpoints => true,
                fault if self.expected.is_some_and(|is_expected| is_expected(fault)) => true,
                Fault::NoCheckpoint | Fault::Gap { .. } | Fault::Differs { .. } | Fault::UnknownRules { .. } => {
                    self.is_tampered_with()
                }
                _ => false,
            };
            if !is_right {
                let what = format!("a node stopped: {fault}");
                self.breaks(what);
            }
        }
        while let Some(output) = self.processes[process].node.next_output() {
            match output {
                Output::Ask(number, request) => {
                    let start = self.processes[process].start;
                    let mut sent = Sent { process, start, number, request, is_given_up: false };
                    if self.fault(60) {
                        self.told(&sent, Answer::Lost); // (and it may arrive later)
                        sent.is_given_up = true;
                        if self.random.below(3) == 0 {
                            self.held.insert(self.steps + 200 + self.random.below(1000), sent);
                            continue;
                        }
                    }
                    self.sent.push(sent);
                }
                Output::Tell(ticket, receipt) => self.receipt(process, ticket, receipt),
            }
        }
    }

    fn receipt(&mut self, process: usize, ticket: u64, receipt: Receipt<P::Reply>) {
        let Some((numbers, before, handed)) = self.processes[process].waiting.remove(&ticket) else {
            return self.breaks("a ticket was told of twice");
        };
        match receipt {
            Receipt::Told { told, note } => {
                if self.store.id != 1 {
                    self.breaks("a call was answered by an engine that lost calls");
                }
                self.counts.answered += 1;
                let it = &self.processes[process];
                let teller = (it.start, it.node.status().map_or(u64::MAX, |status| status.entries));
                let already = self.answered.len();
                if let (Some(Told::Done), Some((thread, to))) = (told.last(), handed) {
                    self.threads[process % EVIL].retain(|it| *it != thread || *it == 2);
                    self.threads[to].push(thread);
                }
                for (number, told) in numbers.iter().zip(told) {
                    match told {
                        Told::Reply(reply) => {
                            self.threads[process % EVIL].extend(P::made_by(&reply));
                            if !self.is_tampered_with() && self.played.get(number) != Some(&reply) {
                                self.breaks("a caller was told another reply");
                            }
                            self.answered.push((*number, reply));
                            self.tellers.push(teller);
                        }
                        Told::OtherNode => self.counts.refused += 1,
                        Told::Done => {}
                    }
                }
                self.sees(process, before);
                for other in 0..self.processes.len() {
                    if self.processes[other].node.seen().is_some_and(|seen| seen >= note) {
                        let last = self.answered.len();
                        self.sees(other, if last > already { last } else { 0 });
                    }
                }
            }
            Receipt::NeverMade => {
                self.counts.never += 1;
                if !self.is_tampered_with() && numbers.iter().any(|number| self.played.contains_key(number)) {
                    self.breaks("a call was told never to be made, and was played");
                }
                self.never.extend(numbers);
            }
            Receipt::MadeUnseen => {
                self.counts.unseen += 1;
                self.unseen.extend(numbers);
            }
            Receipt::Unknown => self.counts.unknown += 1,
        }
    }

    /// A node sees the last of the first so many answered calls.
    fn sees(&mut self, process: usize, count: usize) {
        let Some((number, reply)) = count.checked_sub(1).map(|last| self.answered[last].clone()) else { return };
        if self.is_tampered_with() {
            return; // (each node reads on until it has stopped)
        }
        let it = &mut self.processes[process];
        let seen = it.node.view().map(|it| it.has_answered(number, &reply));
        if seen == Some(false) || (process == 0 && it.reads().is_some_and(|it| !it.has_answered(number, &reply))) {
            self.breaks("a read is behind what its caller has seen");
        }
    }

    /// A caller submits some calls, or asks for the latest state.
    fn submit(&mut self, process: usize) {
        let count = self.random.below(4);
        let calls: Vec<(u64, u64)> = (0..count).map(|_| self.call_of(process)).collect();
        let is_handed = self.random.below(12) == 0;
        let handed = is_handed.then(|| (self.thread_of(process), self.random.below(3) as usize));
        self.submits(process, &calls, handed);
    }

    /// Submits calls of threads, each with its deed, and a thread that is handed over to a process.
    fn submits(&mut self, process: usize, calls: &[(u64, u64)], handed: Option<(u64, usize)>) {
        let first = self.calls + 1;
        self.calls += calls.len() as u64;
        self.tickets += 1;
        let numbers: Vec<u64> = (first..=self.calls).collect();
        let call = |(number, (thread, deed)): (&u64, &(u64, u64))| Item::Call(P::call(*thread, *number, *deed));
        let mut items: Vec<_> = numbers.iter().zip(calls).map(call).collect();
        let node = |to: usize| name(NODES.get(to).copied().unwrap_or("evil"));
        items.extend(handed.map(|(thread, to)| Item::HandOver { thread, to: node(to) }));
        let (ticket, answered) = (self.tickets, self.answered.len());
        let it = &mut self.processes[process];
        if it.node.fault().is_none() {
            it.waiting.insert(ticket, (numbers, answered, handed));
            assert!(it.node.submit(ticket, &items));
            let before = it.node.seen().map_or(0, |note| note.place);
            self.look(process, before);
        }
    }

    /// A thread by which a node calls, and what it does: the node's own one does not end, nor does the one that the machine boots with.
    fn call_of(&mut self, process: usize) -> (u64, u64) {
        let own = self.threads[process % 3][0];
        let thread = if self.random.below(2) == 0 { own } else { self.thread_of(process) };
        let deeds = if thread == own || thread == 2 { 2 } else { 3 };
        (thread, self.random.below(deeds))
    }

    /// A thread that a node has or had, but its own one.
    fn thread_of(&mut self, process: usize) -> u64 {
        let threads = &self.threads[process % 3][1..];
        let others = self.random.below(5); // (mostly one of the last, which it surely had)
        let back =
            if others > 0 { self.random.below(others.min(threads.len() as u64)) + 1 } else { threads.len() as u64 };
        threads[threads.len() - back as usize]
    }

    /// A run: faults, then none any more, until all is told.
    pub fn run(&mut self, steps: u64) {
        for _ in 0..steps {
            self.step();
            if self.broken.is_some() {
                return;
            }
        }
        self.heal();
        if self.broken.is_some() {
            return;
        }
        match self.liar {
            Some(Liar { is_mild: true, .. }) => {
                self.keep_back();
                self.void();
            }
            Some(_) => return self.cut(),
            None => {}
        }
        match self.random.below(3) {
            0 => self.lose_disks(),
            1 => self.break_checkpoints(),
            _ => self.change_boot(),
        }
    }

    /// No fault is done any more. Each caller has to be told, a new node has to come to the same state, and what was promised has to hold.
    fn heal(&mut self) {
        self.is_quiet = true;
        self.sent.extend(std::mem::take(&mut self.held).into_values());
        self.start("d");
        self.settle(LONG);
        if self.broken.is_some() {
            return;
        }
        self.counts.stopped += self.processes.iter().filter(|it| it.node.fault().is_some()).count() as u64;
        if self.processes.iter().any(|it| it.node.fault().is_none() && it.is_ending) {
            self.breaks("a node keeps its fence that is to give it back");
        }
        let waits = |it: &Process<P>| it.node.fault().is_none() && !it.waiting.is_empty();
        if self.processes.iter().any(waits) {
            self.breaks("a caller is told nothing");
        }
        let states: Vec<_> = self.states().into_iter().flatten().collect();
        if states.iter().any(|state| *state != states[0]) || (!self.is_tampered_with() && states.len() < 4) {
            self.breaks("nodes differ at the end");
        }
        if self.is_tampered_with() {
            return self.holds();
        }
        if self.answered.iter().any(|(number, _)| !self.played.contains_key(number)) {
            self.breaks("a call is lost that was answered");
        }
        // (one of another node's thread is made and not played)
        if self
            .unseen
            .iter()
            .any(|number| !self.played.contains_key(number) && !self.store.has_put(&number.to_be_bytes()))
        {
            self.breaks("a call is lost that was told to be made");
        }
    }

    /// What was told holds at each node that goes on, whatever a node that lies has changed, once whoever told it has said what it had played.
    fn holds(&mut self) {
        let said = |(start, entries): &(u64, u64)| self.said.get(start).is_some_and(|said| said >= entries);
        let sure = self.answered.iter().zip(&self.tellers).filter(|(_, teller)| said(teller));
        let sure: Vec<(u64, P::Reply)> = sure.map(|(answer, _)| answer.clone()).collect();
        let mut broken = false;
        for it in &mut self.processes {
            if let Some(machine) = it.node.view() {
                broken |= sure.iter().any(|(number, reply)| !machine.has_answered(*number, reply));
                broken |= self.never.iter().any(|number| machine.has_played(*number));
            }
        }
        if broken {
            self.breaks("a call was told that is another one by what a node changed that lies");
        }
    }

    /// All processes go on until each has seen all and nothing changes in so many turns, or for very many.
    fn settle(&mut self, turns: usize) {
        let (mut last, mut same) = (Vec::new(), 0);
        for _ in 0..MOST {
            for process in 0..self.processes.len() {
                self.processes[process].paused = 0;
                for _ in 0..20 {
                    self.deliver();
                    self.report(process);
                }
                if self.random.below(4) == 0 {
                    self.look_around(process);
                }
                self.turn(process);
            }
            let now: Vec<_> = self.processes.iter().map(|it| (it.node.seen(), it.waiting.len())).collect();
            same = if now == last && self.processes.iter().all(|it| self.has_seen_all(it)) { same + 1 } else { 0 };
            if same == turns || self.broken.is_some() {
                return;
            }
            last = now;
        }
    }

    /// Whether a node has seen the whole log, or has stopped.
    fn has_seen_all(&self, process: &Process<P>) -> bool {
        let place = process.node.seen().map_or(0, |note| note.place);
        let is_none = |events: Vec<_>| events.is_empty();
        process.node.fault().is_some() || self.store.changes(b"/sim/log/", b"/sim/log0", place, 1).is_some_and(is_none)
    }

    /// How many entries each node has counted, and their digest; none of one that has stopped.
    fn states(&self) -> Vec<Option<(u64, [u8; 32])>> {
        self.processes.iter().map(|it| it.node.status().map(|it| (it.entries, it.digest))).collect()
    }

    /// Each checkpoint is changed in a byte. A new node stops, or finds the whole log.
    fn break_checkpoints(&mut self) {
        self.counts.faults += 1;
        for mut pair in self.store.range(b"/sim/state/", b"/sim/state0", self.store.revision) {
            let at = self.random.below(pair.value.len() as u64) as usize;
            pair.value[at] ^= 1;
            self.store.put(&pair.key, &pair.value, None);
        }
        if self.random.below(2) == 0 {
            // (and with no entry at all none is missing between two others)
            let (from, to) = (b"/sim/log/e/".to_vec(), b"/sim/log/e0".to_vec());
            self.store.act(&Request::Drop { from, to }, 1);
        }
        self.lacks_checkpoints = true;
        self.start("e");
        self.settle(LONG);
        let states: Vec<_> = self.states().into_iter().flatten().collect();
        if states.iter().any(|state| *state != states[0]) {
            self.breaks("a new node plays what is left of the log without its checkpoint");
        }
    }

    /// The engine is restored from an old copy.
    fn lose_disks(&mut self) {
        self.counts.faults += 1;
        let revision = 1 + self.random.below(self.store.revision);
        self.store.restore(revision);
        for _ in 0..200 {
            for process in 0..self.processes.len() {
                self.submit(process);
                self.deliver();
                self.report(process);
                self.look_around(process);
            }
        }
        if self.processes.iter().any(|it| it.node.fault() != Some(&Fault::OtherEngine)) {
            self.breaks("a node goes on with another engine");
        }
    }
}

/// The place of a mark whose checkpoint or agreement is put.
fn place_of_mark(store: &Store, request: &Request) -> Option<u64> {
    match request {
        Request::Put { key, value, .. } if key.starts_with(b"/sim/state/") => Some(place_of(value)),
        Request::Put { key, .. } if key.starts_with(b"/sim/log/a/") => {
            let entries = place_in(key)?;
            let states = store.range(b"/sim/state/", b"/sim/state0", store.revision);
            let found = states.iter().find(|pair| place_in(&pair.key) == Some(entries));
            Some(found.map_or(store.revision, |pair| place_of(&pair.value)))
        }
        _ => None,
    }
}

/// Whether a request puts an agreement of a node that has put the checkpoint.
fn lacks_agreement(store: &Store, request: &Request) -> bool {
    let Request::Put { key, .. } = request else { return false };
    let Some(rest) = key.strip_prefix(b"/sim/log/a/") else { return false };
    let state = [b"/sim/state/", rest].concat();
    !store.range(&state, &[&state[..], &[0]].concat(), store.revision).is_empty()
}

/// The place of a checkpoint.
fn place_of(checkpoint: &[u8]) -> u64 {
    let rest = &checkpoint[1..];
    let entries = rest.iter().position(|byte| byte & 128 == 0).expect("a number") + 1;
    number_in(&rest[entries..])
}

/// The place or the number of entries that a key ends with.
fn place_in(key: &[u8]) -> Option<u64> {
    let (_, text) = std::str::from_utf8(key).ok()?.rsplit_once('/')?;
    u64::from_str_radix(text.get(1..)?, 16).ok()
}

/// Whether two nodes agree on a checkpoint of a later place, or nodes but this one have dropped their entries up to it.
fn has_gone_on(store: &Store, node: &str, place: u64) -> bool {
    let range = |from: &[u8], to: &[u8]| store.range(from, to, store.revision).into_iter();
    let agreed: Vec<u64> = range(b"/sim/log/a/", b"/sim/log/a0").filter_map(|pair| place_in(&pair.key)).collect();
    let is_agreed = |entries: u64| agreed.iter().filter(|it| **it == entries).count() >= 2;
    let is_later = |pair: Pair| place_of(&pair.value) > place && place_in(&pair.key).is_some_and(is_agreed);
    let entries = |of: &str| range(format!("/sim/log/e/{of}/").as_bytes(), format!("/sim/log/e/{of}0").as_bytes());
    let has_dropped = |of: &&str| *of == node || entries(of).all(|pair| pair.created > place);
    range(b"/sim/state/", b"/sim/state0").any(is_later) || NODES.iter().all(has_dropped)
}

/// The number that a value begins with.
fn number_in(bytes: &[u8]) -> u64 {
    let len = bytes.iter().position(|byte| byte & 128 == 0).expect("a number") + 1;
    bytes[..len].iter().rev().fold(0, |number, byte| number << 7 | u64::from(byte & 127))
}
