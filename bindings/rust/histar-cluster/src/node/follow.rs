//! Booting, loading the log by pages, and following it by a watch.
use super::pages::{Agreed, Then};
use super::{Asked, Node, Phase, Purpose};
use crate::engine::{Answer, Event, Pair, Request};
use crate::keys::{after, end_of, Key, LogKey};
use crate::receipt::Fault;
use crate::sha256::{sha256, Digest};
use crate::state::{Boot, NoMemory, State, Step};
use crate::{Machine, Name};
use std::collections::BTreeSet;

/// A watch that is farther behind is slower than pages.
const FAR: u64 = 1000;

impl<M: Machine> Node<M> {
    pub(super) fn look_at_boot(&mut self) {
        let (from, to) = self.keys.begun();
        self.read_ranges([(from, to)], 0, Then::Boot);
    }

    /// Boots what the cluster was begun with, or begins it.
    pub(super) fn boots(&mut self, found: &[Pair]) {
        let key = self.keys.boot();
        let Some(begun) = found.iter().find(|pair| pair.key == key) else {
            let value = self.options.boot::<M>().bytes();
            return self.ask(Purpose::Boot, Request::Put { key, value, lease: None, only_new: true });
        };
        let (begun, voids) = (begun.clone(), found.iter().filter_map(|pair| self.keys.read_void(&pair.key)).collect());
        match Boot::read(&begun.value) {
            Ok(Boot { from: Some(_), .. }) => self.read_key(self.keys.start(), 0, Then::Start { begun, voids }),
            _ => self.begins(begun, voids, None),
        }
    }

    /// Begins in the state that the cluster was begun in, and plays the log from there.
    pub(super) fn begins(&mut self, begun: Pair, voids: BTreeSet<u64>, start: Option<&[u8]>) {
        match self.first_state(&begun, voids, start) {
            Err(fault) => self.stop(fault),
            Ok(state) => {
                self.begun = Some(begun);
                self.begin(state);
                self.load();
            }
        }
    }

    fn first_state(&self, begun: &Pair, voids: BTreeSet<u64>, start: Option<&[u8]>) -> Result<State<M>, Fault> {
        let boot = Boot::read(&begun.value)?;
        if boot.limits != self.options.limits {
            return Err(Fault::OtherBoot);
        }
        State::new(self.keys.clone(), boot, voids, start)
    }

    fn begin(&mut self, state: State<M>) {
        self.phase = Phase::Plays { state: Box::new(state), is_loading: true, is_watching: false };
    }

    /// Plays all that the node has not played, by pages of one revision: first the newest checkpoint, if it is newer than the node.
    pub(super) fn load(&mut self) {
        self.asked.retain(|_, asked| !matches!(asked.purpose, Purpose::Watch));
        if let Phase::Plays { is_loading, is_watching, .. } = &mut self.phase {
            (*is_loading, *is_watching) = (true, false);
            let from = self.keys.agreements();
            self.read_ranges([(from.clone(), end_of(from))], 0, Then::Agreements);
        }
    }

    pub(super) fn find_checkpoint(&mut self, at: u64, found: Vec<Pair>) {
        for pair in found {
            if let (Some(LogKey::Agree(node, entries)), Ok(digest)) = (self.keys.read(&pair.key), pair.value.try_into())
            {
                self.agreements.add(node, entries, digest);
            }
        }
        let Some(played) = self.state().map(|state| state.point().entries) else { return };
        let agreed = self.agreements.above(played).into_iter();
        let all: Vec<_> =
            agreed.map(|(entries, digest, node)| (entries, digest, self.keys.state(&node, entries))).collect();
        let newest = all.last().map(|(entries, digest, _)| (*entries, *digest));
        self.try_checkpoint(at, Agreed { newest, others: all });
    }

    fn try_checkpoint(&mut self, at: u64, mut agreed: Agreed) {
        match agreed.others.pop() {
            Some((entries, digest, key)) => self.read_key(key, at, Then::Checkpoint { entries, digest, agreed }),
            None => self.load_log(at, agreed.newest),
        }
    }

    /// Begins at a checkpoint, if it was put and is the one that nodes agree on.
    pub(super) fn begin_at(&mut self, at: u64, entries: u64, digest: Digest, found: Vec<Pair>, agreed: Agreed) {
        let Some(pair) = found.first().filter(|pair| sha256(&pair.value) == digest) else {
            return self.try_checkpoint(at, agreed);
        };
        match self.state().map(|state| state.restore(entries, &pair.value)) {
            None => {}
            Some(Err(fault)) => self.stop(fault),
            Some(Ok(state)) => {
                // (what else was put at the place of its last entry is not played; what was, counts no more)
                self.reached = state.point().place.saturating_sub(1);
                self.begin(state);
                self.jumped();
                self.load_log(at, agreed.newest.filter(|(newest, _)| *newest > entries));
            }
        }
    }

    /// Reads the keys of the log but those of the numbers that were played. They have to lead to what nodes agree on.
    fn load_log(&mut self, at: u64, wanted: Option<(u64, Digest)>) {
        let Some(state) = self.state() else { return };
        let lanes = state.order.lanes();
        let mut played: Vec<(Key, Key)> =
            lanes.map(|(lane, last)| (self.keys.entry(lane, 1), after(self.keys.entry(lane, last.number)))).collect();
        played.sort();
        let (mut from, end) = (self.keys.log(), end_of(self.keys.log()));
        let mut ranges = Vec::new();
        for (first, last) in played {
            ranges.push((from, first));
            from = last;
        }
        ranges.push((from, end));
        self.read_ranges(ranges, at, Then::Log { wanted });
    }

    /// Plays what is left of the log. Of a log that was dropped a part may be left that has no gap, where the checkpoint is not what it was. And
    /// of what nodes say that they have played nothing may be missing.
    pub(super) fn play_pages(&mut self, at: u64, found: Vec<Pair>, mut wanted: Option<(u64, Digest)>) {
        let is_seen = |pair: &Pair| matches!(self.keys.read(&pair.key), Some(LogKey::Seen(_)));
        let (seen, mut found): (Vec<Pair>, Vec<Pair>) = found.into_iter().partition(is_seen);
        found.sort_by(|one, other| (one.created, &one.key).cmp(&(other.created, &other.key)));
        found.retain(|pair| pair.created > self.reached);
        for pair in found {
            self.play(pair.created, &pair.key, &pair.value);
            wanted = wanted.filter(|(entries, digest)| !self.has_mark(*entries, digest));
        }
        if let Some((entries, _)) = wanted {
            return self.misses(entries);
        }
        self.reached = self.reached.max(at);
        seen.into_iter().for_each(|pair| self.play(at, &pair.key, &pair.value));
        if let Phase::Plays { is_loading, .. } = &mut self.phase {
            *is_loading = false;
        }
        self.watch_unless_watching();
        self.register_unless_registered();
    }

    /// Stops: the node did not come by the state that nodes agree on after so many entries.
    fn misses(&mut self, entries: u64) {
        match self.fault() {
            None if self.unwritten >= Some(entries) => self.stop(Fault::NoMemory),
            None | Some(Fault::Gap { .. } | Fault::Differs { .. }) => self.stop(Fault::NoCheckpoint),
            Some(_) => {}
        }
    }

    pub(super) fn watch_unless_watching(&mut self) {
        if let Phase::Plays { is_watching: is_watching @ false, .. } = &mut self.phase {
            *is_watching = true;
            let from = self.keys.log();
            let request = Request::Watch { from: from.clone(), to: end_of(from), after: self.reached };
            self.ask(Purpose::Watch, request);
        }
    }

    pub(super) fn watch_lost(&mut self) {
        if let Phase::Plays { is_watching, .. } = &mut self.phase {
            *is_watching = false;
        }
    }

    /// Takes what the watch of a number says.
    pub(super) fn watched(&mut self, number: u64, request: Request, answer: Answer) {
        match answer {
            Answer::Watching(revision) if revision <= self.reached + FAR => {}
            Answer::Watching(_) | Answer::Forgotten => return self.load(),
            Answer::Events(events) => self.happened(events),
            _ => return self.watch_lost(),
        }
        if self.fault().is_none() {
            self.asked.insert(number, Asked { purpose: Purpose::Watch, request });
            // (it goes on)
        }
    }

    /// Plays what a watch reports: what was put at one revision by rising key, as pages have it.
    fn happened(&mut self, mut events: Vec<Event>) {
        events.sort_by(|one, other| (one.revision, &one.key).cmp(&(other.revision, &other.key)));
        events.retain(|event| event.revision > self.reached);
        for event in events {
            // (what is put again stays where it is, but for how far a node has played)
            if event.is_new || matches!(self.keys.read(&event.key), Some(LogKey::Seen(_))) {
                self.play(event.revision, &event.key, &event.value);
            }
            self.reached = event.revision;
        }
    }

    fn play(&mut self, place: u64, key: &[u8], value: &[u8]) {
        let Some(state) = self.state_mut() else { return };
        match state.play(place, key, value) {
            Err(fault) => return self.stop(fault),
            Ok(Step::Entry { lane, number, told }) => {
                self.is_played(&lane, number, place, told);
                self.mark_if_one_stands(&lane.of.node);
            }
            Ok(Step::Closed { by }) => self.mark_if_one_stands(&by),
            Ok(Step::Agreed { node, entries, digest }) => self.agrees(node, entries, digest),
            Ok(Step::Seen { node, point }) => self.compare_point(node, &point, place),
            Ok(Step::Nothing) => {}
        }
        self.end_if_closed();
    }

    fn mark_if_one_stands(&mut self, writer: &Name) {
        let Some(state) = self.state_mut() else { return };
        match state.mark(writer) {
            Some(Ok(mark)) => self.marked(mark),
            Some(Err(NoMemory)) => self.unwritten = self.state().map(|state| state.point().entries),
            None => {}
        }
    }
}
