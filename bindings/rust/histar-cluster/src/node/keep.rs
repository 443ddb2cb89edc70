//! What is done now and then: incarnations are closed whose fence is gone, states are compared, and the log is dropped.
use super::pages::Then;
use super::{Node, Purpose};
use crate::engine::{Pair, Request};
use crate::history::Point;
use crate::keys::{after, end_of, Key};
use crate::receipt::Fault;
use crate::sha256::{sha256, Digest};
use crate::spelling::{number_of, take_number};
use crate::state::Mark;
use crate::{Machine, Name};
use std::collections::BTreeSet;

/// So many keys are dropped by one request.
const DROPPED: usize = 1000;

/// The last marks that a node keeps. The log is kept up to the oldest of them at most, for a node that does not go on.
const KEPT: usize = 4;

/// After so many revisions what keys were before is forgotten, but for the last ones: a node that starts reads at one of these.
const FORGOTTEN: u64 = 100_000;
const REMEMBERED: u64 = 50_000;

impl<M: Machine> Node<M> {
    /// Keeps the lease, puts how far the node is, and looks at what the cluster was begun with and at the fences.
    pub(super) fn look_around(&mut self) {
        if let Some(lease) = self.writer.lease() {
            self.ask(Purpose::Once, Request::Keep { lease });
        }
        self.put_point();
        self.forget();
        // An entry is put after its fence, so each of these has had one when the fences are looked at.
        let open = self.state().map(|state| state.order.open_ones()).unwrap_or_default();
        let (from, to) = self.keys.begun();
        self.read_ranges([(from, to)], 0, Then::Begun(open));
    }

    /// Puts the point up to which the node has played, once it is another one: so a cluster in which nothing happens puts nothing.
    fn put_point(&mut self) {
        let Some(point) = self.state().map(|state| state.point()) else { return };
        if self.said != Some(point.entries) {
            self.said = Some(point.entries);
            self.ask_put(Purpose::Point, self.keys.seen(&self.options.node), point.bytes(), None);
        }
    }

    /// Has the engine forget what keys were before, which it keeps else.
    fn forget(&mut self) {
        if self.reached >= self.forgotten + FORGOTTEN {
            self.forgotten = self.reached - REMEMBERED;
            self.ask(Purpose::Once, Request::Forget { before: self.forgotten });
        }
    }

    pub(super) fn begun_seen(&mut self, open: &BTreeSet<u64>, found: &[Pair]) {
        let boot = self.keys.boot();
        if found.iter().find(|pair| pair.key == boot) != self.begun.as_ref() {
            return self.stop(Fault::OtherBoot);
        }
        let voids: Vec<u64> = found.iter().filter_map(|pair| self.keys.read_void(&pair.key)).collect();
        let reached = self.reached;
        if let Some(state) = self.state_mut() {
            if !voids.into_iter().all(|place| state.voids(place, reached)) {
                return self.stop(Fault::OtherBoot);
            }
        }
        let fences = found.iter().filter_map(|pair| Some((self.keys.read_fence(&pair.key)?, pair)));
        self.fences_seen(open, &fences.collect::<Vec<_>>());
    }

    fn fences_seen(&mut self, open: &BTreeSet<u64>, fences: &[(Name, &Pair)]) {
        let standing: BTreeSet<u64> = fences.iter().map(|(_, fence)| fence.created).collect();
        let own = self.writer.incarnation().map(|of| of.number);
        let is_namesake = |(node, fence): &&(Name, &Pair)| *node == self.options.node && Some(fence.created) != own;
        self.namesakes = fences.iter().filter(is_namesake).count();
        for incarnation in open.difference(&standing) {
            let key = self.keys.close(&self.options.node, *incarnation);
            self.ask_put(Purpose::Surely, key, Vec::new(), None);
        }
        let began = |fence: &Pair| take_number(&mut &fence.value[..]).unwrap_or(0);
        let played = |(node, fence): &(Name, &Pair)| began(fence).max(self.seen.get(node).copied().unwrap_or(0));
        let least = fences.iter().map(played).min();
        self.drop_if_agreed(least.unwrap_or(self.reached));
    }

    /// The node came by a mark: it says so to the others, and puts the checkpoint if the last entry is its own.
    pub(super) fn marked(&mut self, mark: Mark) {
        let (entries, digest, writer) = (mark.entries, mark.digest, mark.writer.clone());
        if let Some(checkpoint) = mark.checkpoint.as_ref().filter(|_| writer == self.options.node) {
            let key = self.keys.state(&self.options.node, entries);
            self.ask_put(Purpose::Surely, key, checkpoint.clone(), None);
        }
        let key = self.keys.agreement(&self.options.node, entries);
        self.ask_put(Purpose::Surely, key, digest.to_vec(), None);
        self.marks.insert(entries, Mark { checkpoint: mark.checkpoint.map(|_| Vec::new()), ..mark });
        while self.marks.len() > KEPT {
            self.marks.pop_first();
        }
        self.compare(entries);
    }

    pub(super) fn agrees(&mut self, node: Name, entries: u64, digest: Digest) {
        self.agreements.add(node, entries, digest);
        self.agreements.forget_old();
        self.compare(entries);
    }

    /// The greatest number of entries after which another node agrees with this one.
    pub(super) fn agreed(&self) -> Option<u64> {
        let is_agreed = |(entries, mark): &(&u64, &Mark)| self.agreements.is_agreed(**entries, &mark.digest);
        self.marks.iter().rev().find(is_agreed).map(|(entries, _)| *entries)
    }

    /// Whether the node came by a mark of this digest.
    pub(super) fn has_mark(&self, entries: u64, digest: &Digest) -> bool {
        self.marks.get(&entries).is_some_and(|mark| mark.digest == *digest)
    }

    /// Stops where another node has another state after so many entries.
    fn compare(&mut self, entries: u64) {
        let Some(mark) = self.marks.get(&entries) else { return };
        if let Some(node) = self.agreements.disputing(entries, &mark.digest) {
            let fault = Fault::Differs { node: node.clone(), entries, place: mark.place };
            self.stop(fault);
        }
    }

    /// Stops where another node, as it says at a place, had played something else up to a point.
    pub(super) fn compare_point(&mut self, node: Name, point: &Point, place: u64) {
        match self.state().map(|state| state.agrees_with(&node, point, place)) {
            Some(Err(fault)) => self.stop(fault),
            Some(Ok(())) => {
                let seen = self.seen.entry(node).or_default();
                *seen = point.place.max(*seen);
            }
            None => {}
        }
    }

    /// Drops the log up to the newest mark that two nodes agree on and that all nodes with a fence have played, or that is the oldest one kept, if
    /// its checkpoint is there. The checkpoint's writer is one of the two: a node that starts looks for it there.
    fn drop_if_agreed(&mut self, least: u64) {
        if !self.drops.is_empty() {
            return;
        }
        let oldest =
            self.marks.first_key_value().filter(|_| self.marks.len() == KEPT).map_or(0, |(_, mark)| mark.place);
        let is_agreed = |mark: &&Mark| {
            mark.checkpoint.is_some()
                && mark.place > self.dropped
                && mark.place <= least.max(oldest)
                && self.agreements.has(&mark.writer, mark.entries, &mark.digest)
                && self.agreements.is_agreed(mark.entries, &mark.digest)
        };
        let agreed = self.marks.values().rev().find(is_agreed);
        if let Some((entries, key)) = agreed.map(|mark| (mark.entries, self.keys.state(&mark.writer, mark.entries))) {
            self.read_key(key, 0, Then::Stored(entries));
        }
    }

    pub(super) fn is_stored(&mut self, entries: u64, found: &[Pair]) {
        let is_right = |mark: &&Mark| found.iter().any(|pair| sha256(&pair.value) == mark.digest);
        if let Some(place) = self.marks.get(&entries).filter(is_right).map(|mark| mark.place) {
            let own = self.keys.of_node(&self.options.node).map(|prefix| (prefix.clone(), end_of(prefix)));
            self.read_ranges(own, 0, Then::Own(place));
        }
    }

    /// Drops the node's own keys up to a place. What other nodes have put, they drop.
    pub(super) fn drop_own(&mut self, place: u64, found: &[Pair]) {
        if place <= self.dropped {
            return; // (it was looked at twice)
        }
        self.dropped = place;
        let old: Vec<&Pair> = found.iter().filter(|pair| pair.created <= place).collect();
        let mut left = &old[..];
        while !left.is_empty() {
            let (run, others) = left.split_at(run_of(left));
            let (from, to) = (run[0].key.clone(), after(run[run.len() - 1].key.clone()));
            self.drops.push_back(Request::Drop { from, to });
            left = others;
        }
        self.drops.push_back(Request::Forget { before: place });
        self.forgotten = self.forgotten.max(place);
        self.drop_next();
    }

    pub(super) fn drop_next(&mut self) {
        if let Some(request) = self.drops.pop_front() {
            self.ask(Purpose::Drop, request);
        }
    }
}

/// How many of the first keys are numbered one after another, so that no other key lies between them, nor ever will.
fn run_of(pairs: &[&Pair]) -> usize {
    let follows = |(first, second): (&Key, &Key)| {
        let ((before, number), (prefix, next)) = (numbered(first)?, numbered(second)?);
        (before == prefix && number.checked_add(1) == Some(next)).then_some(())
    };
    let keys = pairs.iter().map(|pair| &pair.key);
    let run = keys.clone().zip(keys.skip(1)).take_while(|pair| follows(*pair).is_some());
    (1 + run.count()).min(DROPPED)
}

/// The number that a key ends with, and what stands before it.
fn numbered(key: &Key) -> Option<(&str, u64)> {
    let (prefix, number) = std::str::from_utf8(key).ok()?.rsplit_once('/')?;
    Some((prefix, number_of(number)?))
}
