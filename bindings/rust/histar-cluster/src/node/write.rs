//! Registering, and putting entries: each under a key of its own, of the same bytes however often it is tried.
use super::{Leaving, Node, Purpose};
use crate::engine::Request;
use crate::entry::{self, Head, Item, Short};
use crate::keys::{after, Incarnation, Key, Lane};
use crate::receipt::{Note, Receipt, Told};
use crate::sha256::sha256;
use crate::spelling::put_number;
use crate::Machine;
use std::collections::BTreeMap;

/// An entry takes no more items once it has so many bytes.
const MOST: usize = 256 << 10;

/// So many items may be submitted together.
const MOST_ITEMS: usize = 16;

/// What was submitted and is in no entry yet.
pub(super) struct Queued {
    ticket: u64,
    count: usize,
    bytes: Vec<u8>,
}

/// A lane of this node.
#[derive(Default)]
pub(super) struct OwnLane {
    last: u64,
    // Of the last entry.
    digest: Short,
    is_busy: bool,
}

/// Whether the node may write.
pub(super) enum Writer {
    None,
    Registers,
    Open {
        of: Incarnation,
        lease: u64,
        fence: Key,
        lanes: Vec<OwnLane>,
        // Who waits for an entry: the tickets, each with the count of its items.
        waits: BTreeMap<(usize, u64), Vec<(u64, usize)>>,
    },
}

impl Writer {
    pub fn incarnation(&self) -> Option<&Incarnation> {
        match self {
            Writer::Open { of, .. } => Some(of),
            _ => None,
        }
    }

    pub fn lease(&self) -> Option<u64> {
        match self {
            Writer::Open { lease, .. } => Some(*lease),
            _ => None,
        }
    }

    pub fn waiting(&self) -> usize {
        match self {
            Writer::Open { waits, .. } => waits.values().map(Vec::len).sum(),
            _ => 0,
        }
    }

    fn lane(&mut self, incarnation: u64, lane: usize) -> Option<&mut OwnLane> {
        match self {
            Writer::Open { of, lanes, .. } if of.number == incarnation => lanes.get_mut(lane),
            _ => None,
        }
    }

    pub fn is_on_its_way(&self, incarnation: u64, lane: usize, number: u64) -> bool {
        match self {
            Writer::Open { of, lanes, .. } if of.number == incarnation => {
                lanes.get(lane).is_some_and(|lane| lane.is_busy && lane.last == number)
            }
            _ => false,
        }
    }
}

impl<M: Machine> Node<M> {
    /// Submits up to 16 items, which are played together. None at all is asked to learn when all is played that any node has told so far: the
    /// place of the receipt. What became of them is told under the ticket, and nothing while it is unknown. False where they are more: nothing
    /// is submitted then.
    #[must_use]
    pub fn submit(&mut self, ticket: u64, items: &[Item<M::Call>]) -> bool {
        if items.len() > MOST_ITEMS {
            return false;
        }
        if self.leaving != Leaving::No {
            self.tell(ticket, Receipt::NeverMade);
            return true;
        }
        let mut bytes = Vec::new();
        items.iter().for_each(|item| entry::add::<M>(&mut bytes, item));
        self.queue.push_back(Queued { ticket, count: items.len(), bytes });
        self.put_entries();
        true
    }

    pub(super) fn register_unless_registered(&mut self) {
        if matches!(self.writer, Writer::None) && self.leaving == Leaving::No {
            self.writer = Writer::Registers;
            self.ask(Purpose::Lease, Request::Lease);
        }
    }

    pub(super) fn leased(&mut self, lease: u64) {
        if self.leaving != Leaving::No {
            self.writer = Writer::None;
            return;
        }
        self.registrations += 1;
        let any = self.options.any.wrapping_add(self.registrations);
        let key = self.keys.fence(&self.options.node, any);
        self.ask(
            Purpose::Fence { lease, fence: key.clone() },
            Request::Put { key, value: self.progress(), lease: Some(lease), only_new: true },
        );
    }

    /// The place up to which the node has played, as its fence has it.
    pub(super) fn progress(&self) -> Vec<u8> {
        let mut value = Vec::new();
        put_number(&mut value, self.reached);
        value
    }

    pub(super) fn fenced(&mut self, lease: u64, fence: Key, revision: u64, is_done: bool) {
        self.writer = Writer::None;
        if is_done && self.leaving != Leaving::No {
            return self.give_back(fence); // (no entry was put)
        }
        if is_done {
            let of = Incarnation { node: self.options.node.clone(), number: revision };
            let lanes = (0..self.options.lanes.max(1)).map(|_| OwnLane::default()).collect();
            self.writer = Writer::Open { of, lease, fence, lanes, waits: BTreeMap::new() };
            self.put_entry(0); // (with what waits, if anything: from its place on the incarnation is known)
            self.put_entries();
        }
    }

    /// Puts what waits into lanes that have no entry on its way, once it is a lane's share of all that has no receipt. So what many callers
    /// submit, one after the other as they get their receipts, goes in one entry; and where nothing is on its way, nothing waits.
    pub(super) fn put_entries(&mut self) {
        while !self.queue.is_empty() {
            let Writer::Open { lanes, .. } = &self.writer else { return };
            let Some(lane) = lanes.iter().position(|lane| !lane.is_busy) else { return };
            if self.queue.len() * lanes.len() < self.queue.len() + self.writer.waiting() {
                return;
            }
            self.put_entry(lane);
        }
    }

    fn put_entry(&mut self, place: usize) {
        let Some(point) = self.state().map(|state| state.point()) else { return };
        let Writer::Open { of, lanes, waits, .. } = &mut self.writer else { return };
        let own = &mut lanes[place];
        let (mut value, mut tickets) = (entry::begin(&Head::new(&point, &own.digest)), Vec::new());
        while value.len() < MOST {
            let Some(queued) = self.queue.pop_front() else { break };
            value.extend_from_slice(&queued.bytes);
            tickets.push((queued.ticket, queued.count));
        }
        own.last += 1;
        own.digest = entry::short(&sha256(&value));
        own.is_busy = true;
        let number = own.last;
        waits.insert((place, number), tickets);
        let purpose = Purpose::Entry { incarnation: of.number, lane: place, number };
        let key = self.keys.entry(&Lane { of: of.clone(), number: place as u64 }, number);
        self.ask_put(purpose, key, value, None);
    }

    /// An entry of this node is in the log, so its lane has none on its way.
    pub(super) fn is_put(&mut self, incarnation: u64, lane: usize, number: u64) {
        if let Some(own) = self.writer.lane(incarnation, lane).filter(|own| own.last == number) {
            own.is_busy = false;
        }
        self.put_entries();
    }

    /// An entry was played. Who waits for it is told.
    pub(super) fn is_played(&mut self, lane: &Lane, number: u64, place: u64, told: Vec<Told<M::Reply>>) {
        let Writer::Open { of, waits, .. } = &mut self.writer else { return };
        if lane.of != *of {
            return;
        }
        let own = lane.number as usize;
        let tickets = waits.remove(&(own, number)).unwrap_or_default();
        let note = Note { engine: self.engine.unwrap_or_default(), place };
        let mut told = told.into_iter();
        for (ticket, count) in tickets {
            let told = told.by_ref().take(count).collect();
            self.tell(ticket, Receipt::Told { told, note });
        }
        self.is_put(lane.of.number, own, number);
    }

    /// If the incarnation is closed, nothing of it counts from here on: what waits was not played and never will be. What is in no entry
    /// yet goes into one of the next incarnation.
    pub(super) fn end_if_closed(&mut self) {
        let Some(state) = self.state() else { return };
        if self.writer.incarnation().is_some_and(|of| !state.order.is_open(of)) {
            self.end_with(|_, _| Receipt::NeverMade);
        }
    }

    /// Ends the incarnation. Who waits for an entry is told so.
    pub(super) fn end_with(&mut self, receipt: impl Fn(usize, u64) -> Receipt<M::Reply>) {
        if let Writer::Open { waits, fence, .. } = std::mem::replace(&mut self.writer, Writer::None) {
            for ((lane, number), tickets) in waits {
                tickets.into_iter().for_each(|(ticket, _)| self.tell(ticket, receipt(lane, number)));
            }
            match self.leaving {
                Leaving::No => self.register_unless_registered(),
                _ => self.give_back(fence),
            }
        }
    }

    /// Ends the node's incarnation in order. What is in no entry yet is never made, nor what is submitted from here on; what is on its way is told of.
    /// Then the incarnation is closed, as another node closes it, and its fence is given back.
    pub fn leave(&mut self) {
        if self.leaving == Leaving::No {
            self.leaving = Leaving::Waits;
            for queued in std::mem::take(&mut self.queue) {
                self.tell(queued.ticket, Receipt::NeverMade);
            }
            self.leave_on();
        }
    }

    /// Whether the incarnation is closed, and the fence given back. The node plays on.
    pub fn has_left(&self) -> bool {
        self.leaving == Leaving::HasLeft
    }

    /// Closes the incarnation once none of its entries is on its way: one of them has counted then, without which none is closed.
    pub(super) fn leave_on(&mut self) {
        let is_fencing = || self.asked.values().any(|asked| matches!(asked.purpose, Purpose::Fence { .. }));
        match &self.writer {
            _ if self.leaving != Leaving::Waits => {}
            Writer::Open { of, waits, .. } if waits.is_empty() => {
                let key = self.keys.close(&self.options.node, of.number);
                self.leaving = Leaving::Closes;
                self.ask_put(Purpose::Surely, key, Vec::new(), None);
            }
            Writer::Open { .. } => {}
            Writer::None | Writer::Registers if is_fencing() => {}
            Writer::None | Writer::Registers => self.leaving = Leaving::HasLeft,
        }
    }

    fn give_back(&mut self, fence: Key) {
        self.leaving = Leaving::GivesBack;
        let to = after(fence.clone());
        self.ask(Purpose::Leave, Request::Drop { from: fence, to });
    }

    /// The node began at a checkpoint, which has the last numbers of its lanes, and whether its incarnation is closed.
    pub(super) fn jumped(&mut self) {
        let (Some(state), Writer::Open { of, waits, .. }) = (self.state(), &self.writer) else { return };
        let order = state.order.clone();
        let of = of.clone();
        let last = |lane: usize| order.last(&Lane { of: of.clone(), number: lane as u64 }).number;
        if !order.is_open(&of) {
            let is_closed = order.is_closed(of.number);
            return self.end_with(|lane, number| match (number <= last(lane), is_closed) {
                (true, _) => Receipt::MadeUnseen,
                (false, true) => Receipt::NeverMade,
                (false, false) => Receipt::Unknown,
            });
        }
        let made: Vec<(usize, u64)> = waits.keys().copied().filter(|(lane, number)| *number <= last(*lane)).collect();
        for (lane, number) in made {
            let Writer::Open { waits, .. } = &mut self.writer else { return };
            for (ticket, _) in waits.remove(&(lane, number)).unwrap_or_default() {
                self.tell(ticket, Receipt::MadeUnseen);
            }
            self.is_put(of.number, lane, number);
        }
    }
}
