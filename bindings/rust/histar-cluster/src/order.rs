//! Which entries count. It is a rule of the log and not of the engine: each node finds the same.
use crate::entry::Short;
use crate::keys::{Incarnation, Lane};
use crate::spelling::{put_bytes, put_number, take, take_bytes, take_number};
use crate::Name;
use std::collections::{BTreeMap, BTreeSet};

/// What a number of a lane is.
#[derive(Clone, Copy, PartialEq, Eq, Debug)]
pub(crate) enum Turn {
    /// The next: it counts.
    Next,
    /// A copy of one that was played, put again after its key was dropped; or its incarnation is closed. It counts for nothing.
    Nothing,
    /// One before it is missing: the log is not whole.
    Gap,
}

/// The last entry of a lane: its number, and the digest of its bytes. Zeros before the first.
#[derive(Clone, Copy, Default, PartialEq, Eq, Debug)]
pub(crate) struct Last {
    pub number: u64,
    pub digest: Short,
}

/// The last entry of each lane, and the closed incarnations. An incarnation below the floor is closed, unless some lane of it is known.
#[derive(Clone, Default, PartialEq, Eq, Debug)]
pub(crate) struct Order {
    last: BTreeMap<Lane, Last>,
    closed: BTreeSet<u64>,
    floor: u64,
}

impl Order {
    pub fn last(&self, lane: &Lane) -> Last {
        self.last.get(lane).copied().unwrap_or_default()
    }

    /// All lanes with their last entries.
    pub fn lanes(&self) -> impl Iterator<Item = (&Lane, &Last)> {
        self.last.iter()
    }

    pub fn is_closed(&self, number: u64) -> bool {
        self.closed.contains(&number)
    }

    /// Whether an entry of the incarnation has counted, and is not forgotten.
    pub fn is_known(&self, of: &Incarnation) -> bool {
        self.last.range(Lane { of: of.clone(), number: 0 }..).next().is_some_and(|(lane, _)| lane.of == *of)
    }

    /// Whether entries of the incarnation may count.
    pub fn is_open(&self, of: &Incarnation) -> bool {
        !self.is_closed(of.number) && (of.number >= self.floor || self.is_known(of))
    }

    /// The known incarnations that are not closed.
    pub fn open_ones(&self) -> BTreeSet<u64> {
        self.last.keys().map(|lane| lane.of.number).filter(|number| !self.is_closed(*number)).collect()
    }

    /// Whether a number of a lane is its next.
    pub fn turn(&self, lane: &Lane, number: u64) -> Turn {
        let last = self.last(lane).number;
        if !self.is_open(&lane.of) || number <= last {
            return Turn::Nothing;
        }
        if number != last + 1 {
            return Turn::Gap;
        }
        Turn::Next
    }

    /// The next entry of a lane is played.
    pub fn goes_on(&mut self, lane: &Lane, digest: Short) {
        let last = self.last.entry(lane.clone()).or_default();
        *last = Last { number: last.number + 1, digest };
    }

    /// Whether an entry of an incarnation of this number has counted, and is not forgotten: who closes one has played such an entry.
    pub fn is_known_number(&self, number: u64) -> bool {
        self.last.keys().any(|lane| lane.of.number == number)
    }

    /// Closes an incarnation. False where it is closed.
    pub fn close(&mut self, number: u64) -> bool {
        self.closed.insert(number)
    }

    /// Forgets the closed incarnations below a floor, which rises.
    pub fn forget(&mut self, floor: u64) {
        let closed = &self.closed;
        self.last.retain(|lane, _| lane.of.number >= floor || !closed.contains(&lane.of.number));
        self.closed.retain(|number| *number >= floor);
        self.floor = floor;
    }

    pub fn put(&self, out: &mut Vec<u8>) {
        put_number(out, self.floor);
        put_number(out, self.closed.len() as u64);
        self.closed.iter().for_each(|number| put_number(out, *number));
        put_number(out, self.last.len() as u64);
        for (lane, last) in &self.last {
            put_bytes(out, lane.of.node.text().as_bytes());
            [lane.of.number, lane.number, last.number].iter().for_each(|number| put_number(out, *number));
            out.extend_from_slice(&last.digest);
        }
    }

    pub fn take(bytes: &mut &[u8]) -> Option<Order> {
        let mut order = Order { floor: take_number(bytes)?, ..Order::default() };
        for _ in 0..take_number(bytes)? {
            order.closed.insert(take_number(bytes)?);
        }
        for _ in 0..take_number(bytes)? {
            let node = std::str::from_utf8(take_bytes(bytes)?).ok().and_then(Name::new)?;
            let of = Incarnation { node, number: take_number(bytes)? };
            let lane = Lane { of, number: take_number(bytes)? };
            let last = Last { number: take_number(bytes)?, digest: take(bytes, 16)?.try_into().ok()? };
            order.last.insert(lane, last);
        }
        Some(order)
    }
}

#[cfg(test)]
mod tests {
    use super::*;

    fn lane(number: u64) -> Lane {
        Lane { of: Incarnation { node: Name::new("a").unwrap(), number }, number: 0 }
    }

    /// Whether a number of a lane is its next, which is played then.
    fn play(order: &mut Order, lane: &Lane, number: u64) -> Turn {
        let turn = order.turn(lane, number);
        if turn == Turn::Next {
            order.goes_on(lane, [number as u8; 16]);
        }
        turn
    }

    #[test]
    fn each_number_counts_once() {
        let mut order = Order::default();
        assert!(!order.is_known_number(7));
        let turns = [1, 1, 2, 4].map(|number| play(&mut order, &lane(7), number));
        assert_eq!(turns, [Turn::Next, Turn::Nothing, Turn::Next, Turn::Gap]);
        assert_eq!([order.close(7), order.close(7)], [true, false]);
        assert_eq!(order.turn(&lane(7), 3), Turn::Nothing);
    }

    #[test]
    fn what_is_below_the_floor_stays_closed() {
        let mut order = Order::default();
        assert_eq!([7, 8].map(|number| play(&mut order, &lane(number), 1)), [Turn::Next; 2]);
        order.close(7);
        order.forget(9);
        assert_eq!([7, 8, 6].map(|number| order.is_open(&lane(number).of)), [false, true, false]);
        assert_eq!(order.turn(&lane(7), 1), Turn::Nothing);
        assert_eq!(order.turn(&lane(8), 2), Turn::Next);
        let mut bytes = Vec::new();
        order.put(&mut bytes);
        assert_eq!(Order::take(&mut &bytes[..]), Some(order));
    }
}
