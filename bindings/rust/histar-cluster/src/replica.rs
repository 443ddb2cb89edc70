//! Machines of readers, which play what their node's machine has played.
use crate::entry::{self, Item};
use crate::state::restored;
use crate::{Fault, Machine};
use std::marker::PhantomData;
use std::sync::{Arc, OnceLock};

/// A list of more bytes ends, and whoever is at its end begins anew: so a reader that does not read keeps no more.
const MOST: usize = 8 << 20;

/// So many bytes a place takes beside its items.
const PLACE: usize = 96;

/// A place in a list. What comes after it is told once: the items of an entry that were played, with the next place, or the list's end.
#[derive(Default)]
struct Place(OnceLock<Option<(Vec<u8>, Arc<Place>)>>);

/// (Each place is dropped before the next, however long the list is.)
impl Drop for Place {
    fn drop(&mut self) {
        let mut next = self.0.take();
        while let Some(Some((_, place))) = next {
            next = Arc::into_inner(place).and_then(|mut place| place.0.take());
        }
    }
}

/// What a machine has played, as far as a reader still has to play it. The list ends with the machine.
#[derive(Default)]
pub(crate) struct Played {
    last: Arc<Place>,
    bytes: usize,
}

impl Drop for Played {
    fn drop(&mut self) {
        let _ = self.last.0.set(None); // (nothing comes after the last)
    }
}

impl Played {
    /// Whether somebody reads.
    pub fn is_read(&self) -> bool {
        Arc::strong_count(&self.last) > 1
    }

    /// Adds the items of an entry, which the machine has played.
    pub fn add(&mut self, items: Vec<u8>) {
        self.bytes = if self.is_read() { self.bytes + items.len() + PLACE } else { 0 };
        if self.bytes > MOST {
            *self = Played::default();
        } else if !items.is_empty() {
            let next = Arc::new(Place::default());
            let _ = self.last.0.set(Some((items, next.clone())));
            self.last = next;
        }
    }

    pub fn start<M>(&self, limits: &[u8], rules: u64, state: Vec<u8>) -> Start<M> {
        Start { limits: limits.to_vec(), rules, state, place: self.last.clone(), machine: PhantomData }
    }
}

/// What a replica begins at.
pub struct Start<M> {
    limits: Vec<u8>,
    rules: u64,
    state: Vec<u8>,
    place: Arc<Place>,
    machine: PhantomData<fn() -> M>,
}

impl<M: Machine> Start<M> {
    /// The replica that begins here.
    ///
    /// # Errors
    /// Why there is no machine, as for want of memory.
    pub fn open(self) -> Result<Replica<M>, Fault> {
        let machine = restored(&self.limits, self.rules, &self.state)?;
        Ok(Replica { machine, place: self.place })
    }
}

/// A machine beside that of a node, for a thread that reads. It takes what a machine takes, and waits for nobody.
pub struct Replica<M> {
    machine: M,
    place: Arc<Place>,
}

impl<M: Machine> Replica<M> {
    /// A view of the machine, once it has played all that the node's has. None where the node's is another one by now or is no more, or has
    /// played too much since: then a replica has to begin anew.
    #[inline]
    pub fn view(&mut self) -> Option<M::View<'_>> {
        if self.place.0.get().is_some() && !self.catch_up() {
            return None;
        }
        Some(self.machine.view())
    }

    /// Plays all that the node's machine has. False where it can't.
    #[cold]
    fn catch_up(&mut self) -> bool {
        while let Some(next) = self.place.0.get() {
            let Some((items, place)) = next else { return false };
            let place = place.clone();
            entry::items::<M>(items).for_each(|item| play(&mut self.machine, item));
            self.place = place;
        }
        true
    }
}

/// Plays an item that a node has played.
fn play<M: Machine>(machine: &mut M, item: Item<M::Call>) {
    match item {
        Item::Call(call) => drop(machine.play(&call)),
        Item::Rules(rules) => assert!(machine.set_rules(rules), "the node's machine knows them"),
        Item::HandOver { .. } => {}
    }
}

#[cfg(test)]
mod tests {
    use super::*;
    use histar::Kernel;

    fn begin(played: &Played) -> Arc<Place> {
        played.start::<Kernel>(&[], 1, Vec::new()).place
    }

    /// How many places come after one, and whether the list has ended.
    fn rest(mut place: &Place) -> (usize, bool) {
        let mut count = 0;
        while let Some(Some((_, next))) = place.0.get() {
            (place, count) = (next, count + 1);
        }
        (count, place.0.get().is_some())
    }

    #[test]
    fn a_list_is_kept_for_readers_up_to_a_bound() {
        let mut played = Played::default();
        played.add(vec![0; 2 * MOST]);
        let first = begin(&played);
        (0..10).for_each(|_| played.add(vec![0; 8]));
        let second = begin(&played);
        assert_eq!([rest(&first), rest(&second)], [(10, false), (0, false)]);
        played.add(vec![0; MOST]);
        assert_eq!([rest(&first), rest(&second)], [(10, true), (0, true)]);
        assert!(!played.is_read());
        let third = begin(&played);
        drop(played);
        assert_eq!(rest(&third), (0, true));
    }

    #[test]
    fn a_long_list_is_dropped() {
        let mut played = Played::default();
        let first = begin(&played);
        let count = MOST / (PLACE + 1) - 1;
        (0..count).for_each(|_| played.add(vec![0]));
        assert_eq!(rest(&first), (count, false));
        drop(first);
        assert!(!played.is_read());
    }
}
