//! Reading ranges of keys, all at one revision.
use super::{Node, Purpose};
use crate::engine::{Pair, Request};
use crate::keys::{after, Key};
use crate::sha256::Digest;
use crate::Machine;
use std::collections::{BTreeSet, VecDeque};

/// After how many entries nodes agree: the newest number, and those whose checkpoints were not tried yet, by rising number.
pub(super) struct Agreed {
    pub newest: Option<(u64, Digest)>,
    pub others: Vec<(u64, Digest, Key)>,
}

/// What is done with keys once all of them are read.
pub(super) enum Then {
    /// What the cluster was begun with.
    Boot,
    /// The state that it begins at, where that is another cluster's; with what it was begun with, and what is void.
    Start { begun: Pair, voids: BTreeSet<u64> },
    /// On which states nodes agree.
    Agreements,
    /// A checkpoint after so many entries, of this digest. The others are tried where it is none.
    Checkpoint { entries: u64, digest: Digest, agreed: Agreed },
    /// What is left of the log, which has to lead to this digest after so many entries.
    Log { wanted: Option<(u64, Digest)> },
    /// What the cluster was begun with, and the fences, which are looked at after these incarnations were known.
    Begun(BTreeSet<u64>),
    /// A checkpoint that was put after so many entries, before the log is dropped up to it.
    Stored(u64),
    /// The node's own keys, which are dropped up to a place.
    Own(u64),
}

/// Ranges that are read.
pub(super) struct Pages {
    ranges: VecDeque<(Key, Key)>,
    pub at: u64,
    found: Vec<Pair>,
    pub then: Then,
}

impl Pages {
    /// Whether it is read again anyway.
    pub fn is_now_and_then(&self) -> bool {
        matches!(self.then, Then::Begun(_) | Then::Stored(_) | Then::Own(_))
    }
}

impl<M: Machine> Node<M> {
    /// Reads ranges of keys at a revision, 0 for the last one.
    pub(super) fn read_ranges(&mut self, ranges: impl IntoIterator<Item = (Key, Key)>, at: u64, then: Then) {
        let pages = Pages { ranges: ranges.into_iter().collect(), at, found: Vec::new(), then };
        self.read_on(pages);
    }

    /// Reads one key.
    pub(super) fn read_key(&mut self, key: Key, at: u64, then: Then) {
        self.read_ranges([(key.clone(), after(key))], at, then);
    }

    fn read_on(&mut self, mut pages: Pages) {
        match pages.ranges.pop_front() {
            Some((from, to)) => {
                let request = Request::Page { from: from.clone(), to: to.clone(), at: pages.at };
                pages.ranges.push_front((from, to));
                self.ask(Purpose::Pages(pages), request);
            }
            None => self.is_read(pages.then, pages.at, pages.found),
        }
    }

    pub(super) fn paged(&mut self, mut pages: Pages, revision: u64, pairs: Vec<Pair>, is_more: bool) {
        if pages.at == 0 {
            pages.at = revision;
        }
        if let Some((_, to)) = pages.ranges.pop_front() {
            if let Some(last) = pairs.last().filter(|_| is_more) {
                pages.ranges.push_front((after(last.key.clone()), to));
            }
        }
        pages.found.extend(pairs);
        self.read_on(pages);
    }

    fn is_read(&mut self, then: Then, at: u64, found: Vec<Pair>) {
        match then {
            Then::Boot => self.boots(&found),
            Then::Start { begun, voids } => self.begins(begun, voids, found.first().map(|pair| &pair.value[..])),
            Then::Agreements => self.find_checkpoint(at, found),
            Then::Checkpoint { entries, digest, agreed } => self.begin_at(at, entries, digest, found, agreed),
            Then::Log { wanted } => self.play_pages(at, found, wanted),
            Then::Begun(open) => self.begun_seen(&open, &found),
            Then::Stored(entries) => self.is_stored(entries, &found),
            Then::Own(place) => self.drop_own(place, &found),
        }
    }

    /// What was to be read is forgotten at that revision: it is read anew.
    pub(super) fn forgotten(&mut self, pages: &Pages) {
        match pages.then {
            Then::Boot | Then::Start { .. } => self.look_at_boot(),
            Then::Agreements | Then::Checkpoint { .. } | Then::Log { .. } => self.load(),
            Then::Begun(_) | Then::Stored(_) | Then::Own(_) => {}
        }
    }
}
