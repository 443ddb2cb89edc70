//! An entry of the log: what it follows, and a list of items.
use crate::history::Point;
use crate::sha256::{sha256, Digest};
use crate::spelling::{put_bytes, put_number, take, take_bytes, take_number};
use crate::{Machine, Name};

/// The first byte of each entry.
const FORMAT: u8 = 2;

/// As much of a digest as an entry and a lane have: two entries with one are equal, also where a node lies.
pub(crate) type Short = [u8; 16];

/// The beginning of a digest.
pub(crate) fn short(digest: &Digest) -> Short {
    let mut out = [0; 16];
    out.copy_from_slice(&digest[..16]);
    out
}

/// What an entry follows: so many entries that its node had played, and a digest of these and of the entry before it in its lane.
#[derive(Clone, PartialEq, Eq, Debug)]
pub(crate) struct Head {
    pub entries: u64,
    link: Short,
}

impl Head {
    /// The head of an entry whose node had played up to a point, after an entry of this digest in its lane, zeros for the first.
    pub fn new(played: &Point, before: &Short) -> Head {
        Head { entries: played.entries, link: short(&sha256(&[&before[..], &played.digest].concat())) }
    }
}

/// What a node asks for. All of it is played in the order of the log.
#[derive(Clone, PartialEq, Eq, Debug)]
pub enum Item<C> {
    /// A call of a thread that belongs to the node.
    Call(C),
    /// A thread of the node belongs to another node from here on.
    HandOver {
        /// The thread.
        thread: u64,
        /// Whose it is.
        to: Name,
    },
    /// These are the rules from here on, for all nodes.
    Rules(u64),
}

/// The bytes of an entry that has no item yet.
pub(crate) fn begin(head: &Head) -> Vec<u8> {
    let mut out = vec![FORMAT];
    put_number(&mut out, head.entries);
    out.extend_from_slice(&head.link);
    out
}

/// Adds an item to an entry.
pub(crate) fn add<M: Machine>(out: &mut Vec<u8>, item: &Item<M::Call>) {
    match item {
        Item::Call(call) => {
            put_number(out, 0);
            M::put_call(call, out);
        }
        Item::HandOver { thread, to } => {
            put_number(out, 1);
            put_number(out, *thread);
            put_bytes(out, to.text().as_bytes());
        }
        Item::Rules(rules) => {
            put_number(out, 2);
            put_number(out, *rules);
        }
    }
}

fn next<M: Machine>(bytes: &mut &[u8]) -> Option<Item<M::Call>> {
    match take_number(bytes)? {
        0 => M::take_call(bytes).map(Item::Call),
        1 => {
            let thread = take_number(bytes)?;
            let to = std::str::from_utf8(take_bytes(bytes)?).ok().and_then(Name::new)?;
            Some(Item::HandOver { thread, to })
        }
        2 => take_number(bytes).map(Item::Rules),
        _ => None,
    }
}

/// The head and the items of an entry. None where the bytes are no entry: then nothing of it is played, on no node.
pub(crate) fn read<M: Machine>(bytes: &[u8]) -> Option<(Head, Vec<Item<M::Call>>)> {
    let mut rest = bytes.strip_prefix(&[FORMAT])?;
    let head = Head { entries: take_number(&mut rest)?, link: take(&mut rest, 16)?.try_into().ok()? };
    let mut items = Vec::new();
    while !rest.is_empty() {
        items.push(next::<M>(&mut rest)?);
    }
    Some((head, items))
}

/// Items that were added one after another.
pub(crate) fn items<M: Machine>(mut bytes: &[u8]) -> impl Iterator<Item = Item<M::Call>> + '_ {
    std::iter::from_fn(move || next::<M>(&mut bytes))
}
