//! The keys of a cluster in the engine, all under `/CLUSTER/`.
//!
//! | Key | Value | Put by |
//! |---|---|---|
//! | `boot` | what each node boots with | who begins the cluster |
//! | `boot/PLACE` | nothing | an operator: what stands at that place is void |
//! | `fence/NODE/ANY` | the place up to which the node has played | a node that writes, with its lease; its creation is the incarnation |
//! | `log/a/NODE/ENTRIES` | the digest of the state after so many entries | each node: it agrees |
//! | `log/c/NODE/INCARNATION` | nothing | any node: the incarnation is closed |
//! | `log/e/NODE/INCARNATION.LANE/NUMBER` | an entry | its node |
//! | `log/s/NODE/` | the point up to which the node has played | each node |
//! | `start` | the state of another cluster, at which this one begins | an operator, with `boot` |
//! | `state/NODE/ENTRIES` | a checkpoint | the node of the last of these entries |
//!
//! A node puts under its own name alone, so a role of the engine can hold it to that. Under `boot` it puts nothing once the cluster has begun.
use crate::spelling::{number_of, spelled};
use std::fmt;
use std::sync::Arc;

/// The name of a cluster or of a node: 1 to 32 of `a` to `z`, `0` to `9` and `-`.
#[derive(Clone, PartialEq, Eq, PartialOrd, Ord, Hash)]
pub struct Name(Arc<str>);

impl Name {
    /// A name, or none where the text is no name.
    ///
    /// ```
    /// use histar_cluster::Name;
    /// assert_eq!(Name::new("north-1").map(|it| it.to_string()), Some("north-1".to_string()));
    /// assert_eq!((Name::new(""), Name::new("a/b")), (None, None));
    /// ```
    pub fn new(text: &str) -> Option<Name> {
        let is_fit = |byte: u8| byte.is_ascii_lowercase() || byte.is_ascii_digit() || byte == b'-';
        ((1..=32).contains(&text.len()) && text.bytes().all(is_fit)).then(|| Name(text.into()))
    }

    /// Its text.
    pub(crate) fn text(&self) -> &str {
        &self.0
    }
}

impl fmt::Display for Name {
    fn fmt(&self, f: &mut fmt::Formatter<'_>) -> fmt::Result {
        f.write_str(&self.0)
    }
}

impl fmt::Debug for Name {
    fn fmt(&self, f: &mut fmt::Formatter<'_>) -> fmt::Result {
        f.write_str(&self.0)
    }
}

/// A node from one registration to its closing. The number is never given twice.
#[derive(Clone, PartialEq, Eq, PartialOrd, Ord, Debug)]
pub struct Incarnation {
    /// The node.
    pub node: Name,
    /// The revision at which its fence was created.
    pub number: u64,
}

/// A lane of an incarnation. Its entries are numbered from 1, and it has one entry on its way at a time.
#[derive(Clone, PartialEq, Eq, PartialOrd, Ord, Debug)]
pub struct Lane {
    /// Whose lane it is.
    pub of: Incarnation,
    /// Its number.
    pub number: u64,
}

/// What a key of the log stands for.
#[derive(PartialEq, Eq, Debug)]
pub(crate) enum LogKey {
    /// The entry of a number in a lane.
    Entry(Lane, u64),
    /// The closing of an incarnation by a node.
    Close(Name, u64),
    /// A node's digest after so many entries.
    Agree(Name, u64),
    /// The point up to which a node has played.
    Seen(Name),
}

/// A key, or an end of a range of keys.
pub type Key = Vec<u8>;

/// The keys of a cluster.
#[derive(Clone)]
pub(crate) struct Keys {
    cluster: Name,
}

/// The end of the range of all keys that begin so.
pub(crate) fn end_of(mut prefix: Key) -> Key {
    if let Some(last) = prefix.last_mut() {
        *last += 1;
    }
    prefix
}

/// The least key above a key.
pub(crate) fn after(mut key: Key) -> Key {
    key.push(0);
    key
}

impl Keys {
    pub fn new(cluster: Name) -> Keys {
        Keys { cluster }
    }

    fn key(&self, rest: fmt::Arguments<'_>) -> Key {
        format!("/{}/{rest}", self.cluster).into_bytes()
    }

    pub fn boot(&self) -> Key {
        self.key(format_args!("boot"))
    }

    pub fn start(&self) -> Key {
        self.key(format_args!("start"))
    }

    pub fn void(&self, place: u64) -> Key {
        self.key(format_args!("boot/{}", spelled(place)))
    }

    /// The range of what the cluster began with, of what is void, and of the fences.
    pub fn begun(&self) -> (Key, Key) {
        (self.boot(), end_of(self.fences()))
    }

    pub fn fences(&self) -> Key {
        self.key(format_args!("fence/"))
    }

    pub fn fence(&self, node: &Name, any: u64) -> Key {
        self.key(format_args!("fence/{node}/{any:x}"))
    }

    pub fn log(&self) -> Key {
        self.key(format_args!("log/"))
    }

    pub fn agreements(&self) -> Key {
        self.key(format_args!("log/a/"))
    }

    pub fn agreement(&self, node: &Name, entries: u64) -> Key {
        self.key(format_args!("log/a/{node}/{}", spelled(entries)))
    }

    pub fn all_seen(&self) -> Key {
        self.key(format_args!("log/s/"))
    }

    pub fn entries_of(&self, node: &Name) -> Key {
        self.key(format_args!("log/e/{node}/"))
    }

    pub fn states(&self) -> Key {
        self.key(format_args!("state/"))
    }

    /// The beginnings of what keeps a node in the cluster: its fences, and how far it has played.
    pub fn standing(&self, node: &Name) -> [Key; 2] {
        ["fence", "log/s"].map(|kind| self.key(format_args!("{kind}/{node}/")))
    }

    pub fn seen(&self, node: &Name) -> Key {
        self.key(format_args!("log/s/{node}/"))
    }

    pub fn close(&self, node: &Name, incarnation: u64) -> Key {
        self.key(format_args!("log/c/{node}/{}", spelled(incarnation)))
    }

    pub fn entry(&self, lane: &Lane, number: u64) -> Key {
        let Incarnation { node, number: incarnation } = &lane.of;
        self.key(format_args!("log/e/{node}/{}.{}/{}", spelled(*incarnation), spelled(lane.number), spelled(number)))
    }

    pub fn state(&self, node: &Name, entries: u64) -> Key {
        self.key(format_args!("state/{node}/{}", spelled(entries)))
    }

    /// The beginnings of all keys that a node puts and drops.
    pub fn of_node(&self, node: &Name) -> [Key; 4] {
        ["log/a", "log/c", "log/e", "state"].map(|kind| self.key(format_args!("{kind}/{node}/")))
    }

    /// The rest of a key that begins so.
    fn rest<'k>(&self, key: &'k [u8], kind: &str) -> Option<&'k str> {
        let text = std::str::from_utf8(key).ok()?;
        text.strip_prefix('/')?
            .strip_prefix(self.cluster.text())?
            .strip_prefix('/')?
            .strip_prefix(kind)?
            .strip_prefix('/')
    }

    /// The node of a fence.
    pub fn read_fence(&self, key: &[u8]) -> Option<Name> {
        Name::new(self.rest(key, "fence")?.split_once('/')?.0)
    }

    /// The place that is void.
    pub fn read_void(&self, key: &[u8]) -> Option<u64> {
        number_of(self.rest(key, "boot")?)
    }

    /// The number of entries of a checkpoint.
    pub fn read_state(&self, key: &[u8]) -> Option<u64> {
        number_of(self.rest(key, "state")?.split_once('/')?.1)
    }

    /// What a key of the log stands for. None where no node puts such a key.
    pub fn read(&self, key: &[u8]) -> Option<LogKey> {
        let (kind, rest) = self.rest(key, "log")?.split_once('/')?;
        let (node, rest) = rest.split_once('/')?;
        let node = Name::new(node)?;
        match kind {
            "a" => Some(LogKey::Agree(node, number_of(rest)?)),
            "c" => Some(LogKey::Close(node, number_of(rest)?)),
            "s" => rest.is_empty().then_some(LogKey::Seen(node)),
            "e" => {
                let (lane, number) = rest.split_once('/')?;
                let (incarnation, lane) = lane.split_once('.')?;
                let of = Incarnation { node, number: number_of(incarnation)? };
                Some(LogKey::Entry(Lane { of, number: number_of(lane)? }, number_of(number)?))
            }
            _ => None,
        }
    }
}

#[cfg(test)]
mod tests {
    use super::*;

    #[test]
    fn a_key_is_read_as_it_was_spelled() {
        let name = |text| Name::new(text).unwrap();
        let keys = Keys::new(name("c"));
        let lane = Lane { of: Incarnation { node: name("a-1"), number: 300 }, number: 2 };
        assert_eq!(keys.entry(&lane, 17), b"/c/log/e/a-1/212c.02/111".to_vec());
        assert_eq!(keys.read(&keys.entry(&lane, 17)), Some(LogKey::Entry(lane, 17)));
        assert_eq!(keys.read(&keys.close(&name("b"), 5)), Some(LogKey::Close(name("b"), 5)));
        assert_eq!(keys.read(&keys.seen(&name("b"))), Some(LogKey::Seen(name("b"))));
        assert_eq!([keys.void(5), keys.boot()].map(|key| keys.read_void(&key)), [Some(5), None]);
        assert_eq!(keys.read(&keys.agreement(&name("b"), 5)), Some(LogKey::Agree(name("b"), 5)));
        let others = ["/d/log/c/b/05", "/c/log/c/B/05", "/c/log/c/b/5", "/c/log/e/b/05.02", "/c/log/x/b/05", "/c/boot"];
        for wrong in others.into_iter().chain(["/c/log/s/b", "/c/log/s/b/05"]) {
            assert_eq!(keys.read(wrong.as_bytes()), None, "{wrong}");
        }
    }
}
