//! Which nodes have which digest of the state after so many entries.
use crate::sha256::Digest;
use crate::Name;
use std::collections::BTreeMap;

/// So many digests of each node are kept while the log is followed.
const KEPT: usize = 4;

/// The digests that nodes have put, by node and number of entries. A node that lies makes up no other node's.
#[derive(Default)]
pub(crate) struct Agreements {
    nodes: BTreeMap<Name, BTreeMap<u64, Digest>>,
}

impl Agreements {
    pub fn add(&mut self, node: Name, entries: u64, digest: Digest) {
        self.nodes.entry(node).or_default().insert(entries, digest);
    }

    /// Forgets all but the last of each node.
    pub fn forget_old(&mut self) {
        for digests in self.nodes.values_mut() {
            while digests.len() > KEPT {
                digests.pop_first();
            }
        }
    }

    /// Whether a node has this digest after so many entries.
    pub fn has(&self, node: &Name, entries: u64, digest: &Digest) -> bool {
        self.nodes.get(node).is_some_and(|digests| digests.get(&entries) == Some(digest))
    }

    /// Whether two nodes have this digest after so many entries.
    pub fn is_agreed(&self, entries: u64, digest: &Digest) -> bool {
        self.nodes.values().filter(|digests| digests.get(&entries) == Some(digest)).count() >= 2
    }

    /// A node that has another digest after so many entries.
    pub fn disputing(&self, entries: u64, digest: &Digest) -> Option<&Name> {
        let differs = |digests: &BTreeMap<u64, Digest>| digests.get(&entries).is_some_and(|other| other != digest);
        self.nodes.iter().find(|(_, digests)| differs(digests)).map(|(node, _)| node)
    }

    /// What two nodes agree on after more entries than so many, by rising number, with each of the nodes.
    pub fn above(&self, entries: u64) -> Vec<(u64, Digest, Name)> {
        let mut found = Vec::new();
        for (node, digests) in &self.nodes {
            for (at, digest) in digests.range(entries + 1..).filter(|(at, digest)| self.is_agreed(**at, digest)) {
                found.push((*at, *digest, node.clone()));
            }
        }
        found.sort();
        found
    }
}
