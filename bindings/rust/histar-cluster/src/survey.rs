//! What an operator and an auditor read of a cluster's keys.
use crate::agreements::Agreements;
use crate::engine::Pair;
use crate::history::Point;
use crate::keys::{end_of, Key, Keys, LogKey};
use crate::receipt::Fault;
use crate::sha256::{sha256, Digest};
use crate::state::{Beginning, Boot, State, Step};
use crate::Name;
use histar::{Keep, Kernel, Refused};
use std::collections::{BTreeMap, BTreeSet};
use std::fmt;

/// A node with a fence.
#[derive(Clone, PartialEq, Eq, Debug)]
pub struct Standing {
    /// The node.
    pub node: Name,
    /// Its incarnation.
    pub incarnation: u64,
    /// So many entries it had played when it last said so.
    pub played: u64,
}

/// What nodes say of one number of entries.
#[derive(Clone, PartialEq, Eq, Debug)]
pub struct Opinion {
    /// The number of entries.
    pub entries: u64,
    /// The nodes.
    pub nodes: Vec<Name>,
}

/// A cluster, as its keys tell it.
#[derive(Clone, PartialEq, Eq, Debug)]
pub struct Survey {
    /// The number of the rules that the cluster began with; none where it has not begun.
    pub rules: Option<u64>,
    /// The node that the boot thread belonged to.
    pub first: Option<Name>,
    /// The nodes with a fence, by name.
    pub standing: Vec<Standing>,
    /// The entries of each node that are in the log.
    pub entries: BTreeMap<Name, u64>,
    /// The most entries that a node has played.
    pub played: u64,
    /// The greatest number of entries after which two nodes agree.
    pub agreed: Option<Opinion>,
    /// The greatest number of entries after which nodes differ.
    pub disputed: Option<Opinion>,
    /// After how many entries checkpoints are there.
    pub checkpoints: Vec<u64>,
    /// The places that are void.
    pub voids: Vec<u64>,
}

impl Survey {
    /// Reads the keys of a cluster, at one revision: all, or those of [`surveyed`] with the names of the [`checkpoints`]; then
    /// the [`entries`] of each node are counted apart.
    pub fn of(cluster: &Name, pairs: &[Pair]) -> Survey {
        let keys = Keys::new(cluster.clone());
        let boot = begun(&keys, pairs).ok();
        let mut survey = Survey {
            rules: boot.as_ref().map(|boot| boot.rules),
            first: boot.map(|boot| boot.first),
            standing: Vec::new(),
            entries: BTreeMap::new(),
            played: 0,
            agreed: None,
            disputed: None,
            checkpoints: Vec::new(),
            voids: Vec::new(),
        };
        let mut said: Said<'_> = BTreeMap::new();
        for pair in pairs {
            if let Some(entries) = keys.read_state(&pair.key) {
                survey.checkpoints.push(entries);
            } else if let Some(place) = keys.read_void(&pair.key) {
                survey.voids.push(place);
            } else if let Some(node) = keys.read_fence(&pair.key) {
                survey.standing.push(Standing { node, incarnation: pair.created, played: 0 });
            } else if let Some(key) = keys.read(&pair.key) {
                survey.takes(key, pair, &mut said);
            }
        }
        survey.concludes(said);
        survey
    }

    /// Takes a key of the log.
    fn takes<'p>(&mut self, key: LogKey, pair: &'p Pair, said: &mut Said<'p>) {
        match key {
            LogKey::Entry(lane, _) => *self.entries.entry(lane.of.node).or_insert(0) += 1,
            LogKey::Agree(node, entries) => said.entry((entries, true)).or_default().push((node, &pair.value)),
            LogKey::Seen(node) => {
                let Some(point) = Point::read(&pair.value) else { return };
                said.entry((point.entries, false)).or_default().push((node.clone(), &pair.value));
                self.played = self.played.max(point.entries);
                for it in self.standing.iter_mut().filter(|it| it.node == node) {
                    it.played = point.entries;
                }
                self.entries.entry(node).or_insert(0);
            }
            LogKey::Close(..) => {}
        }
    }

    fn concludes(&mut self, said: Said<'_>) {
        for ((entries, _), found) in said {
            let nodes: Vec<Name> = found.iter().map(|(node, _)| node.clone()).collect();
            let opinion = Opinion { entries, nodes };
            match found.iter().all(|(_, value)| *value == found[0].1) {
                false => self.disputed = Some(opinion),
                true if found.len() >= 2 => self.agreed = Some(opinion),
                true => {}
            }
        }
    }
}

/// What nodes have put of so many entries: digests of states, and points.
type Said<'p> = BTreeMap<(u64, bool), Vec<(Name, &'p [u8])>>;

/// What a cluster was begun with.
fn begun(keys: &Keys, pairs: &[Pair]) -> Result<Boot, Fault> {
    let boot = pairs.iter().find(|pair| pair.key == keys.boot()).ok_or(Fault::OtherBoot)?;
    Boot::read(&boot.value)
}

/// Names with commas.
fn listed(nodes: &[Name]) -> String {
    nodes.iter().map(Name::to_string).collect::<Vec<_>>().join(", ")
}

/// A line a node, and some of the whole.
impl fmt::Display for Survey {
    fn fmt(&self, f: &mut fmt::Formatter<'_>) -> fmt::Result {
        let Some(rules) = self.rules else { return writeln!(f, "the cluster has not begun") };
        for it in &self.standing {
            let entries = self.entries.get(&it.node).copied().unwrap_or(0);
            let behind = self.played - it.played;
            writeln!(
                f,
                "node {} incarnation {} played {} behind {behind}, {entries} of its entries in the log",
                it.node, it.incarnation, it.played
            )?;
        }
        for (node, entries) in self.entries.iter().filter(|(node, _)| !self.standing.iter().any(|it| it.node == **node))
        {
            writeln!(f, "node {node} has no fence, {entries} of its entries in the log")?;
        }
        let checkpoint =
            self.checkpoints.iter().max().map_or("no checkpoint".into(), |it| format!("a checkpoint after {it}"));
        let entries: u64 = self.entries.values().sum();
        writeln!(f, "log of {entries} entries, {checkpoint}, begun with rules {rules}")?;
        match (&self.disputed, &self.agreed) {
            (Some(it), _) => writeln!(f, "NODES DIFFER after {} entries: {}", it.entries, listed(&it.nodes)),
            (None, Some(it)) => writeln!(f, "nodes agree after {} entries: {}", it.entries, listed(&it.nodes)),
            (None, None) => writeln!(f, "no two nodes agree yet"),
        }
    }
}

/// The range of all keys of a cluster: the first, and the end.
///
/// ```
/// use histar_cluster::{range, Name};
/// assert_eq!(range(&Name::new("c").unwrap()), (b"/c/".to_vec(), b"/c0".to_vec()));
/// ```
pub fn range(cluster: &Name) -> (Vec<u8>, Vec<u8>) {
    (format!("/{cluster}/").into_bytes(), format!("/{cluster}0").into_bytes())
}

/// The ranges of keys whose values a survey looks at: none has a call or a state.
///
/// ```
/// let ranges = histar_cluster::surveyed(&histar_cluster::Name::new("c").unwrap());
/// assert_eq!(ranges[0], (b"/c/boot".to_vec(), b"/c/fence0".to_vec()));
/// ```
pub fn surveyed(cluster: &Name) -> [(Key, Key); 3] {
    let keys = Keys::new(cluster.clone());
    let all = |prefix: Key| (prefix.clone(), end_of(prefix));
    [keys.begun(), all(keys.agreements()), all(keys.all_seen())]
}

/// The range of the entries of a node, which have calls.
///
/// ```
/// let name = |text| histar_cluster::Name::new(text).unwrap();
/// assert_eq!(histar_cluster::entries(&name("c"), &name("n")).0, b"/c/log/e/n/");
/// ```
pub fn entries(cluster: &Name, node: &Name) -> (Key, Key) {
    let prefix = Keys::new(cluster.clone()).entries_of(node);
    (prefix.clone(), end_of(prefix))
}

/// The range of the checkpoints, which are states.
///
/// ```
/// assert_eq!(histar_cluster::checkpoints(&histar_cluster::Name::new("c").unwrap()).0, b"/c/state/");
/// ```
pub fn checkpoints(cluster: &Name) -> (Key, Key) {
    let prefix = Keys::new(cluster.clone()).states();
    (prefix.clone(), end_of(prefix))
}

/// The keys of a cluster, as they are played again.
struct Log<'p> {
    keys: Keys,
    boot: Boot,
    voids: BTreeSet<u64>,
    // By rising place.
    pairs: Vec<&'p Pair>,
    // After how many entries two nodes agree, by rising number.
    agreed: Vec<(u64, Digest, Name)>,
}

/// The number of entries and the bytes of a checkpoint; none for the boot.
type Start<'p> = Option<(u64, &'p [u8])>;

impl<'p> Log<'p> {
    fn new(cluster: &Name, pairs: &'p [Pair]) -> Result<Log<'p>, Fault> {
        let keys = Keys::new(cluster.clone());
        let boot = begun(&keys, pairs)?;
        let voids = pairs.iter().filter_map(|pair| keys.read_void(&pair.key)).collect();
        let mut agreements = Agreements::default();
        for pair in pairs {
            if let (Some(LogKey::Agree(node, entries)), Ok(digest)) = (keys.read(&pair.key), pair.value[..].try_into())
            {
                agreements.add(node, entries, digest);
            }
        }
        let mut pairs: Vec<&Pair> = pairs.iter().collect();
        pairs.sort_by_key(|pair| (pair.created, &pair.key));
        Ok(Log { keys, boot, voids, pairs, agreed: agreements.above(0) })
    }

    /// Where a replay may begin, the first place first.
    fn starts(&self) -> Vec<Start<'p>> {
        let checkpoints = self.agreed.iter().filter_map(|(entries, digest, node)| {
            let key = self.keys.state(node, *entries);
            let found = self.pairs.iter().find(|pair| pair.key == key && sha256(&pair.value) == *digest)?;
            Some((*entries, &found.value[..]))
        });
        std::iter::once(None).chain(checkpoints.map(Some)).collect()
    }

    fn state(&self, start: Start<'_>) -> Result<State<Kernel>, Fault> {
        let beginning = self.pairs.iter().find(|pair| pair.key == self.keys.start()).map(|pair| &pair.value[..]);
        let state = State::new(self.keys.clone(), self.boot.clone(), self.voids.clone(), beginning)?;
        match start {
            None => Ok(state),
            Some((entries, bytes)) => state.restore(entries, bytes),
        }
    }

    /// Plays what comes after a state. The digests of the marks, by the numbers of entries.
    fn play(&self, state: &mut State<Kernel>) -> Result<Vec<(u64, Digest)>, Fault> {
        let place = state.point().place;
        let mut marks = Vec::new();
        for pair in self.pairs.iter().filter(|pair| pair.created >= place) {
            let writer = match state.play(pair.created, &pair.key, &pair.value)? {
                Step::Entry { lane, .. } => lane.of.node,
                Step::Closed { by } => by,
                _ => continue,
            };
            if let Some(Ok(mark)) = state.mark(&writer) {
                marks.push((mark.entries, mark.digest));
            }
        }
        Ok(marks)
    }

    /// Whether what is left of the log after a start leads to the last state that two nodes agree on.
    fn check(&self, start: Start<'_>) -> Result<(), Fault> {
        let marks = self.play(&mut self.state(start)?)?;
        let begins_at = |entries| start.is_some_and(|(start, _)| start == entries);
        match self.agreed.last() {
            Some((entries, digest, _)) if !begins_at(*entries) && !marks.contains(&(*entries, *digest)) => {
                Err(Fault::NoCheckpoint)
            }
            _ => Ok(()),
        }
    }

    /// The dump of a kernel that plays what comes after a start.
    fn dump(&self, start: Start<'_>) -> Result<String, Fault> {
        let no_machine = |refused: Refused| Fault::NoMachine(refused.to_string());
        let mut state = self.state(start)?;
        state.machine.log_on(u64::MAX, Keep::Writes).map_err(no_machine)?;
        self.play(&mut state)?; // (a kernel with a log writes another text, so its marks tell nothing)
        state.machine.dump().map_err(no_machine)
    }
}

/// Does something from where a log is whole: from its beginning, or from the first checkpoint from which on it is.
fn from_whole<T>(log: &Log<'_>, act: impl Fn(Start<'_>) -> Result<T, Fault>) -> Result<T, Fault> {
    let mut why = Fault::NoCheckpoint;
    for start in log.starts() {
        match log.check(start) {
            Ok(()) => return act(start),
            Err(fault) => why = fault,
        }
    }
    Err(why)
}

/// The dump of a kernel that plays the log, for `histar-audit`: the whole of it, or what comes after the first checkpoint from which on it is
/// whole. The pairs are all keys of the cluster at one revision.
///
/// # Errors
/// Why the log can't be played.
pub fn audit(cluster: &Name, pairs: &[Pair]) -> Result<String, Fault> {
    let log = Log::new(cluster, pairs)?;
    from_whole(&log, |start| log.dump(start))
}

/// The state that the log leads to, with its rules.
pub(crate) fn last_state(cluster: &Name, pairs: &[Pair]) -> Result<(u64, Beginning), Fault> {
    let log = Log::new(cluster, pairs)?;
    from_whole(&log, |start| {
        let mut state = log.state(start)?;
        log.play(&mut state)?;
        Ok((state.rules(), state.beginning()?))
    })
}
