//! What an operator puts, whose role alone has `boot`.
use crate::engine::Pair;
use crate::kernel::with_limits;
use crate::keys::{after, end_of, Key, Keys, LogKey};
use crate::sha256::sha256;
use crate::spelling::{put_number, take_number};
use crate::state::{Beginning, Boot, MOST_BYTES};
use crate::survey::last_state;
use crate::{Fault, Machine, Name, Options};
use histar::Kernel;
use std::fmt;

/// How an exported state begins. Its rules, its threads' nodes and the kernel's text follow, and a digest of all of it.
const EXPORTED: &[u8] = b"histar-cluster 1\n";

/// The key and the value that begin a cluster of a machine, as a node that is started so begins one that has not begun. They are put once.
///
/// ```
/// use histar_cluster::{beginning, limits, Name, Options};
/// let (cluster, node) = (Name::new("files").unwrap(), Name::new("north").unwrap());
/// let limits = limits(&histar::Limits::pages(64));
/// let (key, _) = beginning::<histar::Kernel>(&Options { cluster, node, limits, lanes: 4, interval: 10_000, any: 0 });
/// assert_eq!(key, b"/files/boot");
/// ```
pub fn beginning<M: Machine>(options: &Options) -> (Key, Vec<u8>) {
    (Keys::new(options.cluster.clone()).boot(), options.boot::<M>().bytes())
}

/// Why no cluster begins at an exported state.
#[derive(Clone, PartialEq, Eq, Debug)]
pub enum Unexported {
    /// The bytes are no exported state, or not all of it, or it was changed.
    NoExport,
    /// It has more bytes than an engine takes.
    TooLong,
    /// There is no kernel in this state with these limits: they may have too few pages for it.
    NoKernel(Fault),
}

impl fmt::Display for Unexported {
    fn fmt(&self, f: &mut fmt::Formatter<'_>) -> fmt::Result {
        match self {
            Unexported::NoExport => f.write_str("this is no exported state, or it was changed"),
            Unexported::TooLong => f.write_str("the state has over 1 MiB: no cluster begins at it"),
            Unexported::NoKernel(Fault::NoCheckpoint) => f.write_str("the state needs more pages, or is of no kernel"),
            Unexported::NoKernel(fault) => write!(f, "no kernel has this state: {fault}"),
        }
    }
}

impl std::error::Error for Unexported {}

/// The state of a cluster, for [`beginning_from`]. The pairs are all its keys at one revision.
///
/// # Errors
/// Why the log can't be played.
pub fn export(cluster: &Name, pairs: &[Pair]) -> Result<Vec<u8>, Fault> {
    let (rules, beginning) = last_state(cluster, pairs)?;
    let mut out = EXPORTED.to_vec();
    put_number(&mut out, rules);
    out.extend_from_slice(&beginning.bytes());
    let digest = sha256(&out);
    out.extend_from_slice(&digest);
    Ok(out)
}

/// The keys and the values that begin a cluster at an exported state: the first has to be new, and all are put in one transaction. The boot thread
/// is the node's, each other thread belongs to the node it did. The limits may have other pages.
///
/// # Errors
/// Why none begins.
pub fn beginning_from(options: &Options, exported: &[u8]) -> Result<[(Key, Vec<u8>); 2], Unexported> {
    let (bytes, digest) = exported.split_at(exported.len().saturating_sub(32));
    let mut rest = bytes.strip_prefix(EXPORTED).filter(|_| sha256(bytes) == *digest).ok_or(Unexported::NoExport)?;
    let rules = take_number(&mut rest).ok_or(Unexported::NoExport)?;
    let mut beginning = Beginning::read(rest).ok_or(Unexported::NoExport)?;
    beginning.machine = with_limits(&beginning.machine, &options.limits).ok_or(Unexported::NoExport)?;
    let start = beginning.bytes();
    if start.len() > MOST_BYTES {
        return Err(Unexported::TooLong);
    }
    let boot = Boot { rules, from: Some(sha256(&start)), ..options.boot::<Kernel>() };
    beginning.machine::<Kernel>(&boot).map_err(Unexported::NoKernel)?;
    let keys = Keys::new(options.cluster.clone());
    Ok([(keys.boot(), boot.bytes()), (keys.start(), start)])
}

/// The key by which what stands at a place of the log is void, with all that its incarnation put after it. It has no value. A place at which each
/// node stops may be void: no node has answered by it. A node that has played it stops.
///
/// ```
/// assert_eq!(histar_cluster::void(&histar_cluster::Name::new("files").unwrap(), 300), b"/files/boot/212c");
/// ```
pub fn void(cluster: &Name, place: u64) -> Key {
    Keys::new(cluster.clone()).void(place)
}

/// The ranges of keys by which a node stands in the cluster: its fences, by which it keeps the log, how far it says that it has played, and what
/// it agrees on, of which the pairs are all that nodes do. Once they are gone, the others close its incarnations. Its entries stay, and so does where
/// one other node alone agrees with it, which a node that starts needs.
///
/// ```
/// let name = |text| histar_cluster::Name::new(text).unwrap();
/// assert_eq!(histar_cluster::retired(&name("c"), &name("n"), &[])[0], (b"/c/fence/n/".to_vec(), b"/c/fence/n0".to_vec()));
/// ```
pub fn retired(cluster: &Name, node: &Name, pairs: &[Pair]) -> Vec<(Key, Key)> {
    let keys = Keys::new(cluster.clone());
    let agreed = |pair: &Pair| match keys.read(&pair.key) {
        Some(LogKey::Agree(node, entries)) => Some((node, entries)),
        _ => None,
    };
    let with = |pair: &Pair| {
        let is_with = |it: &&Pair| it.value == pair.value && agreed(it).map(|it| it.1) == agreed(pair).map(|it| it.1);
        pairs.iter().filter(is_with).count()
    };
    let own = pairs.iter().filter(|pair| agreed(pair).is_some_and(|it| it.0 == *node));
    let goes = own.filter(|pair| with(pair) != 2).map(|pair| (pair.key.clone(), after(pair.key.clone())));
    keys.standing(node).map(|prefix| (prefix.clone(), end_of(prefix))).into_iter().chain(goes).collect()
}
