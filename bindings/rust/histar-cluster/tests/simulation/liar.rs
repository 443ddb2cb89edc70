//! A node that lies: it puts, deletes and overwrites any key of its role, at any moment, in any transaction.
use crate::player::Player;
use crate::world::Random;
use histar_cluster::memory::Store;
use std::collections::BTreeMap;

/// Calls with such numbers are made by a node that lies.
pub const LIES: u64 = 1 << 40;

/// The lanes of the incarnation that it made up, each with its last number and the digest of its last entry.
#[derive(Default)]
pub struct Liar {
    /// It changes nothing that it has put, and each of its entries follows: so it stops nobody.
    pub is_mild: bool,
    lanes: BTreeMap<(u64, u64), (u64, [u8; 16])>,
    calls: u64,
}

/// What an honest node has played: what a lie has to fit.
pub struct Played {
    pub entries: u64,
    pub digest: [u8; 32],
}

/// What becomes of a key.
pub type Change = (Vec<u8>, Option<Vec<u8>>);

/// A number as keys spell it.
pub fn spelled(number: u64) -> String {
    let digits = format!("{number:x}");
    format!("{:x}{digits}", digits.len() - 1)
}

/// Adds a number as values spell it.
pub fn put_number(out: &mut Vec<u8>, mut number: u64) {
    while number >= 128 {
        out.push(number as u8 | 128);
        number >>= 7;
    }
    out.push(number as u8);
}

fn short(bytes: &[u8]) -> [u8; 16] {
    crate::digest(bytes)[..16].try_into().expect("16 bytes")
}

/// The bytes of an entry that follows what was played and an entry of this digest.
pub fn entry(played: &Played, before: &[u8; 16], items: &[u8]) -> Vec<u8> {
    let mut out = vec![2];
    put_number(&mut out, played.entries);
    out.extend_from_slice(&short(&[&before[..], &played.digest].concat()));
    out.extend_from_slice(items);
    out
}

fn key(of: &str, rest: &str) -> Vec<u8> {
    format!("/sim/{of}/evil/{rest}").into_bytes()
}

impl Liar {
    pub fn new(is_mild: bool) -> Liar {
        Liar { is_mild, ..Liar::default() }
    }

    /// An item: a call of the thread, nothing that can be read, or rules that nobody knows.
    fn item<P: Player>(&mut self, random: &mut Random, thread: u64) -> Vec<u8> {
        self.calls += 1;
        let mut out = Vec::new();
        match random.below(400) {
            0 if !self.is_mild => out.extend_from_slice(&[2, 99]),
            1..=40 => out.extend_from_slice(b"\0???"),
            _ => {
                out.push(0);
                P::put_call(&P::call(thread, LIES + self.calls, random.below(2)), &mut out);
            }
        }
        out
    }

    /// The next entry of a lane of a new or an older incarnation; sometimes one that is not its next, or that follows nothing.
    fn next<P: Player>(&mut self, random: &mut Random, thread: u64, played: &Played, place: u64) -> Change {
        let new = (place.max(1), 0);
        let known = self.lanes.len() as u64;
        let lane = match random.below(4) {
            0 => new,
            1 if known > 0 => {
                let (incarnation, lane) = *self.lanes.keys().last().expect("a lane");
                (incarnation, lane + 1)
            }
            _ => self.lanes.keys().nth(random.below(known.max(1)) as usize).copied().unwrap_or(new),
        };
        let (last, before) = self.lanes.get(&lane).copied().unwrap_or_default();
        let number = last + 1 + u64::from(!self.is_mild && random.below(400) == 0);
        let mut value = entry(played, &before, &self.item::<P>(random, thread));
        if !self.is_mild && random.below(400) == 0 {
            value[2] ^= 1;
        }
        self.lanes.insert(lane, (number, short(&value)));
        (key("log/e", &format!("{}.{}/{}", spelled(lane.0), spelled(lane.1), spelled(number))), Some(value))
    }

    /// The entry of a new incarnation, with a call that shows in each reply after it.
    pub fn call<P: Player>(&mut self, thread: u64, played: &Played, place: u64) -> Change {
        self.calls += 1;
        let mut item = vec![0];
        P::put_call(&P::call(thread, LIES + self.calls, 0), &mut item);
        (key("log/e", &format!("{}.00/01", spelled(place))), Some(entry(played, &[0; 16], &item)))
    }

    /// One change, of many kinds.
    fn change<P: Player>(&mut self, random: &mut Random, thread: u64, played: &Played, store: &Store) -> Change {
        let own = |of: &str| store.range(&key(of, ""), &key(of, "~"), store.revision);
        let all = |of: &str| {
            let (from, to) = (format!("/sim/{of}/"), format!("/sim/{of}/~"));
            store.range(from.as_bytes(), to.as_bytes(), store.revision)
        };
        let entries = own("log/e");
        let some = random.below(entries.len().max(1) as u64) as usize;
        match random.below(16) {
            0..=5 => {}
            6..=10 | 12 | 14 if self.is_mild => {}
            // (mostly the last of a lane)
            6..=8 => {
                if let Some(pair) = entries.get(some).or(entries.last()) {
                    let last = entries.iter().rfind(|it| it.key[..it.key.len() - 2] == pair.key[..pair.key.len() - 2]);
                    return (last.unwrap_or(pair).key.clone(), None);
                }
            }
            9 | 10 => {
                if let Some(pair) = entries.get(some) {
                    return (pair.key.clone(), Some(entry(played, &[0; 16], &self.item::<P>(random, thread))));
                }
            }
            11 => {
                let fences = all("fence");
                if !fences.is_empty() {
                    let of = fences[random.below(fences.len() as u64) as usize].created;
                    return (key("log/c", &spelled(of)), Some(Vec::new()));
                }
            }
            12 => {
                if let Some(pair) = own("log/c").last() {
                    return (pair.key.clone(), None);
                }
            }
            // (what an honest node has put, as its own)
            13 => {
                let found = all(["log/a", "state", "log/s"][random.below(3) as usize]);
                if let Some(pair) = found.last() {
                    let text = String::from_utf8(pair.key.clone()).expect("a key");
                    let rest = text.rsplit_once('/').expect("a key").1;
                    let kind = text.split('/').rev().skip(2).collect::<Vec<_>>();
                    let kind: Vec<&str> = kind.into_iter().rev().skip(2).collect();
                    return (key(&kind.join("/"), rest), Some(pair.value.clone()));
                }
            }
            14 => {
                let found = own(["log/a", "state", "fence", "log/s"][random.below(4) as usize]);
                if let Some(pair) = found.last() {
                    return (pair.key.clone(), None);
                }
            }
            _ => return (key("fence", "0"), Some(vec![0])),
        }
        self.next::<P>(random, thread, played, store.revision)
    }

    /// A transaction of some changes, each of another key.
    pub fn transaction<P: Player>(
        &mut self,
        random: &mut Random,
        thread: u64,
        played: &Played,
        store: &Store,
    ) -> Vec<Change> {
        let mut changes = BTreeMap::new();
        for _ in 0..1 + random.below(4) {
            let (key, value) = self.change::<P>(random, thread, played, store);
            changes.insert(key, value);
        }
        let mut changes: Vec<Change> = changes.into_iter().collect();
        if random.below(2) == 0 {
            changes.reverse();
        }
        changes
    }
}
