//! The proved kernel as the machine of a cluster.
use crate::spelling::{put_number, take_number};
use crate::{Machine, Unrestored, View, Written};
use histar::trusted::{session_of, Record, Thread};
use histar::{Kernel, Level, Limits, Refusal, Refused, Reply};

/// The levels that a device may have, by their numbers.
const LEVELS: [Level; 4] = [Level::L0, Level::L1, Level::L2, Level::L3];

/// The number of a device's level. No kernel boots with one that has none.
fn number_of(device: Level) -> u64 {
    LEVELS.iter().position(|level| *level == device).unwrap_or(LEVELS.len()) as u64
}

/// The bytes of limits, as each node of a cluster boots with them.
///
/// ```
/// use histar_cluster::limits;
/// assert_eq!(limits(&histar::Limits::pages(64)), [64, 1, 4, 1]);
/// ```
pub fn limits(limits: &Limits) -> Vec<u8> {
    let mut out = Vec::new();
    for number in [u64::from(limits.pages), number_of(limits.device), limits.next_id, limits.next_category] {
        put_number(&mut out, number);
    }
    out
}

fn limits_of(mut bytes: &[u8]) -> Option<Limits> {
    let pages = take_number(&mut bytes)?.try_into().ok()?;
    let device = *LEVELS.get(usize::try_from(take_number(&mut bytes)?).ok()?)?;
    let (next_id, next_category) = (take_number(&mut bytes)?, take_number(&mut bytes)?);
    bytes.is_empty().then_some(Limits { pages, device, next_id, next_category })
}

/// How the text of a checkpoint begins whose kernel has these limits.
fn head_of(limits: &Limits) -> String {
    let Limits { pages, device, next_id, next_category } = limits;
    format!("histar-dump 2\nlimits {pages} {} {next_id} {next_category}\n", number_of(*device))
}

/// The text of a kernel with other limits. The root's quota is all pages. None where it is no such text.
pub(crate) fn with_limits(text: &[u8], limits: &[u8]) -> Option<Vec<u8>> {
    let (text, limits) = (std::str::from_utf8(text).ok()?, limits_of(limits)?);
    let (first, rest) = text.split_once('\n')?;
    let (second, rest) = rest.split_once('\n')?;
    let (before, root) = rest.split_once("\nobject 1 container ")?;
    let (_, after) = root.split_once(' ')?;
    let is_one = first == "histar-dump 2" && second.starts_with("limits ");
    is_one.then(|| format!("{}{before}\nobject 1 container {} {after}", head_of(&limits), limits.pages).into_bytes())
}

/// Why no kernel was opened at a text.
fn unopened(refused: Refused) -> Unrestored {
    match refused.reason {
        Refusal::TextFault | Refusal::HasEvents | Refusal::IllFormed | Refusal::BadLimits => Unrestored::NoState,
        _ => Unrestored::NoMemory,
    }
}

fn put_numbers(out: &mut Vec<u8>, numbers: [u64; 3]) {
    numbers.iter().for_each(|number| put_number(out, *number));
}

/// A kernel keeps no log of its own here: a call may be refused for want of memory to keep it, which is no rule of the kernel.
/// So its text has the limits and the state alone, and is the same on each node.
impl Machine for Kernel {
    type Call = Record;
    type Reply = Result<Reply, Refused>;
    type View<'m> = View<'m>;

    const RULES: u64 = 1;

    fn boot(limits: &[u8]) -> Result<Kernel, String> {
        let limits = limits_of(limits).ok_or("the limits can't be read")?;
        Kernel::boot_with(&limits).map_err(|refused| refused.to_string())
    }

    fn set_rules(&mut self, rules: u64) -> bool {
        rules == 1
    }

    fn play(&mut self, call: &Record) -> Result<Reply, Refused> {
        Kernel::play(self, call)
    }

    #[inline]
    fn view(&mut self) -> View<'_> {
        View::new(self)
    }

    fn is_live(&self, thread: u64) -> bool {
        !matches!(session_of(self, Thread(thread)).self_get(), Err(Refused { reason: Refusal::Halted, .. }))
    }

    fn checkpoint(&self) -> Written {
        Kernel::checkpoint(self).map_or(Written::NoMemory, |text| Written::State(text.into_bytes()))
    }

    /// An open looks at a part of the text, so what it opens is written down again: another text of the same kernel is no checkpoint.
    fn restore(limits: &[u8], state: &[u8]) -> Result<Kernel, Unrestored> {
        let head = limits_of(limits).map(|limits| head_of(&limits)).ok_or(Unrestored::NoState)?;
        if !state.starts_with(head.as_bytes()) {
            return Err(Unrestored::NoState);
        }
        let kernel = Kernel::open_at(state).map_err(unopened)?;
        let text = kernel.checkpoint().map_err(unopened)?;
        if text.as_bytes() == state {
            Ok(kernel)
        } else {
            Err(Unrestored::NoState)
        }
    }

    fn thread(call: &Record) -> u64 {
        call.thread().0
    }

    fn made(call: &Record, reply: &Result<Reply, Refused>) -> Option<u64> {
        match reply {
            Ok(Reply::Object(made)) if call.makes_thread() => Some(made.0),
            _ => None,
        }
    }

    fn put_call(call: &Record, out: &mut Vec<u8>) {
        call.put(out);
    }

    fn take_call(bytes: &mut &[u8]) -> Option<Record> {
        Record::take(bytes)
    }

    fn put_reply(reply: &Result<Reply, Refused>, out: &mut Vec<u8>) {
        match reply {
            Err(refused) => out.extend_from_slice(&[0, refused.reason.number() as u8]),
            Ok(Reply::Category(category)) => put_numbers(out, [1, category.0, 0]),
            Ok(Reply::Object(object)) => put_numbers(out, [2, object.0, 0]),
            Ok(Reply::Entered(entered)) => put_numbers(out, [3, entered.entry_point, entered.closure]),
            Ok(Reply::Bytes(bytes)) => {
                put_numbers(out, [4, bytes.len() as u64, 0]);
                out.extend_from_slice(bytes);
            }
            Ok(_) => out.push(5), // (of the calls that change something, the others answer that they are done)
        }
    }
}

#[cfg(test)]
mod tests {
    use super::*;
    use crate::entry::{add, begin, read, Head};
    use crate::history::Point;
    use crate::keys::{Incarnation, Keys, Lane};
    use crate::{Item, Name};
    use histar::{Call, Entry, Object};

    fn head() -> Head {
        Head::new(&Point { entries: 1 << 24, place: 1 << 30, digest: [7; 32] }, &[7; 16])
    }

    #[test]
    fn an_entry_of_one_write_has_at_most_140_bytes() {
        let (cluster, node) = (Name::new("files").unwrap(), Name::new("north").unwrap());
        let lane = Lane { of: Incarnation { node, number: 1 << 30 }, number: 3 };
        let key = Keys::new(cluster).entry(&lane, 1 << 24);
        let bytes = [0xa5; 64];
        let write = Call::SegmentWrite { entry: Entry::in_root(Object(400)), offset: 192, bytes: bytes[..].into() };
        let mut value = begin(&head());
        add::<Kernel>(&mut value, &Item::Call(Record::new(Thread::BOOT, &write).unwrap()));
        assert!(key.len() + value.len() <= 140, "{} and {}", key.len(), value.len());
        assert_eq!(read::<Kernel>(&value).map(|(it, items)| (it, items.len())), Some((head(), 1)));
    }

    /// Random bytes, and calls with some bytes changed: what is read as an entry is spelled so.
    #[test]
    fn each_entry_has_one_spelling() {
        let mut state = 1u64;
        let mut next = |end: usize| {
            state = state.wrapping_mul(0x5851_f42d_4c95_7f2d).wrapping_add(1);
            (state >> 33) as usize % end
        };
        let mut taken = 0;
        for _ in 0..200_000 {
            let mut bytes = begin(&head());
            bytes.extend_from_slice(&[0, 1 + next(24) as u8, 2]);
            let len = next(40);
            bytes.extend((0..len).map(|_| if next(2) == 0 { next(5) as u8 } else { next(256) as u8 }));
            let Some((_, items)) = read::<Kernel>(&bytes) else { continue };
            let mut again = begin(&head());
            items.iter().for_each(|item| add::<Kernel>(&mut again, item));
            assert_eq!(again, bytes);
            taken += 1;
        }
        assert!(taken > 1000, "{taken}");
    }
}
