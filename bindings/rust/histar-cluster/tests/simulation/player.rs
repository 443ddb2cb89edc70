//! The machines that the simulation plays: the model, and the proved kernel.
use crate::model::{Call, Model, Reply};
use histar::trusted::{Record, Thread};
use histar::{label, Entry, Kernel, Limits, Object, Refused};
use histar_cluster::{limits, Machine, Unrestored, Written};
use std::collections::BTreeMap;

/// A machine whose calls have numbers.
pub trait Player: for<'m> Machine<Reply: PartialEq, View<'m> = &'m mut Self> + 'static {
    fn limits() -> Vec<u8>;
    /// A call of a number: to do nothing but what shows (0), to make a thread (1), or to end (2).
    fn call(thread: u64, number: u64, deed: u64) -> Self::Call;
    /// The thread that was made.
    fn made_by(reply: &Self::Reply) -> Option<u64>;
    /// The calls that were played since the last look.
    fn take_played(&mut self) -> Vec<(u64, Self::Reply)>;
    /// Whether a call was played.
    fn has_played(&self, number: u64) -> bool;
    /// Whether a call was answered so.
    fn has_answered(&self, number: u64, reply: &Self::Reply) -> bool;
    /// From here on it lacks memory for a checkpoint, or has some.
    fn lack_memory(&mut self, lacks: bool);
}

impl Player for Model {
    fn limits() -> Vec<u8> {
        b"limits".to_vec()
    }
    fn call(thread: u64, number: u64, deed: u64) -> Call {
        Call { thread, number, deed }
    }
    fn made_by(reply: &Reply) -> Option<u64> {
        reply.made
    }
    fn take_played(&mut self) -> Vec<(u64, Reply)> {
        std::mem::take(&mut self.played)
    }
    fn has_played(&self, number: u64) -> bool {
        self.replies.contains_key(&number)
    }
    fn has_answered(&self, number: u64, reply: &Reply) -> bool {
        self.replies.get(&number) == Some(reply)
    }
    fn lack_memory(&mut self, lacks: bool) {
        self.lacks_memory = lacks;
    }
}

/// The kernel, with the bytes of what each call was answered, which its checkpoints have too.
pub struct Real {
    pub kernel: Kernel,
    answers: BTreeMap<u64, Vec<u8>>,
    played: Vec<(u64, Result<histar::Reply, Refused>)>,
    lacks_memory: bool,
}

/// The bytes of a reply.
fn bytes_of(reply: &Result<histar::Reply, Refused>) -> Vec<u8> {
    let mut out = Vec::new();
    Kernel::put_reply(reply, &mut out);
    out
}

/// Takes what was answered from the front of a checkpoint.
fn take_answers(bytes: &mut &[u8]) -> Option<BTreeMap<u64, Vec<u8>>> {
    let mut take = |count: usize| {
        let taken = bytes.get(..count)?;
        *bytes = &bytes[count..];
        Some(taken)
    };
    let mut answers = BTreeMap::new();
    for _ in 0..u64::from_be_bytes(take(8)?.try_into().ok()?) {
        let number = u64::from_be_bytes(take(8)?.try_into().ok()?);
        let len = usize::from(take(1)?[0]);
        answers.insert(number, take(len)?.to_vec());
    }
    Some(answers)
}

impl Machine for Real {
    type Call = (u64, Record);
    type Reply = Result<histar::Reply, Refused>;
    type View<'m> = &'m mut Real;
    const RULES: u64 = Kernel::RULES;

    fn boot(limits: &[u8]) -> Result<Real, String> {
        let kernel = <Kernel as Machine>::boot(limits)?;
        Ok(Real { kernel, answers: BTreeMap::new(), played: Vec::new(), lacks_memory: false })
    }
    fn set_rules(&mut self, rules: u64) -> bool {
        self.kernel.set_rules(rules)
    }
    fn play(&mut self, (number, record): &(u64, Record)) -> Self::Reply {
        let reply = self.kernel.play(record);
        self.answers.insert(*number, bytes_of(&reply));
        self.played.push((*number, reply.clone()));
        reply
    }
    fn view(&mut self) -> &mut Real {
        self
    }
    fn is_live(&self, thread: u64) -> bool {
        Machine::is_live(&self.kernel, thread)
    }
    fn checkpoint(&self) -> Written {
        let Written::State(text) = Machine::checkpoint(&self.kernel) else { return Written::NoMemory };
        if self.lacks_memory {
            return Written::NoMemory;
        }
        let mut out = (self.answers.len() as u64).to_be_bytes().to_vec();
        for (number, answer) in &self.answers {
            out.extend_from_slice(&number.to_be_bytes());
            out.push(answer.len() as u8);
            out.extend_from_slice(answer);
        }
        out.extend_from_slice(&text);
        Written::State(out)
    }
    fn restore(limits: &[u8], mut state: &[u8]) -> Result<Real, Unrestored> {
        let answers = take_answers(&mut state).ok_or(Unrestored::NoState)?;
        let kernel = <Kernel as Machine>::restore(limits, state)?;
        Ok(Real { kernel, answers, played: Vec::new(), lacks_memory: false })
    }
    fn thread((_, record): &(u64, Record)) -> u64 {
        Kernel::thread(record)
    }
    fn made((_, record): &(u64, Record), reply: &Self::Reply) -> Option<u64> {
        Kernel::made(record, reply)
    }
    fn put_call((number, record): &(u64, Record), out: &mut Vec<u8>) {
        out.extend_from_slice(&number.to_be_bytes());
        Kernel::put_call(record, out);
    }
    fn take_call(bytes: &mut &[u8]) -> Option<(u64, Record)> {
        let number = u64::from_be_bytes(bytes.get(..8)?.try_into().ok()?);
        *bytes = &bytes[8..];
        Some((number, Kernel::take_call(bytes)?))
    }
    fn put_reply(reply: &Self::Reply, out: &mut Vec<u8>) {
        Kernel::put_reply(reply, out);
    }
}

impl Player for Real {
    fn limits() -> Vec<u8> {
        limits(&Limits::pages(1024))
    }
    fn call(thread: u64, number: u64, deed: u64) -> (u64, Record) {
        let call = match deed {
            0 => histar::Call::CatCreate,
            1 => histar::Call::ThreadCreate {
                container: Object::ROOT,
                label: label! { L1 }.into(),
                quota: 1,
                clearance: label! { L2 }.into(),
                entry_point: number,
            },
            _ => histar::Call::Unref { entry: Entry::in_root(Object(thread)) },
        };
        (number, Record::new(Thread(thread), &call).expect("a call"))
    }
    fn made_by(reply: &Self::Reply) -> Option<u64> {
        match reply {
            Ok(histar::Reply::Object(object)) => Some(object.0),
            _ => None,
        }
    }
    fn take_played(&mut self) -> Vec<(u64, Self::Reply)> {
        std::mem::take(&mut self.played)
    }
    fn has_played(&self, number: u64) -> bool {
        self.answers.contains_key(&number)
    }
    fn has_answered(&self, number: u64, reply: &Self::Reply) -> bool {
        self.answers.get(&number) == Some(&bytes_of(reply))
    }
    fn lack_memory(&mut self, lacks: bool) {
        self.lacks_memory = lacks;
    }
}
