//! A machine that shows each difference between two replicas: each reply is a digest of all calls so far.
use histar_cluster::{Machine, Unrestored, Written};
use std::collections::{BTreeMap, BTreeSet};

/// What a thread does. Each call has a number of its own.
#[derive(Clone, PartialEq, Eq, Debug)]
pub struct Call {
    pub thread: u64,
    pub number: u64,
    /// 0 for nothing, 1 to make a thread, 2 to end.
    pub deed: u64,
}

/// The digest, and the thread that was made.
#[derive(Clone, PartialEq, Eq, Debug)]
pub struct Reply {
    pub digest: u64,
    pub made: Option<u64>,
}

pub struct Model {
    digest: u64,
    next: u64,
    threads: BTreeSet<u64>,
    pub replies: BTreeMap<u64, Reply>,
    /// The calls that were played since the last look.
    pub played: Vec<(u64, Reply)>,
    /// It lacks memory for a checkpoint.
    pub lacks_memory: bool,
    is_long: bool,
}

/// With these limits a checkpoint has more bytes than an engine takes.
pub const LONG: &[u8] = b"long";

fn put(out: &mut Vec<u8>, number: u64) {
    out.extend_from_slice(&number.to_be_bytes());
}

fn take(bytes: &mut &[u8]) -> Option<u64> {
    let number = bytes.get(..8)?.try_into().ok()?;
    *bytes = &bytes[8..];
    Some(u64::from_be_bytes(number))
}

impl Model {
    /// Takes the state of a checkpoint.
    fn take(&mut self, mut state: &[u8]) -> Option<()> {
        let bytes = &mut state;
        self.next = take(bytes)?;
        self.threads.clear();
        for _ in 0..take(bytes)? {
            self.threads.insert(take(bytes)?);
        }
        while bytes.len() > 8 {
            let number = take(bytes)?;
            let reply = Reply { digest: take(bytes)?, made: Some(take(bytes)?).filter(|made| *made > 0) };
            self.replies.insert(number, reply);
        }
        self.digest = take(bytes)?;
        Some(())
    }
}

impl Machine for Model {
    type Call = Call;
    type Reply = Reply;
    type View<'m> = &'m mut Model;

    const RULES: u64 = 1;

    fn boot(limits: &[u8]) -> Result<Model, String> {
        if limits == b"none" {
            return Err("no such limits".into());
        }
        let threads = BTreeSet::from([2]);
        let (replies, played) = (BTreeMap::new(), Vec::new());
        Ok(Model { digest: 0, next: 4, threads, replies, played, lacks_memory: false, is_long: limits == LONG })
    }

    fn set_rules(&mut self, rules: u64) -> bool {
        rules <= 2
    }

    fn play(&mut self, call: &Call) -> Reply {
        let mixed = (self.digest ^ call.number).wrapping_mul(0x9e37_79b9_7f4a_7c15).rotate_left(29);
        let mut made = None;
        if self.threads.contains(&call.thread) {
            self.digest = mixed ^ call.thread;
            match call.deed {
                1 => {
                    made = Some(self.next);
                    self.threads.insert(self.next);
                    self.next += 1;
                }
                2 => {
                    self.threads.remove(&call.thread);
                }
                _ => {}
            }
        }
        let reply = Reply { digest: self.digest, made };
        self.replies.insert(call.number, reply.clone());
        self.played.push((call.number, reply.clone()));
        reply
    }

    fn view(&mut self) -> &mut Model {
        self
    }

    fn is_live(&self, thread: u64) -> bool {
        self.threads.contains(&thread)
    }

    fn checkpoint(&self) -> Written {
        if self.lacks_memory {
            return Written::NoMemory;
        }
        let mut out = Vec::new();
        put(&mut out, self.next);
        put(&mut out, self.threads.len() as u64);
        self.threads.iter().for_each(|thread| put(&mut out, *thread));
        for (number, reply) in &self.replies {
            put(&mut out, *number);
            put(&mut out, reply.digest);
            put(&mut out, reply.made.unwrap_or(0));
        }
        put(&mut out, self.digest);
        if self.is_long {
            out.resize(1 << 20, 0);
        }
        Written::State(out)
    }

    fn restore(limits: &[u8], state: &[u8]) -> Result<Model, Unrestored> {
        let mut model = Model::boot(limits).map_err(|_| Unrestored::NoState)?;
        model.take(state).ok_or(Unrestored::NoState)?;
        Ok(model)
    }

    fn thread(call: &Call) -> u64 {
        call.thread
    }

    fn made(_call: &Call, reply: &Reply) -> Option<u64> {
        reply.made
    }

    fn put_call(call: &Call, out: &mut Vec<u8>) {
        [call.thread, call.number, call.deed].iter().for_each(|number| put(out, *number));
    }

    fn take_call(bytes: &mut &[u8]) -> Option<Call> {
        Some(Call { thread: take(bytes)?, number: take(bytes)?, deed: take(bytes)? })
    }

    fn put_reply(reply: &Reply, out: &mut Vec<u8>) {
        put(out, reply.digest);
        put(out, reply.made.unwrap_or(0));
    }
}
