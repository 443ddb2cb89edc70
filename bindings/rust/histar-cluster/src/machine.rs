//! The replicated machine: a kernel, as a cluster needs it.

/// A machine's state as bytes.
#[derive(Clone, PartialEq, Eq, Debug)]
pub enum Written {
    /// The state. Each machine that is in it has these bytes.
    State(Vec<u8>),
    /// A machine of this kind is never begun at a state, on no node.
    Never,
    /// This node lacks memory for the bytes now. Other nodes may have them.
    NoMemory,
}

/// Why there is no machine in a state.
#[derive(Clone, PartialEq, Eq, Debug)]
pub enum Unrestored {
    /// The bytes are no state of a machine with these limits.
    NoState,
    /// They may be one, and this node lacks memory for the machine now.
    NoMemory,
}

/// What each node plays the log on. Two machines that were booted alike and played alike give the same replies: nothing else, as a
/// clock, the memory that is left or the order of a hash map, has a part in a reply.
pub trait Machine: Sized {
    /// A call that changes something, of one thread.
    type Call: Clone;
    /// What a call is answered.
    type Reply: Clone;
    /// What a reader gets of a machine. By it nothing of the state is changed: a change that is in no log splits a node from the others.
    type View<'m>
    where
        Self: 'm;

    /// The number of the rules that a new cluster begins with.
    const RULES: u64;

    /// A newly booted machine. The bytes are the limits that each node of the cluster boots with.
    ///
    /// # Errors
    /// Why there is none, in a line.
    fn boot(limits: &[u8]) -> Result<Self, String>;

    /// From here on these are the rules. False where the machine does not know them.
    fn set_rules(&mut self, rules: u64) -> bool;

    /// Plays a call.
    fn play(&mut self, call: &Self::Call) -> Self::Reply;

    /// The machine, for a reader.
    fn view(&mut self) -> Self::View<'_>;

    /// Whether a thread is there.
    fn is_live(&self, thread: u64) -> bool;

    /// The whole state.
    fn checkpoint(&self) -> Written;

    /// A machine in a state that [`checkpoint`](Machine::checkpoint) gave, booted with these limits.
    ///
    /// # Errors
    /// Why there is none.
    fn restore(limits: &[u8], state: &[u8]) -> Result<Self, Unrestored>;

    /// The thread that makes a call.
    fn thread(call: &Self::Call) -> u64;

    /// The thread that a call made.
    fn made(call: &Self::Call, reply: &Self::Reply) -> Option<u64>;

    /// Adds the bytes of a call.
    fn put_call(call: &Self::Call, out: &mut Vec<u8>);

    /// Takes a call from the front. Total: any bytes begin with a call in its one spelling, or with none.
    fn take_call(bytes: &mut &[u8]) -> Option<Self::Call>;

    /// Adds bytes that tell a reply from each other one, for digests.
    fn put_reply(reply: &Self::Reply, out: &mut Vec<u8>);
}
