//! A kernel, for who may only read it.
use histar::trusted::{session_of, Thread};
use histar::{Bytes, Entry, Kernel, Label, Listed, Mapping, Object, Own, Quota, Refused, Session};

/// A kernel of a cluster, as a reader has it. No call of it changes anything: what a node changed by itself would split it from the others.
///
/// ```compile_fail
/// use histar::{trusted::Thread, Kernel};
/// fn write(node: &histar_cluster::Running<Kernel>) {
///     let _ = node.read(|kernel| kernel.of(Thread::BOOT).cat_create());
/// }
/// ```
#[derive(Clone, Copy)]
pub struct View<'k>(&'k Kernel);

/// The calls of a thread that change nothing, as [`Session`] has them.
#[derive(Clone, Copy)]
pub struct Reads<'k>(Session<'k>);

impl<'k> View<'k> {
    pub(crate) fn new(kernel: &'k Kernel) -> View<'k> {
        View(kernel)
    }

    /// The reads of a thread. One that no thread of the cluster could make is the caller's fault.
    #[inline]
    pub fn of(&self, thread: Thread) -> Reads<'k> {
        Reads(session_of(self.0, thread))
    }

    /// The kernel as text, as [`Kernel::checkpoint`] writes it.
    ///
    /// # Errors
    /// That there is no memory for it.
    pub fn checkpoint(&self) -> Result<String, Refused> {
        self.0.checkpoint()
    }
}

/// Reads, each as a session's.
macro_rules! reads {
    ($($name:ident($($argument:ident: $kind:ty),*) -> $reply:ty;)*) => {
        impl Reads<'_> {
            $(
                #[doc = concat!("As [`Session::", stringify!($name), "`].")]
                ///
                /// # Errors
                /// As there.
                #[inline]
                pub fn $name(&self, $($argument: $kind),*) -> Result<$reply, Refused> {
                    self.0.$name($($argument),*)
                }
            )*
        }
    };
}

reads! {
    self_get() -> Own;
    obj_label(entry: Entry) -> Label;
    obj_quota(entry: Entry) -> Quota;
    container_list(container: Object, from: u32) -> Listed;
    container_parent(container: Object) -> Object;
    segment_len(entry: Entry) -> u32;
    segment_read(entry: Entry, offset: u32, count: u32) -> Bytes;
    meta_get(entry: Entry) -> Bytes;
    as_get(space: Entry, slot: u32) -> Option<Mapping>;
    load(address: u64, count: u32) -> Bytes;
}
