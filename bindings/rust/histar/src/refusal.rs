//! What was refused, and why.
use crate::raw::Request;
use crate::{Call, Object};
use std::fmt;

/// Why a call was refused, or a kernel not booted. If several checks fail, it is the refusal with the lowest number. A
/// refused call changes nothing.
#[derive(Clone, Copy, PartialEq, Eq, Debug, Hash)]
#[non_exhaustive]
pub enum Refusal {
    /// The caller is no live thread.
    Halted = 1,
    /// The container is not there, or is not observed.
    NoAccess = 2,
    /// The container does not list the object.
    NoEntry = 3,
    /// The object is of another kind.
    WrongType = 4,
    /// The object's label is not at most the thread's.
    CannotObserve = 5,
    /// The thread's label is not at most the object's.
    CannotModify = 6,
    /// The label is none that can be stored.
    BadLabel = 7,
    /// The label is outside what the thread may give.
    LabelRange = 8,
    /// The clearance is outside what the thread may give.
    ClearanceRange = 9,
    /// A label has 16 categories already.
    LabelFull = 10,
    /// The container avoids this kind.
    AvoidType = 11,
    /// The quota does not suffice.
    NoQuota = 12,
    /// The quota is fixed.
    FixedQuota = 13,
    /// The quota is not fixed.
    NotFixed = 14,
    /// The container lists the object already.
    AlreadyLinked = 15,
    /// The root stays.
    RootKept = 16,
    /// The object is read-only.
    Immutable = 17,
    /// An offset, a length or a slot is out of its range.
    Bounds = 18,
    /// Nothing is mapped there.
    NotMapped = 19,
    /// The mapping does not allow it.
    RightsDenied = 20,
    /// The slot or the pages are taken.
    Overlap = 21,
    /// The gate's rules do not hold.
    GateDenied = 22,
    /// 4 packets wait.
    DeviceFull = 23,
    /// No packet waits.
    DeviceEmpty = 24,
    /// No id or category is left.
    Spent = 25,
    /// There is no memory for a kernel or a seat, or the shared kernel has 4,096 seats.
    Unavailable = 30,
    /// A limit is out of its range.
    BadLimits = 31,
    /// The library is of another version than this crate.
    OtherVersion = 32,
    /// There is no memory to keep the call: in the log, or in the list of a shared kernel.
    Memory = 40,
    /// The arguments make no call, as a label of 25 pairs or 65 bytes.
    BadBatch = 45,
    /// Another thread stands still in the middle of adding its call to the list of a shared kernel. The call may be made again.
    Busy = 46,
    /// A seat of the shared kernel lacks as many calls as it may lack, or the list has a log and as many as it may have.
    ListFull = 47,
    /// The note is of another shared kernel.
    OtherList = 48,
    /// The log has as many calls as it may have.
    LogFull = 49,
    /// The text is no dump.
    TextFault = 50,
    /// There is no memory for the text of a dump or of a checkpoint.
    TextMemory = 51,
    /// No calls lead to what the text's checkpoint says.
    IllFormed = 60,
    /// The text is a dump with calls after its checkpoint.
    HasEvents = 63,
}

/// All refusals.
const REFUSALS: [Refusal; 38] = [
    Refusal::Halted,
    Refusal::NoAccess,
    Refusal::NoEntry,
    Refusal::WrongType,
    Refusal::CannotObserve,
    Refusal::CannotModify,
    Refusal::BadLabel,
    Refusal::LabelRange,
    Refusal::ClearanceRange,
    Refusal::LabelFull,
    Refusal::AvoidType,
    Refusal::NoQuota,
    Refusal::FixedQuota,
    Refusal::NotFixed,
    Refusal::AlreadyLinked,
    Refusal::RootKept,
    Refusal::Immutable,
    Refusal::Bounds,
    Refusal::NotMapped,
    Refusal::RightsDenied,
    Refusal::Overlap,
    Refusal::GateDenied,
    Refusal::DeviceFull,
    Refusal::DeviceEmpty,
    Refusal::Spent,
    Refusal::Unavailable,
    Refusal::BadLimits,
    Refusal::OtherVersion,
    Refusal::Memory,
    Refusal::BadBatch,
    Refusal::Busy,
    Refusal::ListFull,
    Refusal::OtherList,
    Refusal::LogFull,
    Refusal::TextFault,
    Refusal::TextMemory,
    Refusal::IllFormed,
    Refusal::HasEvents,
];

impl Refusal {
    /// The number of the refusal, as docs/CALLS.md or docs/EMBED.md has it.
    ///
    /// ```
    /// assert_eq!(histar::Refusal::CannotObserve.number(), 5);
    /// ```
    pub fn number(self) -> u32 {
        self as u32
    }

    /// The refusal of a number that the library told.
    pub(crate) fn told(number: u32) -> Refusal {
        Refusal::of(number).unwrap_or_else(|| unreachable!("the library told no refusal: {number}"))
    }

    /// The refusal of a number; none where the number has none.
    ///
    /// ```
    /// use histar::Refusal;
    /// assert_eq!((Refusal::of(5), Refusal::of(26)), (Some(Refusal::CannotObserve), None));
    /// ```
    pub fn of(number: u32) -> Option<Refusal> {
        REFUSALS.into_iter().find(|refusal| refusal.number() == number)
    }
}

/// As a script prints it: `5 CannotObserve`.
impl fmt::Display for Refusal {
    fn fmt(&self, f: &mut fmt::Formatter<'_>) -> fmt::Result {
        write!(f, "{} {self:?}", self.number())
    }
}

impl std::error::Error for Refusal {}

/// The number is none of a refusal.
#[derive(Clone, Copy, PartialEq, Eq, Debug)]
pub struct NoRefusal;

impl fmt::Display for NoRefusal {
    fn fmt(&self, f: &mut fmt::Formatter<'_>) -> fmt::Result {
        f.write_str("the number is none of a refusal")
    }
}

impl std::error::Error for NoRefusal {}

/// The refusal of a number, or [`NoRefusal`].
///
/// ```
/// use histar::{NoRefusal, Refusal};
/// assert_eq!((Refusal::try_from(5), Refusal::try_from(26)), (Ok(Refusal::CannotObserve), Err(NoRefusal)));
/// ```
impl TryFrom<u32> for Refusal {
    type Error = NoRefusal;

    fn try_from(number: u32) -> Result<Refusal, NoRefusal> {
        Refusal::of(number).ok_or(NoRefusal)
    }
}

/// What was refused, of which object, and why.
///
/// ```
/// use histar::{Entry, Kernel, Object, Refusal};
/// let kernel = Kernel::boot(64)?;
/// let refused = kernel.session().segment_len(Entry::in_root(Object(7))).unwrap_err();
/// assert_eq!((refused.call, refused.object, refused.reason), ("segment_len", Some(Object(7)), Refusal::NoEntry));
/// assert_eq!(refused.to_string(), "segment_len #7: 3 NoEntry");
/// assert_eq!(kernel.dump().unwrap_err().to_string(), "dump: 45 BadBatch");
/// # Ok::<(), histar::Refused>(())
/// ```
#[derive(Clone, Copy, PartialEq, Eq, Debug, Hash)]
pub struct Refused {
    /// The word of the call, as docs/CALLS.md has it. What is no call has the name of its method; an open is `boot`, `open_at` or `share`.
    pub call: &'static str,
    /// The object that the call names: of a new object its container, of a link what is linked. None where it names none.
    pub object: Option<Object>,
    /// Why.
    pub reason: Refusal,
}

impl Refused {
    /// What names no object was refused.
    pub(crate) fn of(call: &'static str, reason: Refusal) -> Refused {
        Refused { call, object: None, reason }
    }

    /// A call was refused.
    ///
    /// ```
    /// use histar::{Call, Entry, Object, Refusal, Refused};
    /// let refused = Refused::call(&Call::SegmentLen { entry: Entry::in_root(Object(7)) }, Refusal::NoEntry);
    /// assert_eq!(refused, Refused { call: "segment_len", object: Some(Object(7)), reason: Refusal::NoEntry });
    /// ```
    pub fn call(call: &Call<'_>, reason: Refusal) -> Refused {
        Request::of(call).refused(reason)
    }
}

/// As `segment_len #7: 3 NoEntry`.
impl fmt::Display for Refused {
    fn fmt(&self, f: &mut fmt::Formatter<'_>) -> fmt::Result {
        f.write_str(self.call)?;
        if let Some(object) = self.object {
            write!(f, " {object}")?;
        }
        write!(f, ": {}", self.reason)
    }
}

impl std::error::Error for Refused {}

/// Why, without what was refused.
impl From<Refused> for Refusal {
    fn from(refused: Refused) -> Refusal {
        refused.reason
    }
}

/// `PermissionDenied` where labels refuse it, `NotFound` where an entry leads nowhere, `OutOfMemory` for want of memory, `InvalidInput`
/// where a number is out of its range, `InvalidData` where a text opens no kernel, and else `Other`.
///
/// ```
/// use histar::{Entry, Object};
/// let kernel = histar::Kernel::boot(64)?;
/// let error = std::io::Error::from(kernel.session().segment_len(Entry::in_root(Object(7))).unwrap_err());
/// assert_eq!(error.kind(), std::io::ErrorKind::NotFound);
/// assert_eq!(error.to_string(), "segment_len #7: 3 NoEntry");
/// # Ok::<(), histar::Refused>(())
/// ```
impl From<Refused> for std::io::Error {
    fn from(refused: Refused) -> std::io::Error {
        use std::io::ErrorKind;
        let kind = match refused.reason {
            Refusal::CannotObserve | Refusal::CannotModify | Refusal::GateDenied | Refusal::RightsDenied => {
                ErrorKind::PermissionDenied
            }
            Refusal::NoAccess | Refusal::NoEntry => ErrorKind::NotFound,
            Refusal::Unavailable | Refusal::Memory | Refusal::TextMemory => ErrorKind::OutOfMemory,
            Refusal::BadBatch | Refusal::BadLimits | Refusal::Bounds => ErrorKind::InvalidInput,
            Refusal::TextFault | Refusal::IllFormed | Refusal::HasEvents => ErrorKind::InvalidData,
            _ => ErrorKind::Other,
        };
        std::io::Error::new(kind, refused)
    }
}
