"""Why a call was refused: an exception for each refusal. Made from include/histar.h by bindings/make.py."""
from typing import ClassVar, Optional


__all__ = [
    "Refused",
    "Halted",
    "NoAccess",
    "NoEntry",
    "WrongType",
    "CannotObserve",
    "CannotModify",
    "BadLabel",
    "LabelRange",
    "ClearanceRange",
    "LabelFull",
    "AvoidType",
    "NoQuota",
    "FixedQuota",
    "NotFixed",
    "AlreadyLinked",
    "RootKept",
    "Immutable",
    "Bounds",
    "NotMapped",
    "RightsDenied",
    "Overlap",
    "GateDenied",
    "DeviceFull",
    "DeviceEmpty",
    "Spent",
    "Unavailable",
    "BadLimits",
    "OtherVersion",
    "Memory",
    "BadBatch",
    "Busy",
    "ListFull",
    "OtherList",
    "LogFull",
    "TextFault",
    "TextMemory",
    "IllFormed",
    "HasEvents",
]


class Refused(Exception):
    """A call was refused, and changed nothing: which call, of which object, and why by a number and a name."""

    number: ClassVar[int] = 0

    def __init__(self, call: str = "", object: Optional[int] = None) -> None:
        super().__init__(call, object)
        self.call = call
        self.object = object

    @property
    def name(self) -> str:
        """The name of the refusal, as docs/CALLS.md or docs/EMBED.md has it."""
        return type(self).__name__

    def __str__(self) -> str:
        of = f" #{self.object}" if self.object is not None else ""
        return f"{self.call}{of}: {self.number} {self.name}"


class Halted(Refused):
    """The caller is no live thread."""

    number = 1


class NoAccess(Refused):
    """The container is not there, or is not observed."""

    number = 2


class NoEntry(Refused):
    """The container does not list the object."""

    number = 3


class WrongType(Refused):
    """The object is of another kind."""

    number = 4


class CannotObserve(Refused):
    """The object's label is not at most the thread's."""

    number = 5


class CannotModify(Refused):
    """The thread's label is not at most the object's."""

    number = 6


class BadLabel(Refused):
    """No label that can be stored."""

    number = 7


class LabelRange(Refused):
    """The label is outside what the thread may give."""

    number = 8


class ClearanceRange(Refused):
    """The clearance is outside what the thread may give."""

    number = 9


class LabelFull(Refused):
    """A label has 16 categories already."""

    number = 10


class AvoidType(Refused):
    """The container avoids this kind."""

    number = 11


class NoQuota(Refused):
    """The quota does not suffice."""

    number = 12


class FixedQuota(Refused):
    """The quota is fixed."""

    number = 13


class NotFixed(Refused):
    """The quota is not fixed."""

    number = 14


class AlreadyLinked(Refused):
    """The container lists the object already."""

    number = 15


class RootKept(Refused):
    """The root stays."""

    number = 16


class Immutable(Refused):
    """The object is read-only."""

    number = 17


class Bounds(Refused):
    """An offset, a length or a slot is out of its range."""

    number = 18


class NotMapped(Refused):
    """Nothing is mapped there."""

    number = 19


class RightsDenied(Refused):
    """The mapping does not allow it."""

    number = 20


class Overlap(Refused):
    """The slot or the pages are taken."""

    number = 21


class GateDenied(Refused):
    """The gate's rules do not hold."""

    number = 22


class DeviceFull(Refused):
    """4 packets wait."""

    number = 23


class DeviceEmpty(Refused):
    """No packet waits."""

    number = 24


class Spent(Refused):
    """No id or category is left."""

    number = 25


class Unavailable(Refused):
    """The kernel is not open, or there is no memory for one."""

    number = 30


class BadLimits(Refused):
    """A limit is out of its range."""

    number = 31


class OtherVersion(Refused):
    """The library is of another version than this header."""

    number = 32


class Memory(Refused):
    """There is no memory to keep the call: in the log, or in the list of a shared kernel."""

    number = 40


class BadBatch(Refused):
    """The arguments make no call, or no batch."""

    number = 45


class Busy(Refused):
    """Another call uses the kernel or has not ended adding itself to the list, or it is open already."""

    number = 46


class ListFull(Refused):
    """A seat of the shared kernel lacks as many batches as it may lack; with a log, there are so many."""

    number = 47


class OtherList(Refused):
    """The note is not of this shared kernel."""

    number = 48


class LogFull(Refused):
    """The log has as many calls as it may have."""

    number = 49


class TextFault(Refused):
    """The text is no dump."""

    number = 50


class TextMemory(Refused):
    """There is no memory for the text of a dump or of a checkpoint."""

    number = 51


class IllFormed(Refused):
    """No calls lead to what the text's checkpoint says."""

    number = 60


class HasEvents(Refused):
    """The text is a dump with calls after its checkpoint."""

    number = 63


REFUSALS: dict[int, type[Refused]] = {
    it.number: it
    for it in (
        Halted,
        NoAccess,
        NoEntry,
        WrongType,
        CannotObserve,
        CannotModify,
        BadLabel,
        LabelRange,
        ClearanceRange,
        LabelFull,
        AvoidType,
        NoQuota,
        FixedQuota,
        NotFixed,
        AlreadyLinked,
        RootKept,
        Immutable,
        Bounds,
        NotMapped,
        RightsDenied,
        Overlap,
        GateDenied,
        DeviceFull,
        DeviceEmpty,
        Spent,
        Unavailable,
        BadLimits,
        OtherVersion,
        Memory,
        BadBatch,
        Busy,
        ListFull,
        OtherList,
        LogFull,
        TextFault,
        TextMemory,
        IllFormed,
        HasEvents,
    )
}
