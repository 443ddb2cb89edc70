"""How objects and categories are named, and what calls name beside them."""
import enum
from dataclasses import dataclass
from typing import ClassVar, Protocol, Union

from .labels import Label, Level


@dataclass(frozen=True, order=True)
class Object:
    """The id of an object: 1 to 2^61 - 1, given once. 0 names no object."""

    __slots__ = ("id",)
    id: int

    NONE: ClassVar["Object"]
    ROOT: ClassVar["Object"]
    BOOT: ClassVar["Object"]
    DEVICE: ClassVar["Object"]

    def __post_init__(self) -> None:
        if type(self.id) is not int:
            raise TypeError(f"the id of an object is an int, not {type(self.id).__name__}")
        if not 0 <= self.id < 1 << 64:
            raise ValueError("the id of an object has 64 bits")

    def __str__(self) -> str:
        return f"#{self.id}"

    def __reduce__(self) -> tuple[type["Object"], tuple[int]]:
        return Object, (self.id,)


Object.NONE, Object.ROOT, Object.BOOT, Object.DEVICE = Object(0), Object(1), Object(2), Object(3)


class HasId(Protocol):
    """A session, which has the id of its thread."""

    @property
    def id(self) -> Object: ...


def object_of(it: Union[Object, HasId]) -> Object:
    """An object, or a session's thread."""
    found = it if type(it) is Object else getattr(it, "id", None)
    if type(found) is not Object:
        raise TypeError(f"an object or a session is wanted, not {type(it).__name__}")
    return found


@dataclass(frozen=True)
class Entry:
    """How a call names an object: by a container, and an object that it lists or that it is."""

    __slots__ = ("container", "object")
    container: Object
    object: Object

    NONE: ClassVar["Entry"]

    def __post_init__(self) -> None:
        if type(self.container) is not Object or type(self.object) is not Object:
            raise TypeError("an entry is of two objects")

    @staticmethod
    def of(container: Object, it: Union[Object, HasId]) -> "Entry":
        """The entry of an object, or of a session's thread, in a container."""
        return Entry(container, object_of(it))

    @staticmethod
    def in_root(it: Union[Object, HasId]) -> "Entry":
        """The entry of an object, or of a session's thread, in the root container."""
        return Entry(Object.ROOT, object_of(it))

    def __str__(self) -> str:
        return f"{self.container} {self.object}"

    def __reduce__(self) -> tuple[type["Entry"], tuple[Object, Object]]:
        return Entry, (self.container, self.object)


Entry.NONE = Entry(Object.NONE, Object.NONE)


class Kinds(enum.IntFlag):
    """A set of kinds of objects: those that a container will not hold."""

    NONE = 0
    CONTAINERS = 1
    SEGMENTS = 2
    ADDRESS_SPACES = 4
    THREADS = 8
    GATES = 16
    DEVICES = 32


class Rights(enum.IntFlag):
    """What a mapping allows."""

    NONE = 0
    READ = 1
    WRITE = 2


class Keep(enum.IntEnum):
    """What a log keeps: write calls, or reads too."""

    WRITES = 0
    ALL = 1


@dataclass(frozen=True)
class Limits:
    """What a kernel is opened with: the quota of the root in pages of 256 bytes, 8 to 1,024; the level of the device's label, but not
    `Level.STAR`; the first id that a call gives, 4 to 2^61; and the first category, 1 to 2^61."""

    pages: int = 64
    device: Level = Level.L1
    next_id: int = 4
    next_category: int = 1


@dataclass(frozen=True)
class Own:
    """What a thread is: its labels, the entry of its address space (`Entry.NONE` for none), where it runs, and what a gate handed it."""

    label: Label
    clearance: Label
    verify: Label
    space: Entry
    entry_point: int
    closure: int


@dataclass(frozen=True)
class Quota:
    """What an object may use and uses, in pages of 256 bytes; whether its quota is fixed, and whether it is read-only."""

    quota: int
    used: int
    fixed: bool
    immutable: bool


@dataclass(frozen=True)
class Listed:
    """How many objects a container lists, and up to 16 of them."""

    length: int
    objects: tuple[Object, ...]


@dataclass(frozen=True)
class Entered:
    """What a gate hands to who enters it."""

    entry_point: int
    closure: int


@dataclass(frozen=True)
class Mapping:
    """What a slot maps: `count` pages of a segment from its page `first` on, at the virtual page `page`."""

    page: int
    segment: Entry
    first: int
    count: int
    rights: Rights


@dataclass(frozen=True)
class Order:
    """How a label compares with another: whether it is at most that, and whether it is once that one's star, or both stars, are raised."""

    at_most: bool
    at_most_raised: bool
    raised_at_most_raised: bool


