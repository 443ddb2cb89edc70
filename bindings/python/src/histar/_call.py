"""Calls as records, and answers as values."""
import struct
from typing import Callable, Generic, NoReturn, Optional, TypeVar, Union

from .labels import Category, Label, label_of
from .names import Entered, Entry, Kinds, Listed, Mapping, Object, Own, Quota, Rights
from .refusals import BadBatch

T = TypeVar("T")
Bytes = Union[bytes, bytearray]

# The number, how many bytes, the thread, two entries and five numbers; then bytes or labels.
plain = struct.Struct("<II10Q736x").pack
with_bytes = struct.Struct("<II10Q64s672x").pack
with_labels = struct.Struct("<II10Q64x224s224s224s").pack
NO_LABEL = bytes(224)

# What is raised by a call of which an argument is of another kind.
WRONG = (AttributeError, TypeError, struct.error)


class Call(Generic[T]):
    """A call as a value: `histar.calls` makes it, and a session or a batch makes that. It prints nothing of what it is asked with."""

    __slots__ = ("name", "object", "_record", "_read")

    def __init__(self, name: str, object: Optional[int], record: bytes, read: Callable[[memoryview], T]) -> None:
        if type(record) is not bytes or len(record) != 824:
            raise TypeError("a call is made by a function of histar.calls")
        self.name = name
        self.object = object
        self._record = record
        self._read = read

    def __repr__(self) -> str:
        return f"Call({self.name})"


def length(data: Bytes) -> int:
    """How many bytes a call has. 65 and more make no call, and the library says so."""
    return min(len(data), 65)


def signed(change: int) -> int:
    """32 bits in two's complement; any other number makes no call."""
    return change & 0xFFFFFFFF if -(1 << 31) <= change < 1 << 31 else (1 << 64) - 1


def refuse(call: str, fault: Exception, **given: tuple[object, type]) -> NoReturn:
    """Says which argument is of another kind; a number that no record has makes no call."""
    for name, (value, kind) in given.items():
        if not isinstance(value, (bytes, bytearray) if kind is bytes else kind):
            raise TypeError(f"{call}: {name} is of {kind.__name__}, not of {type(value).__name__}") from None
    if any(kind in (int, Kinds, Rights) for _, kind in given.values()):
        raise BadBatch(call) from None
    raise fault


# ---- Answers: 880 bytes with a reply, a length, 17 numbers, 64 bytes and three labels ----

_numbers = struct.Struct("<17Q").unpack_from


def done(_: memoryview) -> None:
    return None


def told_category(answer: memoryview) -> Category:
    return Category(int.from_bytes(answer[8:16], "little"))


def told_object(answer: memoryview) -> Object:
    return Object(int.from_bytes(answer[8:16], "little"))


def told_number(answer: memoryview) -> int:
    return int.from_bytes(answer[8:16], "little")


def told_data(answer: memoryview) -> bytes:
    return answer[144 : 144 + answer[4]].tobytes()


def told_label(answer: memoryview) -> Label:
    return label_of(answer[208:432])


def told_own(answer: memoryview) -> Own:
    n = _numbers(answer, 8)
    labels = label_of(answer[208:432]), label_of(answer[432:656]), label_of(answer[656:880])
    return Own(*labels, Entry(Object(n[0]), Object(n[1])), n[2], n[3])


def told_quota(answer: memoryview) -> Quota:
    n = _numbers(answer, 8)
    return Quota(n[0], n[1], bool(n[2]), bool(n[3]))


def told_listed(answer: memoryview) -> Listed:
    n = _numbers(answer, 8)
    return Listed(n[0], tuple(map(Object, n[1 : 1 + answer[4]])))


def told_entered(answer: memoryview) -> Entered:
    n = _numbers(answer, 8)
    return Entered(n[0], n[1])


def told_mapping(answer: memoryview) -> Optional[Mapping]:
    n = _numbers(answer, 8)
    if not answer[4]:
        return None
    return Mapping(n[0], Entry(Object(n[1]), Object(n[2])), n[3], n[4], Rights(n[5] + 2 * n[6]))
