"""A kernel, and sessions of its threads."""
import atexit
import contextlib
import ctypes
import weakref
from collections.abc import Iterator
from types import TracebackType
from typing import TYPE_CHECKING, Any, Callable, Final, NoReturn, Optional, Protocol, TypeVar, Union

from ._call import Call
from ._library import CLOSED, Gathered, Label as LabelRecord, gathers, library, unlocked
from ._methods import Methods
from .labels import Label, label_of
from .names import Keep, Limits, Object, Order, Rights
from .refusals import REFUSALS, BadBatch, BadLimits, Refused, TextMemory

if TYPE_CHECKING:
    from typing_extensions import Self

T = TypeVar("T")
H = TypeVar("H", bound="Holder")

_MOST: Final = (1 << 64) - 1
_PART: Final = 1 << 16
_make: Final = library.histar_make


class Out(Protocol):
    """What a text is written to, as a file that was opened for bytes."""

    def write(self, part: bytes, /) -> object: ...


def refused(number: int, call: str, object: Optional[int] = None) -> Refused:
    """The exception of a refusal's number."""
    return REFUSALS.get(number, Refused)(call, object)


def must(number: int, call: str) -> None:
    if number:
        raise refused(number, call)


def whole(value: object, what: str, other: type[Refused] = BadBatch) -> int:
    """A number of 64 bits; one that has none is refused as the library refuses a number that is too large."""
    if not isinstance(value, int):
        raise TypeError(f"{what} is an int, not {type(value).__name__}")
    if not 0 <= value <= _MOST:
        raise other(what)
    return int(value)


class Answer:
    """Room that an answer is written into, by one call at a time."""

    __slots__ = ("view", "place")
    ZEROS: Final = bytes(880)

    def __init__(self) -> None:
        room = (ctypes.c_uint64 * 110)()
        self.view = memoryview(room).cast("B")
        self.place = ctypes.addressof(room)


# Kernels that nobody has any more and that could not be given back: seats whose readers went after them.
_left: list[int] = []


def _give_back(place: int) -> None:
    if library.histar_free(place):
        _left.append(place)
    elif _left:
        places, _left[:] = _left[:], []
        _left.extend(it for it in places if library.histar_free(it))


_open: "weakref.WeakSet[Holder]" = weakref.WeakSet()


@atexit.register
def _close_all() -> None:
    """Closes what is open, so that no secret stays. Its memory stays until the process ends: a thread may still call."""
    for _ in range(2):  # (readers keep their seats open)
        for it in list(_open):
            library.histar_close(it._place)


class Holder:
    """What holds a kernel, a seat or a reader. It is closed by `close`, at the end of `with`, or when nobody has it any more."""

    __slots__ = ("_place", "_answers", "__weakref__")
    _place: int
    _answers: list[Answer]

    def __new__(cls, *_: object, **__: object) -> "Self":
        it = super().__new__(cls)
        it._place = CLOSED
        it._answers = []
        return it

    def _opens(self, call: str, opens: Callable[[int], Any]) -> None:
        """Opens what this holds by a function of the library."""
        if self._place != CLOSED:
            raise refused(46, call)
        place: Optional[int] = library.histar_new()
        if not place:
            raise refused(30, call)
        number = opens(place)
        if number:
            library.histar_free(place)
            raise refused(number, call)
        self._place = place
        _open.add(self)

    def close(self) -> None:
        """Gives all memory back and wipes it; what is closed stays so. Refused `Busy` where a text is being given, and of a seat with readers."""
        if self._place != CLOSED:
            must(library.histar_close(self._place), "close")

    def __enter__(self: H) -> H:
        return self

    def __exit__(self, kind: Optional[type[BaseException]], value: Optional[BaseException], at: Optional[TracebackType]) -> None:
        self.close()

    def __del__(self) -> None:
        place, self._place = self._place, CLOSED
        if place != CLOSED:
            _give_back(place)

    def __reduce__(self) -> NoReturn:
        raise TypeError(f"a {type(self).__name__} is not to be copied")

    def __repr__(self) -> str:
        return f"<{type(self).__name__}>"

    def session(self) -> "Session":
        """The session of the boot thread."""
        return Session(self, Object.BOOT)

    def _make(self, thread: int, call: Call[T]) -> T:
        """Makes a call. A call that interrupts this one has room of its own."""
        answers = self._answers
        try:
            answer = answers.pop()
        except IndexError:
            answer = Answer()
        number = _make(self._place, thread, call._record, answer.place)
        if number:
            answers.append(answer)
            raise refused(number, call.name, call.object)
        told = call._read(answer.view)
        answer.view[:] = Answer.ZEROS
        answers.append(answer)
        return told

    def _text(self, call: str, gives: Callable[[Gathered], Any]) -> Gathered:
        """A text that the library gathers, which is forgotten where it is refused."""
        text = Gathered()
        number = gives(text)
        if number:
            library.histar_forgets(text)
            raise refused(number, call)
        return text

    def _bytes(self, call: str, gives: Callable[[Gathered], Any]) -> bytes:
        text = self._text(call, gives)
        try:
            return ctypes.string_at(text.bytes, text.len)
        finally:
            library.histar_forgets(text)

    def _writes(self, out: Out, call: str, gives: Callable[[Gathered], Any]) -> None:
        """Writes a text in parts. Nobody is given it before it is whole, so what `out` raises costs the text alone."""
        text = self._text(call, gives)
        try:
            for at in range(0, text.len, _PART):
                part = ctypes.string_at(text.bytes + at, min(_PART, text.len - at))
                _write_whole(out, part)
        finally:
            library.histar_forgets(text)

    def dump(self) -> bytes:
        """The text of the log's dump: what `./histar run --dump` writes of a run. Refused `BadBatch` where no log was begun."""
        return self._bytes("dump", lambda text: unlocked.histar_dump_to(self._place, gathers, text))

    def dump_to(self, out: Out) -> None:
        """Writes the dump."""
        self._writes(out, "dump", lambda text: unlocked.histar_dump_to(self._place, gathers, text))


def _write_whole(out: Out, part: bytes) -> None:
    """Writes a part to what may take less of it at a time."""
    left = memoryview(part)
    while left:
        count = out.write(bytes(left) if len(left) < len(part) else part)
        if count is None or not isinstance(count, int):
            return
        if not 0 < count <= len(left):
            raise OSError(f"a text was not written: {count} of {len(left)} bytes")
        left = left[count:]


class Kernel(Holder):
    """A kernel of so many pages of 256 bytes, 8 to 1,024, or with all limits.

    >>> with Kernel(64) as kernel:
    ...     boot = kernel.session()
    ...     str(boot.cat_create())
    '#1'
    """

    __slots__ = ()

    def __init__(self, limits: Union[int, Limits] = 64) -> None:
        given = numbers(limits)
        self._opens("boot", lambda place: library.histar_open_with(place, *given))

    @classmethod
    def open_at(cls, text: Union[bytes, bytearray, memoryview]) -> "Self":
        """A kernel at the text of a checkpoint: in its state, so every read is answered the same, and ids and categories go on."""
        if not isinstance(text, (bytes, bytearray, memoryview)):
            raise TypeError(f"a checkpoint is of bytes, not of {type(text).__name__}")
        given, kernel = bytes(text), cls.__new__(cls)
        kernel._opens("open_at", lambda place: unlocked.histar_open_at(place, given, len(given)))
        return kernel

    def log_on(self, most: int = _MOST, keep: Keep = Keep.WRITES) -> None:
        """Begins the log, of `most` calls at most, before the first write call."""
        must(library.histar_log_on(self._place, whole(most, "log_on"), whole(keep, "log_on")), "log_on")

    def cut_log(self, most: int = _MOST, keep: Keep = Keep.WRITES) -> None:
        """Begins the log anew at the kernel as it stands, and gives the memory of its calls back."""
        must(library.histar_log_cut(self._place, whole(most, "cut_log"), whole(keep, "cut_log")), "cut_log")

    def checkpoint(self) -> bytes:
        """The text of a checkpoint: the kernel's limits and state, with all that segments hold."""
        return self._bytes("checkpoint", lambda text: unlocked.histar_checkpoint_to(self._place, gathers, text))

    def checkpoint_to(self, out: Out) -> None:
        """Writes the checkpoint."""
        self._writes(out, "checkpoint", lambda text: unlocked.histar_checkpoint_to(self._place, gathers, text))

    # ---- Look-ups in what the kernel keeps beside its objects: for tests and audits, since no label guards them ----

    def kept_live(self, place: int) -> Optional[Object]:
        """The live object at a place, from 0, among all in the order of their ids."""
        is_there, found = ctypes.c_int(), ctypes.c_uint64()
        must(library.histar_kept_live(self._place, whole(place, "kept_live"), is_there, found), "kept_live")
        return Object(found.value) if is_there.value else None

    def kept_use(self, it: Object) -> Optional[int]:
        """What a live object uses, in pages of 256 bytes."""
        is_there, found = ctypes.c_int(), ctypes.c_uint32()
        must(library.histar_kept_use(self._place, _id(it), is_there, found), "kept_use")
        return found.value if is_there.value else None

    def kept_translation(self, thread: Object, slot: int) -> Optional[tuple[Object, Rights]]:
        """What a slot, 0 to 15, of a live thread's address space shows."""
        is_there, found, rights = ctypes.c_int(), ctypes.c_uint64(), ctypes.c_uint32()
        given = _id(thread), whole(slot, "kept_translation")
        must(library.histar_kept_translation(self._place, *given, is_there, found, rights), "kept_translation")
        return (Object(found.value), Rights(rights.value)) if is_there.value else None

    def kept_label(self, index: int) -> Optional[Label]:
        """The label of an index, from 0 to 65,535."""
        is_there, found = ctypes.c_int(), LabelRecord()
        must(library.histar_kept_label(self._place, whole(index, "kept_label"), is_there, found), "kept_label")
        return label_of(memoryview(found).cast("B")) if is_there.value else None

    def kept_order(self, first: int, second: int) -> Optional[Order]:
        """How the label of an index compares with that of another."""
        is_there, found = ctypes.c_int(), ctypes.c_uint32()
        given = whole(first, "kept_order"), whole(second, "kept_order")
        must(library.histar_kept_order(self._place, *given, is_there, found), "kept_order")
        return Order(*(bool(found.value & bit) for bit in (1, 2, 4))) if is_there.value else None


def _id(it: Object) -> int:
    if type(it) is not Object:
        raise TypeError(f"an object is wanted, not {type(it).__name__}")
    return it.id


def numbers(limits: Union[int, Limits]) -> tuple[int, int, int, int]:
    """The limits as the library is given them."""
    given = limits if isinstance(limits, Limits) else Limits(limits)
    device = getattr(given.device, "value", given.device)
    return (whole(given.pages, "boot", BadLimits), whole(device, "boot", BadLimits), whole(given.next_id, "boot", BadLimits),
            whole(given.next_category, "boot", BadLimits))


class Session(Methods):
    """A kernel and one thread of it: who has a session calls as that thread and as no other. Each call may be refused `Halted`, where the
    thread is gone, and `BadBatch`, where the arguments make no call. A refused call changes nothing."""

    __slots__ = ("_kernel", "_thread", "id")
    id: Object

    def __init__(self, kernel: Holder, thread: Object) -> None:
        if not isinstance(kernel, Holder):
            raise TypeError(f"a session is of a kernel, not of a {type(kernel).__name__}")
        self._kernel = kernel
        self._thread = _id(thread)
        self.id = thread

    def call(self, call: Call[T]) -> T:
        """Makes a call of `histar.calls`."""
        if type(call) is not Call:
            raise TypeError(f"a call of histar.calls is wanted, not {type(call).__name__}")
        return self._kernel._make(self._thread, call)

    def _session_of(self, thread: Object) -> "Session":
        return Session(self._kernel, thread)

    def objects_in(self, container: Object) -> Iterator[Object]:
        """What a container lists, by as many calls as it takes."""
        at = 0
        while found := self.container_list(container, at).objects:
            yield from found
            at += len(found)

    def __repr__(self) -> str:
        return f"<Session {self.id}>"
