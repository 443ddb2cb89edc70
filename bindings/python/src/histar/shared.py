"""A kernel that threads share: each has a seat, or they read one seat's kernel."""
import ctypes
from collections.abc import Sequence
from dataclasses import dataclass
from typing import TYPE_CHECKING, Any, Union

from ._call import Call
from ._library import Note as NoteRecord
from ._library import gathers, library, unlocked
from .kernel import Answer, Holder, Out, Session, must, numbers, refused, whole
from .names import Limits
from .refusals import BadBatch, OtherList, Refused

if TYPE_CHECKING:
    from typing_extensions import Self


@dataclass(frozen=True)
class Note:
    """What a seat has seen, for another seat of the same shared kernel to learn."""

    at: int
    since: int
    calls: int

    def _record(self) -> NoteRecord:
        return NoteRecord(whole(self.at, "note"), whole(self.since, "note"), whole(self.calls, "note"))


def _note(note: Note, call: str) -> NoteRecord:
    if not isinstance(note, Note):
        raise TypeError(f"{call}: a note is wanted, not {type(note).__name__}")
    return note._record()


def _seat(it: Holder, call: str) -> "Seat":
    if not isinstance(it, Seat):
        raise TypeError(f"{call}: a seat is wanted, not a {type(it).__name__}")
    return it


class Seat(Holder):
    """A seat of a kernel that threads share, with no lock. The first seat boots it; each other is opened beside one (`another`). `most` is
    how many write calls a seat may lack. With `logs` the list has a log: a dump is of all that the seat has seen.

    >>> with Seat(64, 1000) as seat, seat.another() as other:
    ...     made = seat.session().cat_create()
    ...     other.session().self_get().label.get(made).name
    'STAR'
    """

    __slots__ = ()

    def __init__(self, limits: Union[int, Limits] = 64, most: int = 1 << 22, *, logs: bool = False) -> None:
        given, bound = numbers(limits), whole(most, "share")
        self._opens("share", lambda place: library.histar_share_with(place, *given, bound, bool(logs)))

    def another(self) -> "Self":
        """Another seat beside this one, which has seen what this one has."""
        seat = type(self).__new__(type(self))
        seat._opens("another", lambda place: library.histar_seat_open(place, self._place))
        return seat

    def reader(self) -> "Reader":
        """A reader of the seat as it stands. Until all its readers are closed, calls through the seat are refused `Busy`."""
        return Reader(self)

    def seen(self) -> Note:
        """A note of what the seat has seen."""
        note = NoteRecord()
        must(library.histar_seen(self._place, note), "seen")
        return Note(note.at, note.since, note.calls)

    def learn(self, note: Note) -> None:
        """The seat sees all that the note tells. Refused `OtherList` where the note is of another shared kernel."""
        must(library.histar_learn(self._place, _note(note, "learn")), "learn")

    def batch(self, session: Session, calls: Sequence[Call[Any]]) -> list[Any]:
        """Makes 1 to 16 write calls of a session's thread at once, and gives the answer of each: what its method returns, or the exception of a
        refused one, which changed nothing. No other call stands between them. The session may be of another seat of the shared kernel."""
        given = list(calls)
        if not isinstance(session, Session) or not all(type(it) is Call for it in given):
            raise TypeError("batch: a session and calls of histar.calls are wanted")
        if not 1 <= len(given) <= 16:
            raise BadBatch("batch")
        answers = [Answer() for _ in given]
        room = (ctypes.c_uint64 * (110 * len(given)))()
        records = b"".join(it._record for it in given)
        try:
            must(library.histar_batch(self._place, session._thread, records, len(given), ctypes.addressof(room)), "batch")
            view = memoryview(room).cast("B")
            for place, it in enumerate(answers):
                it.view[:] = view[880 * place : 880 * (place + 1)]
            return [_told(call, it.view) for call, it in zip(given, answers)]
        finally:
            ctypes.memset(room, 0, ctypes.sizeof(room))

    def dump_since(self, older: "Seat", out: Out) -> None:
        """Writes the dump of what this seat has seen since an older one. It needs no log."""
        note = _note(self.seen(), "dump_since")
        place = _seat(older, "dump_since")._place
        self._writes(out, "dump_since", lambda text: unlocked.histar_dump_since(place, note, gathers, text))


def _told(call: Call[Any], answer: memoryview) -> Any:
    """The answer to a call of a batch."""
    if answer[0] == 12:
        return refused(int.from_bytes(answer[8:16], "little"), call.name, call.object)
    return call._read(answer)


class Reader(Holder):
    """A reader of a seat as it stands: `Seat.reader` gives it. Its write calls are refused `BadBatch`."""

    __slots__ = ("_seat",)

    def __init__(self, seat: Seat) -> None:
        self._seat = _seat(seat, "reader")
        self._opens("reader", lambda place: library.histar_reader_open(place, seat._place))


__all__ = ["Note", "OtherList", "Reader", "Refused", "Seat"]
