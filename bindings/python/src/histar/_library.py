"""The library, by its functions that are called. It stands in the folder that HISTAR_LIB names, else beside this package, else where the
system keeps libraries."""
import ctypes
import os
from pathlib import Path
from typing import Final

NAME: Final = "libhistar.so.0"

# The layout of the records of this package, as HISTAR_LAYOUT has it.
LAYOUT: Final = 1001

# What the records of this package take.
SIZES: Final = {"histar_request": 824, "histar_answer": 880, "histar_label": 224, "histar_note": 24, "histar_gathered": 24}


def _place() -> str:
    named = os.environ.get("HISTAR_LIB")
    if named:
        return os.path.join(named, NAME)
    beside = Path(__file__).with_name(NAME)
    return str(beside) if beside.exists() else NAME


class Note(ctypes.Structure):
    """What a seat has seen, as a record."""

    _fields_ = [("at", ctypes.c_uint64), ("since", ctypes.c_uint64), ("calls", ctypes.c_uint64)]


class Gathered(ctypes.Structure):
    """A text in memory of the library's, as a record."""

    _fields_ = [("bytes", ctypes.c_void_p), ("len", ctypes.c_size_t), ("room", ctypes.c_size_t)]


class Label(ctypes.Structure):
    """A label, as a record."""

    _fields_ = [("default", ctypes.c_uint8), ("count", ctypes.c_uint8), ("levels", ctypes.c_uint8 * 24), ("categories", ctypes.c_uint64 * 24)]


_U32, _U64, _AT = ctypes.c_uint32, ctypes.c_uint64, ctypes.c_void_p
_INT, _NUMBER = ctypes.POINTER(ctypes.c_int), ctypes.POINTER(ctypes.c_uint64)
_FLAGS = ctypes.POINTER(ctypes.c_uint32)

# What each function is given, and what it answers. Those that may take long are called without Python's lock.
_LONG: Final = {
    "histar_open_at": ([_AT, ctypes.c_char_p, ctypes.c_size_t], _U32),
    "histar_dump_to": ([_AT, _AT, ctypes.POINTER(Gathered)], _U32),
    "histar_dump_since": ([_AT, Note, _AT, ctypes.POINTER(Gathered)], _U32),
    "histar_checkpoint_to": ([_AT, _AT, ctypes.POINTER(Gathered)], _U32),
}
_SHORT: Final = {
    "histar_layout": ([], _U32),
    "histar_size_of": ([ctypes.c_char_p], ctypes.c_size_t),
    "histar_call_number": ([ctypes.c_char_p], _U32),
    "histar_new": ([], _AT),
    "histar_free": ([_AT], _U32),
    "histar_close": ([_AT], _U32),
    "histar_open_with": ([_AT, _U64, _U64, _U64, _U64], _U32),
    "histar_share_with": ([_AT, _U64, _U64, _U64, _U64, _U64, ctypes.c_int], _U32),
    "histar_seat_open": ([_AT, _AT], _U32),
    "histar_reader_open": ([_AT, _AT], _U32),
    "histar_make": ([_AT, _U64, ctypes.c_char_p, _AT], _U32),
    "histar_batch": ([_AT, _U64, ctypes.c_char_p, ctypes.c_size_t, _AT], _U32),
    "histar_seen": ([_AT, ctypes.POINTER(Note)], _U32),
    "histar_learn": ([_AT, Note], _U32),
    "histar_log_on": ([_AT, _U64, _U64], _U32),
    "histar_log_cut": ([_AT, _U64, _U64], _U32),
    "histar_forgets": ([ctypes.POINTER(Gathered)], None),
    "histar_kept_live": ([_AT, _U64, _INT, _NUMBER], _U32),
    "histar_kept_use": ([_AT, _U64, _INT, _FLAGS], _U32),
    "histar_kept_translation": ([_AT, _U64, _U64, _INT, _NUMBER, _FLAGS], _U32),
    "histar_kept_label": ([_AT, _U64, _INT, ctypes.POINTER(Label)], _U32),
    "histar_kept_order": ([_AT, _U64, _U64, _INT, _FLAGS], _U32),
}


def _declare(library: ctypes.CDLL, functions: dict[str, tuple[list[object], object]]) -> None:
    for name, (given, answered) in functions.items():
        function = getattr(library, name)
        function.argtypes, function.restype = given, answered


def _load() -> tuple[ctypes.CDLL, ctypes.CDLL]:
    """The library as one whose calls keep Python's lock, and as one whose calls give it back."""
    place = _place()
    try:
        short, long = ctypes.PyDLL(place), ctypes.CDLL(place)
        _declare(short, _SHORT)  # type: ignore[arg-type]
        _declare(long, _LONG)  # type: ignore[arg-type]
    except OSError as fault:
        raise ImportError(f"histar: the library is not there ({fault}): install libhistar0, or name its folder in HISTAR_LIB") from None
    except AttributeError as fault:
        raise ImportError(f"histar: {place} is older than this package: {fault}") from None
    layout = short.histar_layout()
    if layout // 1000 != LAYOUT // 1000 or layout < LAYOUT:
        raise ImportError(f"histar: {place} has records of the layout {layout}, and this package {LAYOUT}")
    if any(short.histar_size_of(name.encode()) != size for name, size in SIZES.items()):
        raise ImportError(f"histar: {place} has records of another size")
    return short, long


library, unlocked = _load()
gathers: Final = ctypes.cast(library.histar_gathers, ctypes.c_void_p)

# A kernel that is closed for good: what has no other is at it, so that no call ever gets an address of nothing.
CLOSED: Final[int] = library.histar_new()
if not CLOSED:
    raise MemoryError("histar")
