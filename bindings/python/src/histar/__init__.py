"""A proved label kernel: HiStar's object model (OSDI 2006) in the program that loads it.

The kernel decides which thread may read and write what, by labels.

>>> from histar import CannotObserve, Entry, Kernel, Label, Object
>>> kernel = Kernel(64)
>>> boot = kernel.session()
>>> c, guests = boot.cat_create(), boot.cat_create()
>>> secret = Entry.in_root(boot.segment_create(Object.ROOT, Label(1, {c: 3}), 2, 1))
>>> boot.segment_write(secret, 0, b"key")
>>> guest = Label(1, {guests: 2})  # it can't delete what is at 1
>>> stranger = boot.thread_create(Object.ROOT, guest, 1, Label(2), 0)
>>> boot.segment_read(secret, 0, 3)
b'key'
>>> stranger.segment_read(secret, 0, 3)
Traceback (most recent call last):
histar.refusals.CannotObserve: segment_read #4: 5 CannotObserve
>>> kernel.close()
"""
from . import calls, refusals
from ._call import Call
from .kernel import Kernel, Session
from .labels import STAR, Category, Label, Level
from .names import Entered, Entry, Keep, Kinds, Limits, Listed, Mapping, Object, Order, Own, Quota, Rights
from .refusals import *  # noqa: F403
from .refusals import __all__ as _refusals
from .shared import Note, Reader, Seat

__version__ = "0.1.0"
__all__ = [
    "STAR", "Call", "Category", "Entered", "Entry", "Keep", "Kernel", "Kinds", "Label", "Level", "Limits", "Listed", "Mapping", "Note", "Object", "Order",
    "Own", "Quota", "Reader", "Rights", "Seat", "Session", "calls", "refusals",
]
__all__ += _refusals
