"""Sessions of any thread. Who has a thread's id and the kernel calls as that thread, so this is for what decides who calls. What serves
clients is given a `Session`, which leads to no other thread."""
from .kernel import Holder, Session
from .names import Object


def session_of(kernel: Holder, thread: Object) -> Session:
    """The session of any thread of a kernel, a seat or a reader."""
    return Session(kernel, thread)
