"""The table of misuse in Python: what a program does wrong with a kernel, one thing a row. Each row raises what stands beside it, and leaves
the kernel as it was: its checkpoint, and the dumps of a log and a seat, are the same before and after. Nothing ends the interpreter."""
import contextlib
import copy
import gc
import io
import os
import pickle
import threading
import unittest

import histar
from histar import Call, Category, Entry, Keep, Kernel, Kinds, Label, Level, Limits, Note, Object, Reader, Rights, Seat, Session, calls
from histar.trusted import session_of

FAR = 1 << 32
KEY = b"the-key-that-nobody-may-see"


class Misused:
    """A kernel with a secret at level 3 in a category, a stranger, an address space and a packet; and others: one that is closed, one with a
    log, and a seat of a shared kernel."""

    def __init__(self):
        self.kernel = Kernel(64)
        self.boot = self.kernel.session()
        self.category = self.boot.cat_create()
        self.plain = Label(1)
        guarded = Label(1, {self.category: 3})
        self.secret = Entry.in_root(self.boot.segment_create(Object.ROOT, guarded, 2, 1))
        self.boot.segment_write(self.secret, 0, KEY)
        self.space = Entry.in_root(self.boot.as_create(Object.ROOT, guarded, 1))
        self.stranger = self.boot.thread_create(Object.ROOT, self.plain, 1, Label(2), 0)
        self.boot.dev_send(Entry.in_root(Object.DEVICE), b"packet")
        self.closed = Kernel(8)
        self.its = self.closed.session()
        self.closed.close()
        self.seat = Seat(8, 100, logs=True)
        self.logged = Kernel(8)
        self.logged.log_on()
        self.logged.session().cat_create()

    def state(self):
        """All that a row leaves as it is."""
        return self.kernel.checkpoint(), self.logged.dump(), self.seat.dump()


M = Misused()


class Raises(Exception):
    """What a function of the caller's raises."""


class Bad:
    """A value whose methods raise."""

    def __index__(self):
        raise Raises

    def __len__(self):
        raise Raises

    def __buffer__(self, _):
        raise Raises


class Full(io.RawIOBase):
    """A file that raises in the middle of a text, or takes nothing."""

    def __init__(self, raises):
        self.raises = raises

    def write(self, part):
        if self.raises:
            raise self.raises
        return 0


def created(label):
    return M.boot.segment_create(Object.ROOT, label, 2, 1)


def in_child(act):
    """Ends a child of fork with 0 where an act raises Unavailable there, and raises what the child found."""
    child = os.fork()
    if not child:
        try:
            act()
            os._exit(1)
        except histar.Unavailable:
            os._exit(0)
        finally:
            os._exit(2)
    if os.waitpid(child, 0)[1] == 0:
        raise histar.Unavailable("in a child")


def while_read(act):
    """With a reader of the seat open, which is closed again."""
    with M.seat.reader():
        act()


def while_forgotten(act):
    """With a reader that a cycle keeps, which is collected after."""
    kept = [M.seat.reader()]
    kept.append(kept)
    try:
        act()
    finally:
        del kept
        gc.collect()
        M.seat.session().self_get()


def of_other_seat():
    with Seat(8) as other:
        M.seat.learn(other.seen())


def closed_in_the_middle():
    with Kernel(8) as kernel:
        session = kernel.session()
        kernel.close()
        session.cat_create()


def never_opened():
    Kernel.__new__(Kernel).session().cat_create()


def opened_again():
    M.kernel.__init__(8)


def cyclic_end():
    """What is collected with its kernel calls it, and the kernel is gone already."""
    told = []

    class Last:
        def __init__(self):
            self.kernel = Kernel(8)
            self.session = self.kernel.session()
            self.kernel.close()

        def __del__(self):
            try:
                self.kernel.__del__()
                self.session.cat_create()
            except histar.Refused as refused:
                told.append(refused)

    it = Last()
    it.it = it
    del it
    gc.collect()
    raise told[0]


def called_past_the_bound():
    """A log that is full."""
    with Kernel(8) as kernel:
        kernel.log_on(1)
        kernel.session().cat_create()
        kernel.session().cat_create()


def logged_late():
    with Kernel(8) as kernel:
        kernel.session().cat_create()
        kernel.log_on()


def with_a_changed_text():
    text = bytearray(M.kernel.checkpoint())
    text[len(text) // 2 :] = b""
    Kernel.open_at(text)


def at_a_dump_with_events():
    Kernel.open_at(M.logged.dump())


def lacks_too_many():
    """More write calls than another seat may lack."""
    with Seat(8, 1) as first, first.another():
        for _ in range(2000):
            first.session().meta_set(Entry.in_root(Object.ROOT), b"name")


BOOT, ROOT = M.boot, Object.ROOT
ROWS = [
    # ---- Kernels that are not open, or are already ----
    ("a read of a closed kernel", histar.Unavailable, lambda: M.its.segment_read(M.secret, 0, 3)),
    ("a write to a closed kernel", histar.Unavailable, lambda: M.its.segment_write(M.secret, 0, b"new")),
    ("a dump of a closed kernel", histar.Unavailable, lambda: M.closed.dump()),
    ("a checkpoint of a closed kernel", histar.Unavailable, lambda: M.closed.checkpoint()),
    ("a log of a closed kernel", histar.Unavailable, lambda: M.closed.log_on()),
    ("a look-up of a closed kernel", histar.Unavailable, lambda: M.closed.kept_live(0)),
    ("a call after a close by `with`", histar.Unavailable, closed_in_the_middle),
    ("a call of a kernel that was never opened", histar.Unavailable, never_opened),
    ("a second open", histar.Busy, opened_again),
    ("a call by what is collected with its kernel", histar.Unavailable, cyclic_end),
    ("a kernel of 7 pages", histar.BadLimits, lambda: Kernel(7)),
    ("a kernel of -1 pages", histar.BadLimits, lambda: Kernel(-1)),
    ("a kernel of 2^64 + 64 pages", histar.BadLimits, lambda: Kernel((1 << 64) + 64)),
    ("a device at star", histar.BadLimits, lambda: Kernel(Limits(device=Level.STAR))),
    ("a kernel of a text of pages", TypeError, lambda: Kernel("64")),
    ("a kernel of half a page", TypeError, lambda: Kernel(64.5)),
    ("a copy", TypeError, lambda: copy.copy(M.kernel)),
    ("a deep copy of a session", TypeError, lambda: copy.deepcopy(M.boot)),
    ("a pickled kernel", TypeError, lambda: pickle.dumps(M.kernel)),
    # ---- A child of fork ----
    ("a call in a child of fork", histar.Unavailable, lambda: in_child(BOOT.cat_create)),
    ("a read in a child of fork", histar.Unavailable, lambda: in_child(lambda: BOOT.segment_read(M.secret, 0, 3))),
    ("a close in a child of fork", histar.Unavailable, lambda: in_child(M.kernel.close)),
    ("a dump in a child of fork", histar.Unavailable, lambda: in_child(M.logged.dump)),
    ("a seat beside one in a child of fork", histar.Unavailable, lambda: in_child(M.seat.another)),
    ("a reader in a child of fork", histar.Unavailable, lambda: in_child(M.seat.reader)),
    # ---- Numbers, lengths and labels that make no call ----
    ("a write far behind", histar.BadBatch, lambda: BOOT.segment_write(M.secret, FAR, b"new")),
    ("a write before the first byte", histar.BadBatch, lambda: BOOT.segment_write(M.secret, -1, b"new")),
    ("a read at 2^64", histar.BadBatch, lambda: BOOT.segment_read(M.secret, 1 << 64, 3)),
    ("a read of 2^32 + 3 bytes", histar.BadBatch, lambda: BOOT.segment_read(M.secret, 0, FAR + 3)),
    ("a read of 0 bytes", histar.Bounds, lambda: BOOT.segment_read(M.secret, 0, 0)),
    ("a write of 65 bytes", histar.BadBatch, lambda: BOOT.segment_write(M.secret, 0, bytes(65))),
    ("a write of 2^24 bytes", histar.BadBatch, lambda: BOOT.segment_write(M.secret, 0, bytes(1 << 24))),
    ("metadata of 65 bytes", histar.BadBatch, lambda: BOOT.meta_set(M.secret, bytearray(65))),
    ("a quota that moves by 2^32 + 1", histar.BadBatch, lambda: BOOT.quota_move(M.secret, FAR + 1)),
    ("a quota that moves by -2^70", histar.BadBatch, lambda: BOOT.quota_move(M.secret, -(1 << 70))),
    ("kinds that are none", histar.BadBatch, lambda: BOOT.container_create(ROOT, M.plain, 2, FAR)),
    ("rights that are none", histar.BadBatch, lambda: BOOT.as_map(M.space, 0, 0, M.secret, 0, 1, Rights(FAR + 1))),
    ("a label of 25 pairs", histar.BadBatch, lambda: created(Label(1, [(M.category, 3)] * 25))),
    ("a label of 2,000 pairs", histar.BadBatch, lambda: created(Label(1, [(M.category, 3)] * 2000))),
    ("a label that names a category twice", histar.BadLabel, lambda: created(Label(1, [(M.category, 3), (M.category, 2)]))),
    ("a label at level 4", ValueError, lambda: Label(4)),
    ("a label at -1 in a category", ValueError, lambda: Label(1, {M.category: -1})),
    ("a label of objects", TypeError, lambda: Label(1, {Object.ROOT: 3})),
    ("a label of a text", ValueError, lambda: Label.parse("{#3:4,1}")),
    ("a label of a text with a sign", ValueError, lambda: Label.parse("{#+3:3,1}")),
    ("a label of a text of many digits", ValueError, lambda: Label.parse("{#" + "9" * 9999 + ":3,1}")),
    ("an object of -1", ValueError, lambda: Object(-1)),
    ("an object of 2^64", ValueError, lambda: Object(1 << 64)),
    ("a log that keeps what is none", histar.BadBatch, lambda: M.logged.cut_log(9, 2)),
    ("a log of -1 calls", histar.BadBatch, lambda: M.logged.cut_log(-1)),
    ("a log after a write", histar.BadBatch, logged_late),
    ("a call past the log's bound", histar.LogFull, called_past_the_bound),
    # ---- Values of another type ----
    ("an object for an entry", TypeError, lambda: BOOT.segment_read(ROOT, 0, 3)),
    ("a category for an object", TypeError, lambda: BOOT.container_list(M.category, 0)),
    ("a number for an object", TypeError, lambda: BOOT.container_list(1, 0)),
    ("an entry of numbers", TypeError, lambda: Entry(1, 4)),
    ("an entry of a text", TypeError, lambda: Entry.in_root("4")),
    ("nothing for an entry", TypeError, lambda: BOOT.unref(None)),
    ("a text for bytes", TypeError, lambda: BOOT.segment_write(M.secret, 0, "new")),
    ("a list for bytes", TypeError, lambda: BOOT.segment_write(M.secret, 0, [1, 2])),
    ("a memory view for bytes", TypeError, lambda: BOOT.segment_write(M.secret, 0, memoryview(b"new"))),
    ("a half for a number", TypeError, lambda: BOOT.segment_read(M.secret, 0.5, 3)),
    ("a text for a number", TypeError, lambda: BOOT.segment_read(M.secret, "0", 3)),
    ("a level for a label", TypeError, lambda: created(Level.L1)),
    ("a text for a label", TypeError, lambda: created("{1}")),
    ("a label's class for a label", TypeError, lambda: created(Label)),
    ("a number that raises", Raises, lambda: BOOT.segment_read(M.secret, Bad(), 3)),
    ("bytes that raise", Raises, lambda: BOOT.segment_write(M.secret, 0, Bad())),
    ("a thread that is a number", TypeError, lambda: session_of(M.kernel, 2)),
    ("a session of no kernel", TypeError, lambda: Session("kernel", Object.BOOT)),
    ("a call that is a text", TypeError, lambda: BOOT.call("segment_read")),
    ("a call of a short record", TypeError, lambda: BOOT.call(Call("segment_read", None, b"short", bytes))),
    ("a call of a record that changes", TypeError, lambda: BOOT.call(Call("segment_read", None, bytearray(824), bytes))),
    ("a look-up of a number", TypeError, lambda: M.kernel.kept_use(2)),
    ("an open at a text", TypeError, lambda: Kernel.open_at("text")),
    # ---- Threads that are gone ----
    ("a thread that is no thread", histar.Halted, lambda: session_of(M.kernel, Object(99)).self_get()),
    ("a thread of an id past 2^61", histar.Halted, lambda: session_of(M.kernel, Object((1 << 64) - 1)).self_get()),
    # ---- Texts ----
    ("an open at no text", histar.TextFault, lambda: Kernel.open_at(b"")),
    ("an open at half a checkpoint", histar.TextFault, with_a_changed_text),
    ("an open at a dump with events", histar.HasEvents, at_a_dump_with_events),
    ("a dump to what raises", Raises, lambda: M.logged.dump_to(Full(Raises()))),
    ("a dump to what is interrupted", KeyboardInterrupt, lambda: M.logged.dump_to(Full(KeyboardInterrupt()))),
    ("a checkpoint to what takes nothing", OSError, lambda: M.kernel.checkpoint_to(Full(None))),
    ("a dump to nothing", AttributeError, lambda: M.logged.dump_to(None)),
    # ---- Seats and readers ----
    ("a note of another shared kernel", histar.OtherList, of_other_seat),
    ("a note of what nobody made", histar.OtherList, lambda: M.seat.learn(Note(1, 2, 3))),
    ("a note of more than there is", histar.OtherList, lambda: M.seat.learn(Note(M.seat.seen().at, M.seat.seen().since, 1 << 40))),
    ("a note of numbers that are none", histar.BadBatch, lambda: M.seat.learn(Note(-1, 2, 3))),
    ("a note that is a number", TypeError, lambda: M.seat.learn(3)),
    ("a batch of no calls", histar.BadBatch, lambda: M.seat.batch(M.seat.session(), [])),
    ("a batch of 17 calls", histar.BadBatch, lambda: M.seat.batch(M.seat.session(), [calls.cat_create()] * 17)),
    ("a batch with a read", histar.BadBatch, lambda: M.seat.batch(M.seat.session(), [calls.cat_create(), calls.self_get()])),
    ("a batch of a text", TypeError, lambda: M.seat.batch(M.seat.session(), "calls")),
    ("a batch of a kernel's session as a thread", TypeError, lambda: M.seat.batch(Object.BOOT, [calls.cat_create()])),
    ("a call through a seat with a reader", histar.Busy, lambda: while_read(M.seat.session().self_get)),
    ("a close of a seat with a reader", histar.Busy, lambda: while_read(M.seat.close)),
    ("a call through a seat whose reader is forgotten", histar.Busy, lambda: while_forgotten(M.seat.session().self_get)),
    ("a write by a reader", histar.BadBatch, lambda: while_read(lambda: M.seat.reader().session().cat_create())),
    ("a dump of a reader", histar.BadBatch, lambda: M.seat.reader().dump()),
    ("a reader of a kernel", TypeError, lambda: Reader(M.kernel)),
    ("a reader of a closed seat", histar.Unavailable, lambda: closed_seat().reader()),
    ("a seat beside a closed one", histar.Unavailable, lambda: closed_seat().another()),
    ("a write where a seat lacks too many", histar.ListFull, lacks_too_many),
]


def closed_seat():
    seat = Seat(8)
    seat.close()
    return seat


class Misuse(unittest.TestCase):
    def test_rows(self):
        before = M.state()
        for what, raised, misuses in ROWS:
            with self.subTest(what):
                self.assertRaises(raised, misuses)
                gc.collect()
                self.assertEqual(M.state(), before)
        self.assertGreater(len(ROWS), 40)

    def test_nothing_is_shown(self):
        shown = repr([M.kernel, M.boot, M.seat, calls.segment_write(M.secret, 0, KEY), M.secret])
        with contextlib.suppress(histar.Refused):
            M.stranger.segment_write(M.secret, 0, KEY)
        try:
            M.its.segment_write(M.secret, 0, KEY)
        except histar.Refused as refused:
            shown += repr(refused) + str(refused)
        self.assertNotIn(KEY.decode(), shown)

    def test_threads_without_a_lock(self):
        """Threads call one kernel with no lock: each call is made as if alone, and nobody is told another's answer."""
        wrong = []
        with Kernel(64) as kernel:
            boot = kernel.session()
            segments = [Entry.in_root(boot.segment_create(ROOT, M.plain, 2, 1)) for _ in range(8)]

            def works(number):
                own = bytes([number]) * 64
                for _ in range(2000):
                    boot.segment_write(segments[number], 0, own)
                    if boot.segment_read(segments[number], 0, 64) != own:
                        wrong.append(number)

            threads = [threading.Thread(target=works, args=(it,)) for it in range(8)]
            for it in threads:
                it.start()
            for it in threads:
                it.join()
        self.assertEqual(wrong, [])

    def test_a_dump_beside_calls(self):
        """A dump gives Python's lock back: a call meanwhile is made or refused Busy, and the dump is whole or refused."""
        told, dumps = set(), []

        def dumps_on():
            # (until a call was made meanwhile, and a dump)
            for _ in range(1000):
                with contextlib.suppress(histar.Busy):
                    dumps.append(kernel.dump())
                if "made" in told and dumps:
                    break

        with Kernel(64) as kernel:
            kernel.log_on(keep=Keep.ALL)
            boot = kernel.session()
            for _ in range(3000):
                boot.self_get()
            thread = threading.Thread(target=dumps_on)
            thread.start()
            while thread.is_alive():
                try:
                    boot.self_get()
                    told.add("made")
                except histar.Busy:
                    told.add("busy")
            thread.join()
            for it in dumps:
                self.assertTrue(it.endswith(b"\n"))
        self.assertIn("made", told)
        self.assertTrue(dumps)

    def test_a_batch(self):
        with Seat(64) as seat, seat.another() as other:
            boot = seat.session()
            made = seat.batch(boot, [calls.segment_create(ROOT, M.plain, 2, 1), calls.segment_create(ROOT, M.plain, 2, 2), calls.cat_create()])
            self.assertEqual((made[0], type(made[1]), made[2]), (Object(4), histar.NoQuota, Category(1)))
            self.assertEqual(other.session().container_list(ROOT, 0).objects[-1], made[0])

    def test_values(self):
        """What is a value is copied, pickled and compared as one."""
        label = Label(1, {Category(3): Level.STAR})
        for it in (label, Object(4), Category(3), Entry.in_root(Object(4)), Limits(), histar.CannotObserve("segment_read", 4), Kinds.GATES | Kinds.THREADS):
            again = pickle.loads(pickle.dumps(it))
            self.assertEqual((str(again), type(again)), (str(it), type(it)))
        self.assertEqual(Label.parse(str(label)), label)
        self.assertEqual(eval(repr(label)), label)
        with self.assertRaises(AttributeError):
            Object.ROOT.id = 4
        self.assertEqual(len({label, Label(1, [(Category(3), Level.STAR), (Category(4), 1)])}), 1)

    def test_a_service_comes_back(self):
        text = M.kernel.checkpoint()
        with Kernel.open_at(text) as again:
            self.assertEqual(again.session().segment_read(M.secret, 0, len(KEY)), KEY)
            self.assertEqual(again.checkpoint(), text)
            parts = io.BytesIO()
            again.checkpoint_to(parts)
            self.assertEqual(parts.getvalue(), text)

    def test_objects_in(self):
        with Kernel(64) as kernel:
            boot = kernel.session()
            made = [boot.segment_create(ROOT, M.plain, 1, 0) for _ in range(20)]
            self.assertEqual(list(boot.objects_in(ROOT))[-20:], made)

    def test_dumps_since(self):
        with Seat(64) as seat, seat.another() as older:
            seat.session().cat_create()
            text = io.BytesIO()
            seat.dump_since(older, text)
            self.assertIn(b"cat_create => cat #1", text.getvalue())


if __name__ == "__main__":
    unittest.main()
