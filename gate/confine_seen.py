"""What others see of a program in confine: of its files, their rights, times and locks, and who waits where. Each way gives whether
the secret is seen by it, while the program runs and once it has ended."""
import ctypes
import fcntl
import mmap
import os
import select
import socket
import struct
import threading

from gate.confine_scenes import OWN, SECOND, SECRET

FUTEX, WAIT, WAKE = 202, 0, 1
GET_HINT = 1035
READ_FROM = 1
LIBC = ctypes.CDLL(None, use_errno=True)


def is_open(path, mode="r+b"):
    """Whether a file can be opened without a wait: it can't where another has a lease of it."""
    flags = os.O_NONBLOCK | (os.O_RDWR if "+" in mode else os.O_RDONLY)
    try:
        os.close(os.open(path, flags))
        return True
    except BlockingIOError:
        return False


def is_free(path, part=False):
    """Whether nobody has a lock of a file."""
    with open(path, "r+b") as it:
        try:
            if part:
                fcntl.lockf(it, fcntl.LOCK_EX | fcntl.LOCK_NB)
            else:
                fcntl.flock(it, fcntl.LOCK_EX | fcntl.LOCK_NB)
            return True
        except BlockingIOError:
            return False


def hint_of(path):
    with open(path, "rb") as it:
        return struct.unpack("Q", fcntl.fcntl(it, GET_HINT, bytes(8)))[0]


class Word:
    """The first word of a file, as memory that is shared with all who have mapped it."""

    def __init__(self, path):
        with open(path, "r+b") as it:
            self.map = mmap.mmap(it.fileno(), 0)
        self.at = ctypes.addressof(ctypes.c_char.from_buffer(self.map))
        self.value = struct.unpack("I", self.map[:4])[0]

    def is_woken(self):
        longest = struct.pack("qq", 0, 20_000_000)
        return LIBC.syscall(FUTEX, ctypes.c_void_p(self.at), WAIT, self.value, longest, 0, 0) == 0

    def has_waiter(self):
        return LIBC.syscall(FUTEX, ctypes.c_void_p(self.at), WAKE, 1, None, 0, 0) > 0


class Watched:
    """The folders of a scene, as others look at them."""

    def __init__(self, rooms):
        self.rooms = rooms
        self.text, self.report = rooms.paths["P"] + "/text", rooms.paths["R"]
        self.packets, self.below = (self.socket_in(name) for name in "PM")
        self.names = self.all_names()
        self.kept = self.watch = None
        self.said = ""
        self.status = 0
        self.rights = os.stat(self.report).st_mode

    def socket_in(self, name):
        made = socket.socket(socket.AF_UNIX, socket.SOCK_DGRAM)
        made.bind(self.rooms.paths[name] + "/socket")
        os.chmod(self.rooms.paths[name] + "/socket", 0o777)
        return made

    @property
    def word(self):
        """The text's first word, which is mapped once it is asked for."""
        self.kept = self.kept or Word(self.text)
        return self.kept

    def end(self):
        for it in (self.packets, self.below):
            it.close()
        if self.watch is not None:
            os.close(self.watch)

    def all_names(self):
        found = set()
        for name in "PO":
            found |= set(os.listdir(self.rooms.paths[name]))
        return found | {it for it in os.listdir(self.rooms.paths["H"]) if it != "dump"}

    def is_report_read(self):
        """Whether another has read the report, by a watch of it."""
        if self.watch is None:
            self.watch = LIBC.inotify_init1(os.O_NONBLOCK)
            LIBC.inotify_add_watch(self.watch, self.report.encode(), READ_FROM)
        try:
            return bool(os.read(self.watch, 4096))
        except BlockingIOError:
            return False

    def has_packet(self, of):
        return bool(select.select([of], [], [], 0)[0]) and SECRET.encode() in of.recv(4096)

    def sees(self, way):
        """Whether the secret is seen by a way."""
        it = {
            "text": lambda: SECRET in self.whole() or SECOND in self.whole(),
            "means": lambda: "1" in self.said,
            "own": lambda: OWN in self.said,
            "secret": lambda: not self.rooms.is_secret_whole(),
            "other report": lambda: SECRET in self.rooms.read("U") or any(SECOND in self.rooms.read(it) for it in "RE"),
            "faults linked": lambda: SECRET in self.rooms.read("P", "link"),
            "faults length": lambda: os.path.getsize(self.rooms.paths["E"]) == 4242,
            "faults readable": lambda: SECRET in self.rooms.read("E") and os.stat(self.rooms.paths["E"]).st_mode & 0o077 != 0,
            "report read": lambda: self.is_report_read(),
            "end": lambda: "the end" in self.whole(),
            "failure": lambda: "failing failed" in self.said,
            "status": lambda: self.status != 0,
            "names": lambda: self.all_names() - self.names != set(),
            "gone": lambda: not os.path.exists(self.text),
            "cut": lambda: os.path.exists(self.text) and os.path.getsize(self.text) == 0,
            "rights": lambda: os.stat(self.text).st_mode & 0o7777 != 0o644,
            "time": lambda: int(os.stat(self.text).st_mtime) == 14,
            "lock": lambda: not is_free(self.text),
            "own lock": lambda: not is_free(self.rooms.paths["O"] + "/own"),
            "report linked": lambda: SECRET in self.rooms.read("P", "link"),
            "usr lock": lambda: not is_free("/usr/lib/os-release"),
            "part lock": lambda: not is_free(self.text, part=True),
            "lease": lambda: not is_open(self.text),
            "hint": lambda: hint_of(self.text) != 0,
            "waking": lambda: self.word.is_woken(),
            "waiting": lambda: self.word.has_waiter(),
            "packet": lambda: self.has_packet(self.packets),
            "packet below": lambda: self.has_packet(self.below),
            "report rights": lambda: os.stat(self.report).st_mode != self.rights,
            "report time": lambda: int(os.stat(self.report).st_mtime) == 14,
            "report lock": lambda: not is_free(self.report),
            "report lease": lambda: not is_open(self.report),
            "report hint": lambda: hint_of(self.report) != 0,
            "report length": lambda: os.path.getsize(self.report) == 4242,
            "report readable": lambda: SECRET in self.rooms.read("R") and os.stat(self.report).st_mode & 0o077 != 0,
            "report emptied": lambda: os.path.getsize(self.report) == 0,
            "report gone": lambda: not os.path.exists(self.report),
            "open": lambda: os.path.islink(self.rooms.paths["Q"]),
        }
        return it[way]()

    def whole(self):
        return self.said + self.rooms.seen()

    def during(self, run, ways):
        """The ways by which the secret is seen while `run` runs and after."""
        seen, ends = set(), threading.Event()

        def look():
            while not ends.wait(0.02):
                for way in ways:
                    if way not in ("text", "means", "status") and self.sees(way):
                        seen.add(way)

        other = threading.Thread(target=look)
        other.start()
        try:
            run(self)
        finally:
            ends.set()
            other.join()
        return seen | {way for way in ways if self.sees(way)}
