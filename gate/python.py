"""The Python package over the library that is loaded: scripts and random scripts by its methods print what is stored, and what ./histar prints;
the table of misuse; what becomes of kernels with their process; types; the programs of docs/EMBED.md and bindings/python/examples. And the
header that cffi reads."""
import os
import shutil
import subprocess
import sys

from gate.packages import PYTHON, SONAME, shared_library
from gate.plays import ran, text

TESTS = "bindings/python/tests"

# What a checker of types finds wrong.
MISTYPED = (
    "boot.segment_read(histar.Object.ROOT, 0, 3)", "boot.container_list(boot.cat_create(), 0)", "boot.cat_create().id", "boot.segment_write(note, 0, 'text')",
    "boot.segment_create(histar.Object.ROOT, histar.Level.L1, 2, 1)", "boot.call(histar.calls.segment_len(note)).decode()", "histar.Label(1, {note: 3})",
)
TYPED = "import histar\n\nboot = histar.Kernel(64).session()\nnote = histar.Entry.in_root(histar.Object(4))\n"

# A first program by cffi, which compiles nothing, over the declarations of a header.
BY_CFFI = """
import sys
from cffi import FFI
ffi = FFI()
ffi.cdef(open("include/histar.cffi.h").read())
lib = ffi.dlopen(sys.argv[1])
for it in ("object", "category", "entry", "label", "request", "answer", "note", "self", "quota", "list", "mapping", "gathered"):
    assert ffi.sizeof(f"histar_{it}") == lib.histar_size_of(f"histar_{it}".encode()), it
assert lib.histar_call_number(b"load") == lib.HISTAR_CALL_LOAD and lib.histar_call_number(b"none") == 0
boot, root, made = lib.histar_object_of(2), lib.histar_object_of(1), ffi.new("histar_object *")
k = lib.histar_new()
assert not lib.histar_open(k, 64)
category = ffi.new("histar_category *")
assert not lib.histar_cat_create(k, boot, category)
guarded = ffi.new("histar_label *", lib.histar_with(lib.histar_level(1), category[0], 3))
assert not lib.histar_segment_create(k, boot, root, guarded, 2, 1, made)
secret, bytes64 = lib.histar_in(root, made[0]), ffi.new("char[64]")
assert not lib.histar_segment_write(k, boot, secret, 0, b"key", 3)
plain, clearance = ffi.new("histar_label *", lib.histar_level(1)), ffi.new("histar_label *", lib.histar_level(2))
assert not lib.histar_thread_create(k, boot, root, plain, 1, clearance, 0, made)
refusal = lib.histar_segment_read(k, made[0], secret, 0, bytes64, 3)
print("refused", refusal, ffi.string(lib.histar_refusal_name(refusal)).decode())
assert not lib.histar_free(k)
"""


def python_with(module):
    """A Python that has a module; none where none has."""
    found = (sys.executable, "/usr/bin/python3")
    return next((it for it in found if os.path.isfile(it) and not subprocess.run([it, "-c", f"import {module}"], stderr=subprocess.DEVNULL, check=False).returncode), None)


class Python:
    """A run over the library of a run of bindings."""

    def __init__(self, bindings):
        self.bindings, self.report, self.room = bindings, bindings.report, bindings.room
        self.folder = f"{self.room}/loaded"
        os.makedirs(self.folder, exist_ok=True)
        shared_library(f"{self.folder}/{SONAME}", f"{bindings.library}/libhistar.a")
        self.env = {"HISTAR_LIB": self.folder, "PYTHONPATH": os.path.dirname(PYTHON), "PYTHONDONTWRITEBYTECODE": "1"}

    def words(self, *words):
        """The words that start a program of Python's with the package."""
        return ["env", *(f"{name}={it}" for name, it in self.env.items()), sys.executable, *words]

    def try_programs(self, program_in, login):
        document = text("docs/EMBED.md")
        program = program_in(document, "python")
        wanted = document.split(program, 1)[1].split("It prints `", 1)[1].split("`", 1)[0]
        ended = ran(*self.words("-c", program))
        self.report.counts(ended == (0, f"{wanted}\n"), f"the program of docs/EMBED.md in python prints {wanted}")
        self.report.counts(ran(*self.words("bindings/python/examples/login.py")) == (0, login), "Python: a login gate")

    def try_scripts(self):
        player = self.words(f"{TESTS}/play.py")
        self.bindings.play(player, "Python")
        self.bindings.play_rules(player, "Python")
        self.bindings.play_random(player, "Python")

    def try_tests(self):
        for what, name in (("each row of the table of misuse raises, and changes nothing", "test_misuse"), ("kernels end with their process, and memory is flat", "test_process")):
            self.bindings.counts(f"Python: {what}", *self.words("-m", "unittest", "-q", f"{TESTS}/{name}.py"))
        self.bindings.counts("Python: the examples of its documents", *self.words("-c", DOCTESTS))
        self.bindings.counts("Python: the bench", *self.words(f"{TESTS}/bench.py"))

    def try_types(self):
        if not shutil.which("mypy"):
            self.bindings.leave_out("types of the Python package", "mypy is not on the path")
            return
        words = ["mypy", "--config-file", "bindings/python/pyproject.toml", "--cache-dir", f"{self.room}/mypy", "--strict"]
        self.bindings.counts("mypy --strict over the package and its example", *words, PYTHON, "bindings/python/examples/login.py", env={"MYPYPATH": os.path.dirname(PYTHON)})
        for number, it in enumerate(("boot.segment_read(note, 0, 3).decode()", *MISTYPED)):
            file = f"{self.room}/typed.py"
            with open(file, "w", encoding="utf-8") as program:
                program.write(f"{TYPED}{it}\n")
            done = subprocess.run([*words, file], env={**os.environ, "MYPYPATH": os.path.dirname(PYTHON)}, stdout=subprocess.PIPE, stderr=subprocess.STDOUT, check=False)
            self.report.counts(done.returncode == (1 if number else 0), f"mypy finds {it} {'wrong' if number else 'right'}")

    def try_cffi(self):
        python = python_with("cffi")
        if not python:
            self.bindings.leave_out("the header for cffi", "no Python has cffi")
            return
        ended = ran(python, "-c", BY_CFFI, f"{self.folder}/{SONAME}")
        self.report.counts(ended == (0, "refused 5 CannotObserve\n"), f"cffi reads include/histar.cffi.h: {ended}")


DOCTESTS = "import doctest, sys, histar; sys.exit(any(doctest.testmod(it).failed for it in (histar, histar.labels, histar.kernel, histar.shared)))"


def try_all(bindings, program_in, login):
    python = Python(bindings)
    python.try_programs(program_in, login)
    python.try_scripts()
    python.try_tests()
    python.try_types()
    python.try_cffi()
