"""What bindings/make.py makes of bindings/calls.toml: the files are as it makes them, and with one thing of the table turned it tells
each file that says this thing."""
import os
import shutil
import subprocess
import sys
import tempfile

PARTS = ("bindings", "include", "docs")
CFFI, PYTHON = "include/histar.cffi.h", tuple(f"bindings/python/src/histar/{it}.py" for it in ("calls", "_methods"))
HEADER, RUST, C_PLAYER, DOCS = "include/histar.h", "bindings/rust/histar", "bindings/c/play/calls.c", "docs/CALLS.md"
# (what is turned in the table, into what, and the files that say it)
TURNS = (
    ("number = 13\n", "number = 35\n", (HEADER, CFFI, PYTHON[0], f"{RUST}/src/call.rs", f"{RUST}/src/records.rs", DOCS)),
    ('["change", "i32",', '["change", "u32",', (HEADER, CFFI, PYTHON[0], f"{RUST}/src/call.rs", f"{RUST}/src/records.rs", f"{RUST}/src/session/link_calls.rs", C_PLAYER)),
    ('["offset", "u32",', '["begin", "u32",', (HEADER, CFFI, *PYTHON, f"{RUST}/src/call.rs", f"{RUST}/src/records.rs", f"{RUST}/src/session/memory_calls.rs",
                                                f"{RUST}/examples/play/words.rs", C_PLAYER)),
    ('"RootKept"', '"Spent"', (HEADER, *PYTHON, f"{RUST}/src/session/link_calls.rs")),
    ('"the slot is empty; `ok`"', '"the slot is filled; `ok`"', (DOCS,)),
)


def stale(folder):
    """The files that are told to be stale in a folder, and how the telling ended."""
    done = subprocess.run([sys.executable, "bindings/make.py", "--check"], cwd=folder, stdout=subprocess.PIPE, text=True, timeout=60)
    return {it.split()[1] for it in done.stdout.splitlines()}, done.returncode


def compare(report):
    told, status = stale(".")
    report.counts((told, status) == (set(), 0), f"what is made from bindings/calls.toml: status {status}, stale: {' '.join(sorted(told)) or 'none'}")
    for old, new, files in TURNS:
        with tempfile.TemporaryDirectory() as room:
            for it in PARTS:
                shutil.copytree(it, f"{room}/{it}", symlinks=True, ignore=shutil.ignore_patterns("target"))
            path = os.path.join(room, "bindings/calls.toml")
            with open(path, encoding="utf-8") as table:
                text = table.read()
            with open(path, "w", encoding="utf-8") as table:
                table.write(text.replace(old, new, 1))
            told, status = stale(room)
            report.counts((told, status) == (set(files), 1), f"a table with {new.strip()}: status {status}, stale: {' '.join(sorted(told)) or 'none'}")
