"""rt itself, as a module: its crates, its builds and its scheduler, which runs tasks side by side, as many as there are
processors and memory, and first those with the longest chain of others behind them."""
import importlib.machinery
import importlib.util
import os
import shutil

# One job for each crate: crates side by side cost less than several jobs in one.
FLAGS = ["--jobs", "1"]
# How the scheduler calls a task that waits for other libraries alone.
LIBRARY = "library"
SECONDS = "gate/seconds"


def toolchain():
    """rt, whose checks these are."""
    path = os.path.realpath(shutil.which("rt"))
    loader = importlib.machinery.SourceFileLoader("rt", path)
    made = importlib.util.module_from_spec(importlib.util.spec_from_loader("rt", loader))
    loader.exec_module(made)
    return made


def library_task(rt, crate, weight, build):
    """The scheduler's task of building a crate's library once those below it are built: its key and its parts."""
    below = [(it.name, LIBRARY) for it in crate.below()]
    return (crate.name, LIBRARY), (below, weight, rt.need(crate), build)
