"""./install: what the packages have, laid below a folder. All of it is made in a folder beside the places first, on the same disk; then each
file takes its place by a rename, and no signal comes between. So a program that runs keeps its file, a link at a place is replaced and not
followed, and a start that fails leaves what was there. What an older version laid and this one has not goes."""
import contextlib
import errno
import os
import shutil
import signal
import tempfile

from gate import packages, sources

LISTED = "share/doc/koalaingot/installed"
HELD = (signal.SIGINT, signal.SIGTERM, signal.SIGHUP)


class Interrupted(Exception):
    """A signal that came before the first file took its place."""


def interrupt(number, _):
    raise Interrupted(signal.Signals(number).name)


def folders_above(file):
    """The folders below the prefix that a file stands in, one in another."""
    parts = file.split("/")[:-1]
    return ["/".join(parts[: count + 1]) for count in range(len(parts))]


def laid_before(prefix):
    """What was laid below a folder; nothing where nothing was."""
    with contextlib.suppress(FileNotFoundError), open(f"{prefix}/{LISTED}", encoding="utf-8") as it:
        return it.read().splitlines()
    return []


def take_away(prefix, laid):
    """Takes files away below a folder, and the folders that are empty then."""
    for file in laid:
        with contextlib.suppress(FileNotFoundError, NotADirectoryError):
            os.remove(f"{prefix}/{file}")
    for folder in sorted({above for it in laid for above in folders_above(it)}, reverse=True):
        with contextlib.suppress(OSError):
            os.rmdir(f"{prefix}/{folder}")


def rename(made, to):
    """Gives a file its place, which another disk may hold."""
    try:
        os.replace(made, to)
    except OSError as fault:
        if fault.errno != errno.EXDEV:
            raise
        shutil.copy2(made, f"{to}.koalaingot-new", follow_symlinks=False)
        os.replace(f"{to}.koalaingot-new", to)


def place(room, prefix):
    """Gives all files of a room their places below the prefix. From here on no signal ends it."""
    before = laid_before(prefix)
    for it in HELD:
        signal.signal(it, signal.SIG_IGN)
    for file in room.laid:
        os.makedirs(os.path.dirname(f"{prefix}/{file}"), exist_ok=True)
        rename(f"{room.top}/{file}", f"{prefix}/{file}")
    take_away(prefix, [it for it in before if it not in set(room.laid)])


def lay(room, prefix):
    """Makes in a room what is laid below a prefix, with a list of it."""
    packages.lay_programs(room, prefix, sources.commit()[2])
    packages.lay_loaded(room)
    packages.lay_library(room, prefix)
    packages.lay_python(room)
    if os.path.isfile(packages.CLUSTER):
        packages.lay_cluster(room, prefix, sources.commit()[2])
    room.put(LISTED, "".join(f"{it}\n" for it in [*room.laid, LISTED]))


def target(typed, where):
    """The prefix as an absolute path, and where it stands, which is below DESTDIR if that is set."""
    prefix = os.path.normpath(os.path.join(where, typed))
    below = os.environ.get("DESTDIR", "")
    stands = os.path.normpath(f"{os.path.join(where, below)}/{prefix}") if below else prefix
    if not typed or os.path.realpath(stands) == os.path.realpath("."):
        raise packages.Fault(packages.USAGE, f"{typed or 'an empty name'}: a folder of its own is wanted, not this tree")
    return prefix, stands


def install(typed, where):
    """Lays what the packages have below a folder that was typed in a folder."""

    def act():
        prefix, stands = target(typed, where)
        packages.needs()
        made = [it for it in (stands, *parents(stands)) if not os.path.isdir(it)]
        os.umask(0o022)
        for it in HELD:
            signal.signal(it, interrupt)
        os.makedirs(stands, exist_ok=True)
        try:
            with tempfile.TemporaryDirectory(prefix=".koalaingot-", dir=stands, ignore_cleanup_errors=True) as top:
                room = packages.Room(top)
                lay(room, prefix)
                place(room, stands)
        except Interrupted as it:
            raise packages.Fault(packages.STOPPED, f"interrupted by {it}: nothing was changed") from None
        finally:
            for it in made:
                with contextlib.suppress(OSError):
                    os.rmdir(it)
        print(f"install: {len(room.laid)} files below {stands}")

    return packages.guarded("install", typed, act)


def parents(folder):
    """The folders above a folder, from the next one on."""
    while os.path.dirname(folder) != folder:
        folder = os.path.dirname(folder)
        yield folder


def uninstall(typed, where):
    """Takes away what was laid below a folder, and the folders that are empty then."""

    def act():
        stands = target(typed, where)[1]
        laid = laid_before(stands)
        if not laid:
            raise packages.Fault(packages.NOT_BUILT, f"{stands}/{LISTED} is missing: nothing was installed there")
        take_away(stands, laid)
        print(f"install: {len(laid)} files taken away")

    return packages.guarded("install", typed, act)
