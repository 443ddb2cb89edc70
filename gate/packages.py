"""The packages: what is laid where, and how it is packed. All that is packed has the time of the commit and modes of its own, so the same
commit gives the same bytes whoever packs it. ./package packs it, ./install lays it below a folder."""
import email.utils
import gzip
import hashlib
import io
import os
import shutil
import subprocess
import sys
import tarfile
import tempfile
import zipfile

from gate import manuals, sources, versions

PROGRAMS = {"histar": "crates/histar/out/histar", "histar-audit": "crates/histar_audit/out/histar_audit"}
CONFINE, LIBRARY, OUT = "out/confine", "out/lib/libhistar.a", "out/packages"
# It is packed where it is built, which takes crates of Debian.
CLUSTER, UNIT = "out/histar-cluster", "histar-cluster@.service"
USAGE, NO_COMMAND, NO_ROOM, NOT_BUILT, STOPPED = 2, 69, 73, 78, 130
HEADERS = ("include/histar.h", "include/histar_debug.h", "include/histar.cffi.h")
PYTHON = "bindings/python/src/histar"
SONAME = "libhistar.so.0"
MAINTAINER = "Koalaingot maintainers <maintainers@users.noreply.koalaingot.example>"
ABOUT = {
    "koalaingot": ("proved label kernel: programs and a sandbox", "libc6 (>= 2.36)"),
    "libhistar0": ("proved label kernel, as a library that programs load", "libc6 (>= 2.36)"),
    "libhistar-dev": ("proved label kernel for C, C++ and Rust programs", "libc6-dev (>= 2.36), libhistar0 (= {version}-1)"),
    "python3-histar": ("proved label kernel for Python programs", "python3 (>= 3.9), libhistar0 (= {version}-1)"),
    "histar-cluster": ("proved label kernel on many machines: a node", "libc6 (>= 2.36), libgcc-s1 (>= 4.2), libssl3 (>= 3.0.0)"),
}
ARCHITECTURES = {"python3-histar": "all"}
SUGGESTED = {"koalaingot": ("Suggests: rlwrap",), "histar-cluster": ("Suggests: etcd-server, etcd-client",)}
SECTIONS = {"koalaingot": "utils", "libhistar0": "libs", "libhistar-dev": "libdevel", "python3-histar": "python", "histar-cluster": "admin"}
# What compiles the package's files where it is installed, and takes that away again, as for each package of Python's.
SCRIPTS = {
    "python3-histar": {
        "postinst": "#!/bin/sh\nset -e\nif command -v py3compile > /dev/null 2>&1; then\n    py3compile -p python3-histar\nfi\n",
        "prerm": "#!/bin/sh\nset -e\nif command -v py3clean > /dev/null 2>&1; then\n    py3clean -p python3-histar\nelse\n"
        "    rm -rf /usr/lib/python3/dist-packages/histar/__pycache__\nfi\n",
    },
}
COPYRIGHT = """Format: https://www.debian.org/doc/packaging-manuals/copyright-format/1.0/
Upstream-Name: koalaingot

Files: *
Copyright: 2026 Koalaingot maintainers
License: Apache-2.0
 The text of this licence is in /usr/share/common-licenses/Apache-2.0.
"""
TRIPLE, PLATFORM = "x86_64-linux-gnu", "manylinux_2_36_x86_64"


# What starts a program. The gap is what it does for one program alone.
STARTER = """#!/bin/sh
# Starts NAME. At a terminal its help is wrapped.ABOUT
here=${0%/*}
[ ! -L "$0" ] || here=$(dirname "$(readlink -f "$0")")
top=$here/../libexec/koalaingot
if [ -t 1 ]; then
    . "$top/gate/answer.sh"
    if asks_for_help "$@"; then
        said=$("$top/NAME" "$@") || exit
        printf '%s\\n' "$said" | wrapped
        exit
    fi
fi
GAPexec "$top/NAME" "$@"
"""
ABOUT_HISTAR = """ "histar --version --long" also tells of what it was made. The arrow keys
# give lines of "histar try" back, where rlwrap is."""
GAP_OF_HISTAR = """if [ "$#" = 2 ] && [ "$1" = --version ] && [ "$2" = --long ]; then
    "$top/histar" --version && exec cat "$here/../share/doc/koalaingot/stamp"
fi
if [ "$1" = try ] && [ -t 0 ] && [ -t 1 ] && command -v rlwrap > /dev/null; then
    exec rlwrap -s -1000 "$top/histar" "$@"
fi
"""


def starter(name):
    about, gap = (ABOUT_HISTAR, GAP_OF_HISTAR) if name == "histar" else ("", "")
    return STARTER.replace("NAME", name).replace("ABOUT", about).replace("GAP", gap)


class Fault(Exception):
    """Why nothing is made, and the status."""

    def __init__(self, status, text):
        super().__init__(text)
        self.status = status


def made_by(*words, **how):
    """What a command printed that makes something. What it says beside is told where it fails."""
    return subprocess.run(words, check=True, stdout=subprocess.PIPE, stderr=subprocess.PIPE, **how).stdout


def stamp():
    """What was packed: the commit, the toolchain, and a sum of the sources."""
    changes = " and changes" if sources.is_changed() else ""
    return f"commit {sources.commit()[0]}{changes}\nkit {sources.said_by('rt', 'version').strip()}\nsources {sources.total()}\n"


def needs():
    """Ends where something to be packed isn't built, or a command or a header is missing."""
    for command in (*(() if sources.is_packed() else ("git",)), "dpkg-deb", "rt", "cc", "strip", "nm"):
        if shutil.which(command) is None:
            raise Fault(NO_COMMAND, f"{command} is not on the path")
    for file, by in (*((it, "./prove") for it in PROGRAMS.values()), (LIBRARY, "./lib"), (CONFINE, "bindings/confine/build.sh")):
        if not os.path.isfile(file):
            raise Fault(NOT_BUILT, f"{file} is missing: {by} builds it")
    for file in HEADERS:
        if not os.path.isfile(file):
            raise Fault(NOT_BUILT, f"{file} is missing: it belongs to the sources")


class Room:
    """A folder below which files are laid as below a prefix."""

    def __init__(self, top):
        self.top, self.laid = top, []

    def put(self, to, content, mode=0o644):
        file = f"{self.top}/{to}"
        os.makedirs(os.path.dirname(file), exist_ok=True)
        self.laid.append(to)
        with open(file, "wb") as it:
            it.write(content if isinstance(content, bytes) else content.encode())
        os.chmod(file, mode)

    def copy(self, to, file, mode=0o644):
        with open(file, "rb") as it:
            self.put(to, it.read(), mode)

    def program(self, to, file):
        """A program or a loaded library, without what only a debugger reads."""
        with tempfile.TemporaryDirectory() as made:
            made_by("strip", "--strip-unneeded", "-o", f"{made}/it", file)
            self.copy(to, f"{made}/it", 0o644 if ".so" in to else 0o755)

    def link(self, to, target):
        os.makedirs(os.path.dirname(f"{self.top}/{to}"), exist_ok=True)
        os.symlink(target, f"{self.top}/{to}")
        self.laid.append(to)

    def zip(self, to, content):
        self.put(f"{to}.gz", gzip.compress(content.encode(), 9, mtime=0))


def debian_changelog(name, seconds):
    """What Debian wants to know of a package's versions: one line for this one, since the changes stand beside it."""
    day = email.utils.formatdate(seconds)
    return f"{name} ({versions.read()}-1) unstable; urgency=medium\n\n  * As changelog.gz has it.\n\n -- {MAINTAINER}  {day}\n"


def lay_about(room, name):
    """What each package says of itself."""
    folder = f"share/doc/{name}"
    room.zip(f"{folder}/changelog.Debian", debian_changelog(name, sources.commit()[1]))
    room.put(f"{folder}/copyright", COPYRIGHT)
    room.put(f"{folder}/stamp", stamp())
    with open("CHANGELOG.md", encoding="utf-8") as it:
        room.zip(f"{folder}/changelog", it.read())


def lay_manual(room, prefix, day, name, file):
    """The man page of a program, and what completes its words."""
    found = manuals.helps(name, os.path.abspath(file))
    room.zip(f"share/man/man1/{name}.1", manuals.manual(name, versions.read(), day, found, f"{prefix}/share/doc/koalaingot"))
    room.put(f"share/bash-completion/completions/{name}", manuals.bash(name, found))
    room.put(f"share/zsh/vendor-completions/_{name}", manuals.zsh(name, found))
    room.put(f"share/fish/vendor_completions.d/{name}.fish", manuals.fish(name, found))


def lay_programs(room, prefix, day):
    for name, file in {**PROGRAMS, "confine": CONFINE}.items():
        room.program(f"bin/{name}" if name == "confine" else f"libexec/koalaingot/{name}", file)
        lay_manual(room, prefix, day, name, file)
    for name in PROGRAMS:
        room.put(f"bin/{name}", starter(name), 0o755)
    for it in ("answer.sh", "wrap.awk"):
        room.copy(f"libexec/koalaingot/gate/{it}", f"gate/{it}")
    for file in sources.files():
        if file.startswith(("docs/", "examples/")) or file in ("README.md", "CHANGELOG.md", "CONTRIBUTING.md", "crates/README.md", "gate/PLANTS.md"):
            room.copy(f"share/doc/koalaingot/{file}", file)
    lay_about(room, "koalaingot")


def shared_library(to, library=LIBRARY):
    """The library as one that is loaded: only its own functions are seen."""
    with tempfile.NamedTemporaryFile("w", suffix=".map") as names:
        names.write("{ global: histar_*; local: *; };\n")
        names.flush()
        words = ["cc", "-shared", "-o", to, f"-Wl,-soname,{SONAME}", f"-Wl,--version-script={names.name}", "-Wl,--whole-archive", library]
        made_by(*words, "-Wl,--no-whole-archive", "-Wl,--build-id=none", "-Wl,-z,relro,-z,now")


def lay_loaded(room):
    """The library that programs load."""
    with tempfile.TemporaryDirectory() as made:
        shared_library(f"{made}/{SONAME}")
        room.program(f"lib/{TRIPLE}/{SONAME}", f"{made}/{SONAME}")
    lay_about(room, "libhistar0")


def escaped(path):
    """A path as pkg-config reads it."""
    return path.replace("\\", "\\\\").replace(" ", "\\ ")


def lay_library(room, prefix):
    """What programs are compiled with."""
    for it in HEADERS:
        room.copy(it, it)
    room.copy(f"lib/{TRIPLE}/libhistar.a", LIBRARY)
    room.link(f"lib/{TRIPLE}/libhistar.so", SONAME)
    lines = [f"prefix={escaped(prefix)}", f"libdir=${{prefix}}/lib/{TRIPLE}", "includedir=${prefix}/include", "", "Name: histar"]
    lines += [f"Description: {ABOUT['libhistar-dev'][0]}", f"Version: {versions.read()}", "Cflags: -I${includedir}", "Libs: -L${libdir} -lhistar"]
    room.put(f"lib/{TRIPLE}/pkgconfig/histar.pc", "\n".join(lines) + "\n")
    for file in sources.files():
        if file.startswith("bindings/rust/histar/"):
            room.copy(f"share/histar/rust/{file.removeprefix('bindings/rust/')}", file)
    lay_about(room, "libhistar-dev")


def lay_python(room):
    """What Python programs load."""
    for file in sources.files():
        if file.startswith(f"{PYTHON}/"):
            room.copy(f"lib/python3/dist-packages/histar/{file.removeprefix(f'{PYTHON}/')}", file)
    lay_about(room, "python3-histar")


def lay_python_package(room, wheel):
    """The same, with what the wheel tells of itself."""
    lay_python(room)
    with zipfile.ZipFile(wheel) as it:
        for name in it.namelist():
            if name.endswith(("/METADATA", "/top_level.txt")):
                room.put(f"lib/python3/dist-packages/{name}", it.read(name))


def wheel_maker():
    """A Python that makes wheels."""
    for it in (sys.executable, "/usr/bin/python3"):
        if subprocess.run([it, "-c", "import setuptools, wheel"], stderr=subprocess.DEVNULL, check=False).returncode == 0:
            return it
    raise Fault(NO_COMMAND, "no Python has setuptools and wheel (Debian: python3-setuptools, python3-wheel)")


def make_wheel(folder, seconds):
    """The Python package with the library in it, for machines where no package of Debian's is installed."""
    with tempfile.TemporaryDirectory() as top:
        room = Room(top)
        room.copy("pyproject.toml", "bindings/python/pyproject.toml")
        room.put("setup.cfg", f"[bdist_wheel]\nplat_name = {PLATFORM}\n")
        for file in sources.files():
            if file.startswith(f"{PYTHON}/"):
                room.copy(f"src/histar/{file.removeprefix(f'{PYTHON}/')}", file)
        shared_library(f"{top}/{SONAME}")
        room.program(f"src/histar/{SONAME}", f"{top}/{SONAME}")
        os.remove(f"{top}/{SONAME}")
        set_times(top, seconds)
        made = "from setuptools.build_meta import build_wheel; build_wheel('made')"
        made_by(wheel_maker(), "-c", made, cwd=top, env={**os.environ, "SOURCE_DATE_EPOCH": str(seconds), "LC_ALL": "C.UTF-8", "TZ": "UTC"})
        name, = os.listdir(f"{top}/made")
        shutil.copyfile(f"{top}/made/{name}", f"{folder}/{name}")
    return name


def lay_cluster(room, prefix, day):
    """The node of a cluster, with its unit."""
    room.program("bin/histar-cluster", CLUSTER)
    lay_manual(room, prefix, day, "histar-cluster", CLUSTER)
    with open(f"bindings/rust/systemd/{UNIT}", encoding="utf-8") as it:
        room.put(f"lib/systemd/system/{UNIT}", it.read().replace("/usr/bin/", f"{prefix}/bin/"))
    lay_about(room, "histar-cluster")


def set_times(top, seconds):
    for at, folders, files in os.walk(top):
        for it in (at, *(f"{at}/{name}" for name in (*folders, *files))):
            os.utime(it, (seconds, seconds), follow_symlinks=False)


def size_of(top):
    """The KiB that files and folders take, as Debian counts them."""
    count = 0
    for at, folders, files in os.walk(top):
        count += len(folders) + sum(1 if os.path.islink(f"{at}/{it}") else -(-os.path.getsize(f"{at}/{it}") // 1024) for it in files)
    return count


def symbols(name, library):
    """What the loaded library shows, and since when: Debian's list of it."""
    shown = sources.said_by("nm", "-D", "--defined-only", library).splitlines()
    names = sorted(line.split(" ")[-1] for line in shown)
    return f"{SONAME} {name} #MINVER#\n" + "".join(f" {it}@Base {versions.read()}\n" for it in names)


def about(name, laid):
    """The files that Debian keeps of a package."""
    what, depends = ABOUT[name]
    lines = [f"Package: {name}", f"Version: {versions.read()}-1", f"Architecture: {ARCHITECTURES.get(name, 'amd64')}", f"Maintainer: {MAINTAINER}", f"Installed-Size: {size_of(laid.top)}"]
    lines += [f"Depends: {depends.format(version=versions.read())}", *SUGGESTED.get(name, ()), f"Section: {SECTIONS[name]}", "Priority: optional", f"Description: {what}"]
    lines += [" The object model of HiStar in user space: labels alone decide who observes", " and who modifies what. Its kernel is proved to follow its rules."]
    told = {"control": "\n".join(lines) + "\n", "md5sums": "".join(sum_of(laid, it) for it in sorted(laid.laid) if not os.path.islink(f"{laid.top}/{it}"))}
    if name == "libhistar0":
        told["shlibs"] = f"libhistar 0 {name} (>= {versions.read()})\n"
        told["symbols"] = symbols(name, f"{laid.top}/lib/{TRIPLE}/{SONAME}")
        told["triggers"] = "activate-noawait ldconfig\n"
    return {**told, **SCRIPTS.get(name, {})}


def sum_of(laid, file):
    with open(f"{laid.top}/{file}", "rb") as it:
        return f"{hashlib.md5(it.read()).hexdigest()}  usr/{file}\n"


def deb(name, lay, room, seconds):
    """Packs what is laid by a function below usr/ of a package."""
    top = f"{room}/{name}"
    laid = Room(f"{top}/usr")
    lay(laid)
    os.makedirs(f"{top}/DEBIAN")
    for file, text in about(name, laid).items():
        with open(f"{top}/DEBIAN/{file}", "w", encoding="utf-8") as it:
            it.write(text)
            os.fchmod(it.fileno(), 0o755 if text.startswith("#!") else 0o644)
    set_times(top, seconds)
    file = f"{name}_{versions.read()}-1_{ARCHITECTURES.get(name, 'amd64')}.deb"
    made_by("dpkg-deb", "--root-owner-group", "--build", top, f"{room}/{file}", env={**os.environ, "SOURCE_DATE_EPOCH": str(seconds)})
    return file


def entry(name, file, size, seconds):
    """What a tarball tells of a file."""
    made = tarfile.TarInfo(name)
    made.size, made.mtime = size, seconds
    made.mode = 0o755 if file and os.stat(file).st_mode & 0o100 else 0o644
    return made


def tarball(room):
    """The sources in a folder, with the list of them, by which they pack themselves where no git is."""
    name, (commit, seconds, day) = f"koalaingot-{versions.read()}", sources.commit()
    files = [it for it in sources.files() if it != sources.LIST]
    told = "\n".join([f"{commit} {seconds} {day}", *files]) + "\n"
    packed = io.BytesIO()
    with tarfile.open(fileobj=packed, mode="w", format=tarfile.PAX_FORMAT) as it:
        it.addfile(entry(f"{name}/{sources.LIST}", None, len(told.encode()), seconds), io.BytesIO(told.encode()))
        for file in files:
            with open(file, "rb") as read:
                it.addfile(entry(f"{name}/{file}", file, os.path.getsize(file), seconds), read)
    with open(f"{room}/{name}.tar.gz", "wb") as it:
        it.write(gzip.compress(packed.getvalue(), 9, mtime=0))
    return f"{name}.tar.gz"


def pack():
    """Makes all packages, and returns their files. They take the place of older ones once all are made."""
    needs()
    wheel_maker()
    _, seconds, day = sources.commit()
    os.umask(0o022)
    os.makedirs(os.path.dirname(OUT), exist_ok=True)
    with tempfile.TemporaryDirectory(prefix="package-", dir=os.path.dirname(OUT)) as room:
        os.chmod(room, 0o755)
        made = [tarball(room)]
        made.append(deb("koalaingot", lambda it: lay_programs(it, "/usr", day), room, seconds))
        made.append(deb("libhistar0", lay_loaded, room, seconds))
        made.append(deb("libhistar-dev", lambda it: lay_library(it, "/usr"), room, seconds))
        made.append(make_wheel(room, seconds))
        made.append(deb("python3-histar", lambda it: lay_python_package(it, f"{room}/{made[-1]}"), room, seconds))
        if os.path.isfile(CLUSTER):
            made.append(deb("histar-cluster", lambda it: lay_cluster(it, "/usr", day), room, seconds))
        shutil.rmtree(OUT, ignore_errors=True)
        os.makedirs(OUT)
        for it in made:
            os.replace(f"{room}/{it}", f"{OUT}/{it}")
    return [f"{OUT}/{it}" for it in made]


def guarded(name, where, act):
    """Acts, and returns the status: a fault is told in one line."""
    try:
        act()
    except Fault as fault:
        print(f"{name}: {fault}", file=sys.stderr)
        return fault.status
    except OSError as fault:
        print(f"{name}: {fault.filename or where} can't be written: {fault.strerror}", file=sys.stderr)
        return NO_ROOM
    except subprocess.CalledProcessError as fault:
        said = (fault.stderr or b"").decode(errors="replace").strip().splitlines()
        print(f"{name}: {said[-1] if said else f'{fault.cmd[0]} ended with status {fault.returncode}'}", file=sys.stderr)
        return NO_ROOM
    return 0


def make():
    def act():
        for it in pack():
            print(f"package: {it}, {os.path.getsize(it)} bytes")

    return guarded("package", OUT, act)
