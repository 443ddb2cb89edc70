"""The packages and ./install, tried: built twice in other surroundings, without a toolchain on the path, out of their packages, and in a Debian
of their own. ./install is tried where programs run, where links stand, and where it is stopped."""
import collections
import contextlib
import glob
import hashlib
import os
import re
import shutil
import signal
import subprocess
import sys
import tempfile
import time
import zipfile

from gate import manuals, roots, starts
from gate.packages import CLUSTER, CONFINE, LIBRARY, NO_ROOM, NOT_BUILT, OUT, PROGRAMS, SONAME, TRIPLE, Fault, pack
from gate.plays import text
from gate.report import Report

C_PROGRAM = "#include <histar.h>\n#include <stdio.h>\nint main(void) { static histar k; if (histar_open(&k, 64)) return 1; puts(\"open\"); histar_close(&k); return 0; }\n"
PACKAGE = "import histar; k = histar.Kernel(64); print(k.session().cat_create(), bool(k.checkpoint()))"
PYTHON = "import ctypes; it = ctypes.CDLL('{so}'); print(hasattr(it, 'histar_boot') and hasattr(it, 'histar_call') and not hasattr(it, 'rattle_alloc'))"


def sums(folder=OUT):
    found = {}
    for it in sorted(os.listdir(folder)):
        with open(f"{folder}/{it}", "rb") as file:
            found[it] = hashlib.sha256(file.read()).hexdigest()
    return found


def ran(*words, **how):
    done = subprocess.run(words, stdout=subprocess.PIPE, stderr=subprocess.STDOUT, text=True, **how)
    return done.returncode, done.stdout


# What asks for help, and the words that end it.
HELPS = ((("histar", "--help"), "Print version"), (("histar-audit", "-h"), "Print version"), (("histar", "show", "page", "--help"), "Print help"))


def try_programs(report, top):
    """The programs out of their package, where no toolchain is on the path."""
    env, script = {"PATH": f"{top}/usr/bin:/usr/bin:/bin"}, f"{top}/usr/share/doc/koalaingot/examples/first.histar"
    with open(script.replace(".histar", ".out"), encoding="utf-8") as it:
        wanted = it.read()
    ended = ran(f"{top}/usr/bin/histar", "run", script, "--dump", f"{top}/dump", env=env)
    report.counts(ended == (0, wanted), f"packages: histar run: status {ended[0]}")
    ended = ran(f"{top}/usr/bin/histar-audit", f"{top}/dump", env=env)
    report.counts(ended == (0, "clean\n"), f"packages: histar-audit: {ended}")
    ended = ran(f"{top}/usr/bin/histar", "show", "page", f"{top}/dump", "--out", f"{top}/page.html", env=env)
    report.counts(ended == (0, "") and os.path.getsize(f"{top}/page.html") > 1000, f"packages: histar show page: {ended}")
    for name in PROGRAMS:
        told = {int(it) for it in re.findall(rf"^\| `{name} [^|]*\| (\d+) \|", text("docs/PROGRAMS.md"), re.M)}
        report.counts(bool(told) and told <= set(manuals.STATUSES[name]), f"packages: man {name} has the statuses that PROGRAMS.md has: {sorted(told)}")
    for words, last in HELPS:
        shown = starts.shown_at_terminal([f"{top}/usr/bin/{words[0]}", *words[1:]], columns=40, env=env)
        starts.is_wrapped(report, f"packages: {' '.join(words)}", shown, last)
    for name in manuals.STATUSES if os.path.isfile(CLUSTER) else [it for it in manuals.STATUSES if it != "histar-cluster"]:
        for width in ("40", "80", "120"):
            ended = ran("man", "--warnings", "-l", f"{top}/usr/share/man/man1/{name}.1.gz", env={**env, "LANG": "C.UTF-8", "MANWIDTH": width})
            is_well = ended[0] == 0 and "OPTIONS" in ended[1] and "warning" not in ended[1]
            report.counts(is_well and all(len(it) <= int(width) for it in ended[1].splitlines()), f"packages: man {name}, {width} columns wide")
    try_completions(report, f"{top}/usr/share", env)


# What completes `histar ru` and `histar run --pa` in each shell, with the files of a folder, and prints it.
COMPLETED = {
    "bash": ". {0}/bash-completion/completions/histar; COMP_WORDS=(histar ru); COMP_CWORD=1; _histar; echo ${{COMPREPLY[*]}}; COMP_WORDS=(histar run --pa); COMP_CWORD=2; _histar; echo ${{COMPREPLY[*]}}",
    "fish": "set fish_complete_path {0}/fish/vendor_completions.d; complete -C 'histar ru'; complete -C 'histar run --pa'",
    "zsh": "compadd() {{ print -rl -- ${{(M)@:#$typing*}} }}; _files() {{ }}; words=(histar ru) CURRENT=2 typing=ru; . {0}/zsh/vendor-completions/_histar; "
    "words=(histar run --pa) CURRENT=3 typing=--pa; . {0}/zsh/vendor-completions/_histar",
}


def try_completions(report, share, env):
    for shell, typed in COMPLETED.items():
        if shutil.which(shell) is None:
            report.say(f"left out: completion in {shell}: it is not on the path")
            continue
        ended = ran(shell, "-c", typed.format(share), env=env)
        report.counts(ended == (0, "run\n--pages\n"), f"packages: completion of histar in {shell}: {ended}")


def try_library(report, top):
    """Programs over the library out of its package."""
    folder = f"{top}/usr/lib/{TRIPLE}"
    env = {**os.environ, "PKG_CONFIG_PATH": f"{folder}/pkgconfig"}
    flags = ran("pkg-config", f"--define-variable=prefix={top}/usr", "--cflags", "--libs", "histar", env=env)[1].split()
    for compiler, name in (("cc", "c"), ("c++", "cpp")):
        with open(f"{top}/program.{name}", "w", encoding="utf-8") as it:
            it.write(C_PROGRAM)
        made = ran(compiler, f"{top}/program.{name}", *flags, "-o", f"{top}/program")
        for linked in ("shared", "static"):
            if linked == "static":
                made = ran(compiler, f"{top}/program.{name}", *(it for it in flags if it != "-lhistar"), f"{folder}/libhistar.a", "-o", f"{top}/program")
            ended = ran(f"{top}/program", env={"LD_LIBRARY_PATH": folder}) if made[0] == 0 else made
            report.counts(ended == (0, "open\n"), f"packages: {compiler} by pkg-config, {linked}: {ended}")
    ended = ran(sys.executable, "-c", PYTHON.format(so=f"{folder}/{SONAME}"))
    report.counts(ended == (0, "True\n"), f"packages: Python loads {SONAME}: {ended}")
    for what, place, loaded in (("its package", f"{top}/usr/lib/python3/dist-packages", {"HISTAR_LIB": folder}), ("its wheel", unpacked_wheel(top), {})):
        ended = ran(sys.executable, "-c", PACKAGE, env={"PYTHONPATH": place, "PYTHONDONTWRITEBYTECODE": "1", **loaded})
        report.counts(ended == (0, "#1 True\n"), f"packages: Python by {what}: {ended}")


def unpacked_wheel(top):
    """A folder with what the wheel has."""
    with zipfile.ZipFile(glob.glob(f"{OUT}/*.whl")[0]) as it:
        it.extractall(f"{top}/wheel")
    return f"{top}/wheel"


def is_told(report, what, status, **how):
    """Whether ./package ends with a status and one line, and leaves older packages as they were."""
    done = subprocess.run(["./package"], stdout=subprocess.PIPE, stderr=subprocess.PIPE, text=True, **how)
    is_well = (done.returncode, done.stdout, done.stderr.count("\n")) == (status, "", 1)
    report.counts(is_well, f"packages: ./package {what}: status {done.returncode}, {done.stderr.strip()}")


def try_faults(report, kept):
    """./package where nothing is built, and on a full disk."""
    with tempfile.TemporaryDirectory(prefix="package-") as room:
        subprocess.run(["git", "clone", "--quiet", ".", f"{room}/tree"], check=True)
        is_told(report, "before ./prove", NOT_BUILT, cwd=f"{room}/tree")
        os.makedirs(f"{room}/disk")
        if subprocess.run(["mount", "-t", "tmpfs", "-o", "size=200k", "none", f"{room}/disk"], capture_output=True).returncode:
            report.say("left out: ./package on a full disk: no file system may be mounted")
            return
        try:
            is_told(report, "on a full disk", NO_ROOM, env={**os.environ, "TMPDIR": f"{room}/disk"})
            ended = ran("./install", f"{room}/disk/p")
            left = [it for _, _, files in os.walk(f"{room}/disk") for it in files]
            report.counts((ended[0], ended[1].count("\n"), left, sums()) == (NO_ROOM, 1, [], kept), f"packages: ./install on a full disk: {ended}, {left}")
        finally:
            subprocess.run(["umount", "-l", f"{room}/disk"], check=False)


def hand_over(tree):
    """Takes the library that ./lib built in a tree, and builds confine over it; returns what is lacking, if anything."""
    if os.path.abspath(tree) != os.getcwd() and os.path.isfile(f"{tree}/{LIBRARY}"):
        os.makedirs(os.path.dirname(LIBRARY), exist_ok=True)
        shutil.copyfile(f"{tree}/{LIBRARY}", LIBRARY)
    status, said = ran("bindings/confine/build.sh")
    if status:
        return said.strip()
    status, lacking = ran("bindings/rust/build.sh")
    return lacking.strip() if status and "install" not in lacking else None


# At how many moments ./install is stopped.
MOMENTS = 30


def megabytes(size):
    """A size as the documents tell it."""
    return f"{size / 1_000_000:.1f} MB"


def try_sizes(report, made):
    """The sizes that docs/INSTALL.md tells are those of what is packed: a row for each package, with what it takes once it is installed."""
    page = text("docs/INSTALL.md")
    for file in made:
        size = os.path.getsize(f"{OUT}/{file}")
        if file.endswith(".deb"):
            name = file.split("_")[0]
            installed = 1024 * int(ran("dpkg-deb", "-f", f"{OUT}/{file}", "Installed-Size")[1])
            row = f"| `{name}` | a package of {megabytes(size)}, {megabytes(installed)} installed |"
        else:
            row = f"| {'the wheel' if file.endswith('.whl') else 'the sources'} | {megabytes(size)} |"
        report.counts(row in page, f"packages: docs/INSTALL.md has {row}")


class Installed:
    """A folder in which ./install lays files, and looks at what it laid."""

    def __init__(self, report, top, tree="."):
        self.report, self.top, self.tree = report, top, os.path.abspath(tree)

    def install(self, *words, where=None, **how):
        """How ./install ended: its status and all that it said."""
        return ran(f"{self.tree}/install", *words, cwd=where or self.top, **how)

    def text_of(self, file):
        with open(f"{self.top}/{file}", "rb") as it:
            return it.read()

    def write(self, file, content):
        os.makedirs(os.path.dirname(f"{self.top}/{file}"), exist_ok=True)
        with open(f"{self.top}/{file}", "wb") as it:
            it.write(content)

    def counts(self, is_well, what, ended):
        self.report.counts(is_well, f"packages: ./install {what}" + ("" if is_well else f": {ended}"))

    def play(self):
        for row in (self.beside_programs, self.over_an_older_one, self.with_modes, self.below_destdir, self.into_this_tree, self.over_links, self.in_spaces, self.interrupted, self.reversed):
            row()

    def beside_programs(self):
        """A program that runs, with the library loaded, goes on."""
        ended = self.install("p")
        self.counts(ended[0] == 0, "in a new folder", ended)
        library = f"{self.top}/p/lib/{TRIPLE}/{SONAME}"
        words = [sys.executable, "-c", f"import ctypes, sys; it = ctypes.CDLL('{library}'); print(1, flush=True); sys.stdin.readline(); print(it.histar_version() > 0)"]
        loaded = subprocess.Popen(words, stdin=subprocess.PIPE, stdout=subprocess.PIPE, text=True)
        loaded.stdout.readline()
        runs = subprocess.Popen([f"{self.top}/p/libexec/koalaingot/histar", "try"], stdin=subprocess.PIPE, stdout=subprocess.PIPE, text=True)
        ended = self.install("p")
        said = loaded.communicate("go on\n")[0], runs.communicate("c = cat_create\n")[0]
        self.counts((ended[0], said) == (0, ("True\n", "cat c\n")), "while its programs run", (ended, said, loaded.returncode, runs.returncode))

    def over_an_older_one(self):
        self.write("p/share/histar/old", b"old")
        listed = self.text_of("p/share/doc/koalaingot/installed")
        self.write("p/share/doc/koalaingot/installed", listed + b"share/histar/old\n")
        ended = self.install("p")
        self.counts(ended[0] == 0 and not os.path.exists(f"{self.top}/p/share/histar/old"), "takes away what an older version had", ended)

    def with_modes(self):
        ended = self.install("masked", umask=0o077)
        found = {oct(os.lstat(f"{at}/{it}").st_mode & 0o777) for at, folders, files in os.walk(f"{self.top}/masked") for it in files if not os.path.islink(f"{at}/{it}")}
        folders = {oct(os.stat(at).st_mode & 0o777) for at, _, _ in os.walk(f"{self.top}/masked/share")}
        self.counts((ended[0], found, folders) == (0, {"0o644", "0o755"}, {"0o755"}), "whatever the umask", (ended, found, folders))

    def below_destdir(self):
        os.makedirs(f"{self.top}/typed")
        ended = self.install("/usr", where=f"{self.top}/typed", env={**os.environ, "DESTDIR": "stage"})
        told = self.text_of(f"typed/stage/usr/lib/{TRIPLE}/pkgconfig/histar.pc") if ended[0] == 0 else b""
        self.counts(told.startswith(b"prefix=/usr\n"), "below a DESTDIR from where it was typed", ended)

    def into_this_tree(self):
        before = text("include/histar.h")
        for typed in (".", "", self.tree):
            ended = self.install(typed, where=self.tree)
            self.counts((ended[0], ended[1].count("\n")) == (2, 1) and text("include/histar.h") == before, f"into {typed or 'nothing'!r} is refused", ended)

    def over_links(self):
        self.write("victim", b"kept")
        os.remove(f"{self.top}/p/bin/confine")
        os.symlink(f"{self.top}/victim", f"{self.top}/p/bin/confine")
        ended = self.install("p")
        is_well = ended[0] == 0 and self.text_of("victim") == b"kept" and not os.path.islink(f"{self.top}/p/bin/confine")
        self.counts(is_well, "replaces a link, and does not follow it", ended)

    def in_spaces(self):
        ended = self.install("a b")
        env = {**os.environ, "PKG_CONFIG_PATH": f"{self.top}/a b/lib/{TRIPLE}/pkgconfig"}
        self.write("program.c", C_PROGRAM.encode())
        made = ran("sh", "-c", f"eval cc program.c $(pkg-config --cflags --libs histar) -o program && LD_LIBRARY_PATH='a b/lib/{TRIPLE}' ./program", cwd=self.top, env=env)
        self.counts((ended[0], made) == (0, (0, "open\n")), "in a folder with a space", (ended, made))

    def interrupted(self):
        """Stopped at many moments, it leaves the old or the new."""
        first, last = self.text_of("p/bin/histar"), "p/share/doc/koalaingot/installed"
        states, began = collections.Counter(), time.monotonic()
        self.install("p")
        whole = time.monotonic() - began
        for moment in range(MOMENTS):
            self.write("p/bin/histar", b"old")
            self.write("p/include/histar.h", b"old")
            started = subprocess.Popen([f"{self.tree}/install", "p"], cwd=self.top, stdout=subprocess.DEVNULL, stderr=subprocess.DEVNULL)
            time.sleep(1.5 * whole * moment / MOMENTS)
            started.send_signal(signal.SIGTERM)
            status = started.wait()
            states["old" if self.text_of("p/bin/histar") == b"old" else "new", self.text_of("p/include/histar.h") == b"old", status == 0] += 1
        left = [it for it in os.listdir(f"{self.top}/p") if it.startswith(".koalaingot")]
        is_well = set(states) <= {("old", True, False), ("new", False, True)} and len(states) == 2 and not left
        self.counts(is_well and os.path.isfile(f"{self.top}/{last}"), f"stopped at {MOMENTS} moments leaves the old or the new: {sorted(states.values())}", (states, left))
        self.install("p")
        self.counts(self.text_of("p/bin/histar") == first, "after a stop", states)

    def reversed(self):
        self.write("p/share/mine", b"mine")
        ended = self.install("--uninstall", "p")
        left = [f"{at}/{it}" for at, _, files in os.walk(f"{self.top}/p") for it in files]
        self.counts((ended[0], left) == (0, [f"{self.top}/p/share/mine"]), "taken away again leaves what it did not lay", (ended, left))


def built_again(room, made):
    """A tree with what is built here: a clone, or what a tarball holds."""
    subprocess.run(made, check=True, cwd=room)
    tree = next(f"{room}/{it}" for it in os.listdir(room) if os.path.isdir(f"{room}/{it}"))
    for file in (*PROGRAMS.values(), LIBRARY, CONFINE, *(it for it in (CLUSTER,) if os.path.isfile(it))):
        os.makedirs(os.path.dirname(f"{tree}/{file}"), exist_ok=True)
        shutil.copy2(file, f"{tree}/{file}")
    return tree


def try_trees(report, first):
    """Other trees pack the same: with another umask and locale, by another user, and what the tarball holds, without git."""
    tar = os.path.abspath(next(f"{OUT}/{it}" for it in first if it.endswith(".tar.gz")))
    for what, made, how in (
        ("a clone, another umask and locale", ["git", "clone", "--quiet", os.getcwd(), "tree"], {"umask": 0o077, "env": {**os.environ, "LC_ALL": "tr_TR.UTF-8", "TZ": "Asia/Tokyo"}}),
        ("a clone of another user", ["git", "clone", "--quiet", os.getcwd(), "tree"], {"user": "nobody"}),
        ("the tarball, without git", ["tar", "-xf", tar], {"env": {**os.environ, "GIT_DIR": "/nowhere"}}),
    ):
        # (a stage's own folder is its user's alone)
        with tempfile.TemporaryDirectory(prefix="trees-", dir="/var/tmp") as room:
            os.chmod(room, 0o755)
            tree = built_again(room, made)
            if "user" in how:
                subprocess.run(["chown", "-R", "nobody", f"{tree}/out"], check=True)
            ended = ran("./package", cwd=tree, **how)
            again = sums(f"{tree}/{OUT}") if ended[0] == 0 else {}
            differs = [it for it in first if first[it] != again.get(it)]
            report.counts(not differs, f"packages: the same bytes from {what}" + (f": {ended}, {differs}" if differs else ""))
    with tempfile.TemporaryDirectory(prefix="trees-") as room:
        tree = built_again(room, ["tar", "-xf", tar])
        os.remove(f"{tree}/include/histar_debug.h")
        ended = ran("./install", f"{room}/p", cwd=tree)
        report.counts((ended[0], ended[1].count("\n"), os.path.exists(f"{room}/p")) == (NOT_BUILT, 1, False), f"packages: ./install without a header: {ended}")


def try_all(report, tree="."):
    """Packs twice, and tries what is packed out of the packages."""
    lacking = hand_over(tree)
    if lacking and "install" in lacking:
        report.say(f"left out: packages: {lacking}")
        return
    if lacking:
        report.counts(False, f"packages: what they have is built: {lacking}")
    first, second = None, None
    with contextlib.suppress(Fault):
        pack()
        first = sums()
        pack()
        second = sums()
    report.counts(first is not None and first == second and len(first) == 6 + os.path.isfile(CLUSTER), f"packages: built twice, the same bytes: {', '.join(first or ())}")
    if first is None:
        return
    try_sizes(report, first)
    try_faults(report, first)
    try_trees(report, first)
    with tempfile.TemporaryDirectory(prefix="packages-") as top:
        for it in first:
            if it.endswith(".deb"):
                subprocess.run(["dpkg-deb", "-x", f"{OUT}/{it}", top], check=True)
        try_programs(report, top)
        try_library(report, top)
        if shutil.which("lintian"):
            ended = ran("lintian", "--fail-on", "error", *(f"{OUT}/{it}" for it in first if it.endswith(".deb")))
            report.counts(ended[0] == 0, f"packages: lintian: {ended}")
        else:
            report.say("left out: lintian: it is not there")
    roots.try_packages(report, OUT)
    with tempfile.TemporaryDirectory(prefix="installed-") as top:
        Installed(report, top).play()


if __name__ == "__main__":
    REPORT = Report()
    try_all(REPORT)
    sys.exit(REPORT.finish())
