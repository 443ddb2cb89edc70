"""confine: programs that try to send a secret on. Each scene is a program in a sandbox of its own, with what it may print and
write; a scene with a secret in it fails where a byte of the secret is seen outside. An attack is also played without confine, where it
has to be seen: a scene that can't fail says nothing. All are played as root, as an ordinary user, and as one without /dev/fuse, where
root plays them.

Where a machine lacks what confine needs (libseccomp's headers, user namespaces, Landlock), all is left out, with a line."""
import itertools
import os
import re
import shutil
import signal
import subprocess
import tempfile
import time

from gate import confine_attacks, confine_ends, confine_kept, confine_programs, confine_wrong
from gate.confine_scenes import BY_POLICY, ONE, OWN, POLICY, POLICY_SCENES, PUBLIC, SCENES, SECOND, SECRET, TWO, Scene
from gate.confine_seen import Watched
from gate.documents import commands_in
from gate.plays import text
from gate.report import Report
from gate.starts import is_wrapped, shown_at_terminal

CONFINE = "out/confine"
USAGE, UNABLE = 2, 69

# The status of what was ended since it did not end by itself.
ENDLESS = -signal.SIGKILL
ATTACKS = (*confine_attacks.REPORTS, *confine_attacks.OUTSIDE, *confine_attacks.INODES, *confine_attacks.MEANS, *confine_attacks.HELD, *confine_attacks.LABELS, *confine_attacks.STARTS, *confine_ends.ALL, *confine_kept.ALL)

# An ordinary user's number, as which root plays scenes too.
NOBODY = 65534
AS_NOBODY = ["setpriv", "--reuid", str(NOBODY), "--regid", str(NOBODY), "--clear-groups"]

# Starts a program, as root, where /dev/fuse can't be opened: the broker is then asked of each call that names a file.
WITHOUT_FUSE = ["unshare", "--mount", "sh", "-c", 'mount --bind /dev/fuse /dev/fuse && mount -o remount,bind,nodev /dev/fuse && exec "$@"', "sh"]

# Starts a program, as root, where a command was given first that mounts something for it alone.
LAYING = ["unshare", "--mount", "sh", "-c", 'eval "$0"; shift; exec "$@"']

# What the compiler's checks print of a fault.
FOUND = re.compile(r"ERROR: \w+Sanitizer|runtime error: ")

# A program that adds a line to its report once it has come to its end, and ends as it ended.
NOTING = 'sh -c "$PROGRAM"; s=$?; echo ended >> "$R"; exit $s'
NOTE = "ended\n"

# Without confine there are no labels: what is started at one is just started.
WITHOUT_LABELS = '#!/bin/sh\nshift 2\nexec "$@"\n'


def built(report, library):
    """Whether the program stands, or a line that says why it doesn't."""
    env = {**os.environ, "HISTAR_LIB": os.path.realpath(library)}
    done = subprocess.run(["bindings/confine/build.sh"], env=env, stdout=subprocess.PIPE, stderr=subprocess.STDOUT, text=True)
    if done.returncode == UNABLE:
        report.say(f"left out: {done.stdout.strip()}")
    else:
        report.counts(done.returncode == 0, f"confine compiles without a warning {done.stdout}".rstrip())
    return done.returncode == 0


def lacks_static(room, library):
    """Whether its build says in one line that it needs static libraries, where the compiler finds none."""
    compiler = f"{room}/c++"
    with open(compiler, "w", encoding="utf-8") as it:
        it.write('#!/bin/sh\nfor word; do [ "$word" != -static-pie ] || exit 1; done\nexec c++ "$@"\n')
    os.chmod(compiler, 0o755)
    env = {**os.environ, "CXX": compiler, "HISTAR_LIB": os.path.realpath(library)}
    done = subprocess.run(["bindings/confine/build.sh"], env=env, stdout=subprocess.PIPE, stderr=subprocess.STDOUT, text=True)
    return done.returncode == UNABLE and len(done.stdout.splitlines()) == 1 and "static libraries are missing" in done.stdout


class Tried:
    """Programs in C that try to mislead the broker, in a folder that is public."""

    def __init__(self, room):
        self.room = f"{room}/tried"
        os.makedirs(self.room, exist_ok=True)
        for it in ("swap", "paths", "asks", "empty", "lacking", "old"):
            words = ["cc", "-O2", "-Wall", "-Wextra", "-Werror", "-pthread", f"bindings/confine/tried/{it}.c", "-o", f"{self.room}/{it}"]
            subprocess.run(words, check=True)

    def scenes(self, report, is_long):
        if subprocess.run([f"{self.room}/old"], stdout=subprocess.PIPE).stdout == b"1":
            yield Scene("makes a socket by a call of 32 bits", f"{self.room}/old", printed="0", words=[*ONE, "--public", self.room], leaks="means")
        else:
            report.say("left out: confine: calls of 32 bits: the machine has none")
        words = [*TWO, "--public", self.room]
        swaps, paths, asks = (10_000, 1_000_000, 60) if is_long else (1_000, 20_000, 20)
        yield Scene("changes a path while the broker looks at it", f"{self.room}/swap $P/text $S/key {swaps} > /tmp/seen", words=words, status=None)
        yield Scene("changes a path and prints what it reads", f"{self.room}/swap $P/none $S/key {swaps}", words=words)
        yield Scene("changes a path and prints all", f"{self.room}/swap $P/text $S/key {swaps}", printed=None, words=words, status=None)
        yield Scene("asks for starts by drawn bytes", f"{self.room}/asks {asks} 1", printed="done\n", words=words)
        yield Scene("asks for starts by nothing, with descriptors", f"{self.room}/empty", printed="closed\n", words=words)
        yield Scene("names files by drawn paths", f"{self.room}/paths {paths} 1", printed="done\n", words=words)


class Rooms:
    """The folders and files of a scene, made anew, for a user."""

    def __init__(self, room, user=0):
        self.names = {"S": "secret", "T": "second", "P": "public", "O": "own", "R": "report", "U": "report2", "Q": "open", "E": "errors", "F": "policy", "H": "", "L": "by-link", "N": "near"}
        self.paths = {name: f"{room}/{path}".rstrip("/") for name, path in self.names.items()}
        self.paths["M"] = f"/tmp/{os.path.basename(os.path.dirname(room))}"
        self.user = user
        for it in (room, self.paths["M"]):
            shutil.rmtree(it, ignore_errors=True)
        for name in "STPOM":
            os.makedirs(self.paths[name])
        self.put("S", "key", SECRET)
        self.put("T", "key", SECOND)
        self.put("P", "text", PUBLIC)
        self.put("O", "own", OWN)
        for name in "PM":
            os.mkfifo(f"{self.paths[name]}/pipe")
        os.symlink(self.paths["H"], self.paths["L"])
        os.symlink("secret", self.paths["N"])
        for name in "RUQE":
            os.close(os.open(self.paths[name], os.O_CREAT | os.O_WRONLY, 0o600))
        self.give()
        self.readers = [os.open(f"{self.paths[name]}/pipe", os.O_RDONLY | os.O_NONBLOCK) for name in "PM"]
        self.piped = ""

    def give(self):
        """All of it is the user's."""
        for top in (self.paths["H"], self.paths["M"]):
            for path, _, files in os.walk(top):
                for it in ("", *files):
                    os.chown(os.path.join(path, it), self.user, self.user, follow_symlinks=False)

    def pipes(self):
        """What came out of the pipes so far."""
        for it in self.readers:
            try:
                self.piped += os.read(it, 4096).decode(errors="replace")
            except BlockingIOError:
                pass
        return self.piped

    def end(self):
        for it in self.readers:
            os.close(it)
        shutil.rmtree(self.paths["M"], ignore_errors=True)

    def put(self, name, file, text):
        with open(f"{self.paths[name]}/{file}", "w") as it:
            it.write(text + "\n")

    def words(self, words):
        return [self.paths[it[1]] + it[2:] if it.startswith("$") else it for it in words]

    def read(self, name, file=""):
        path = os.path.join(self.paths[name], file) if file else self.paths[name]
        if not os.path.isfile(path):
            return ""
        with open(path, errors="replace") as it:
            return it.read()

    def is_secret_whole(self):
        return os.listdir(self.paths["S"]) == ["key"] and self.read("S", "key") == SECRET + "\n"

    def seen(self):
        """All that is left outside the reports of secrets and the secrets themselves, names too."""
        left = [self.read("Q"), self.pipes()]
        for name in "POM":
            for path, _, files in os.walk(self.paths[name]):
                for it in files:
                    left.append(it + self.read(name, os.path.relpath(f"{path}/{it}", self.paths[name])))
        return "".join(left)


class Play:
    """A scene as a user plays it, in a room, with confine or without."""

    def __init__(self, confine, room, scene, user, by=()):
        self.confine, self.room, self.scene, self.user, self.by = confine, room, scene, user, by
        self.rooms = Rooms(room, user)
        for name, it in (("F", scene.policy), ("R", scene.old)):
            with open(self.rooms.paths[name], "w", encoding="utf-8") as file:
                file.write(it)
        self.watched = Watched(self.rooms)

    def program(self):
        if self.scene.program is None:
            return ["/no/such/program"]
        return ["/bin/sh", "-c", NOTING if self.scene.leaks else self.scene.program]

    def words(self):
        words = self.rooms.words(self.scene.words or (BY_POLICY if self.scene.policy else ONE))
        passed = [it for name in (*self.rooms.paths, "PROGRAM") for it in ("--env", name)]
        return [self.confine, *words, *passed, "--audit", f"{self.room}/dump", "--", *self.program()] if self.confine else self.program()

    def run(self, watched):
        as_user = AS_NOBODY if self.user and not os.getuid() else []
        path = os.environ["PATH"] if self.confine else f"{os.path.dirname(self.room)}/bare:{os.environ['PATH']}"
        env = {**os.environ, **self.rooms.paths, "PROGRAM": self.scene.program or "", "KEPT": OWN, "PATH": path}
        laid = LAYING + [self.scene.laid, "sh"] if self.scene.laid else []
        how = {"stdout": subprocess.PIPE, "stderr": subprocess.PIPE, "text": True, "errors": "replace", "timeout": self.scene.seconds}
        words = [*self.by, *laid, *as_user, *self.words()]
        try:
            self.done = subprocess.run(words, input=self.scene.stdin, env=env, cwd=self.room, **how)
        except subprocess.TimeoutExpired:
            self.done = subprocess.CompletedProcess(words, ENDLESS, "", f"it does not end within {self.scene.seconds} seconds")
        watched.said, watched.status = self.done.stdout + self.done.stderr, self.done.returncode

    def seen(self):
        """By which ways the secret is seen: as text, and as the scene leaks it."""
        try:
            return self.watched.during(self.run, {"text", self.scene.leaks} - {None})
        finally:
            self.watched.end()

    def reports(self):
        return tuple(self.rooms.read(it) for it in "RUQE")

    def wrong(self):
        """What is wrong with how a scene ended in confine, or nothing."""
        scene, seen, wrong = self.scene, self.seen(), []
        if scene.printed is not None and self.done.stdout != scene.printed:
            wrong.append(f"printed {self.done.stdout!r}")
        if self.done.returncode == ENDLESS or (scene.status is not None and self.done.returncode != scene.status):
            wrong.append(f"status {self.done.returncode} {self.done.stderr}")
        faults = scene.faults and scene.faults.replace("$R", self.rooms.paths["R"])
        wanted = (scene.report + (NOTE if scene.leaks and scene.is_noted else ""), scene.second, scene.open, faults)
        if any(it is not None and it != left for it, left in zip(wanted, self.reports())):
            wrong.append(f"reports {self.reports()} {self.done.stderr}")
        if scene.told is not None and not any(it.startswith("confine: ") and it.endswith(scene.told) for it in self.done.stderr.splitlines()):
            wrong.append(f"told {self.done.stderr!r}")
        wrong += [f"the secret is seen: {it}" for it in sorted(seen)]
        wrong += [f"a check found {it}" for it in self.done.stderr.splitlines() if FOUND.search(it)]
        if not self.rooms.is_secret_whole():
            wrong.append("a secret was changed")
        self.rooms.end()
        return wrong

    def is_seen(self):
        """Whether an attack is seen without confine, and the program comes to its end."""
        is_seen = self.scene.leaks in self.seen() and (self.scene.leaks == "report length" or NOTE in self.reports()[0])
        self.rooms.end()
        return is_seen


# Words that make no plan, and a piece of the line that says so.
WRONG_WORDS = (
    ([], "no program"),
    (["--secret"], "wants a value"),
    (["--secret", "--", "true"], "wants a value"),
    (["--secret", "/no/such/folder", "--", "true"], "is not there"),
    (["--secret", "/etc/passwd", "--", "true"], "is no folder"),
    (["--report", "/etc", "--", "true"], "can't be written"),
    (["--report", "/no/such/folder/file", "--", "true"], "can't be written"),
    (["--sekret", "/etc", "--", "true"], "is no word"),
    (["--secret", "/etc"], "no program"),
    (["--secret", "/usr/share", "--", "true"], "one lies in the other"),
    (["--secret", "/", "--", "true"], "one lies in the other"),
    (["--secret", "/etc", "--secret", "/etc/alternatives", "--", "true"], "one lies in the other"),
    (["--public", "/etc", "--secret", "/etc/alternatives", "--", "true"], "one lies in the other"),
    (["--report", "/var/tmp/confine-tried", "--secret", "/var/tmp", "--", "true"], "of which it is no report"),
    (["--secret", "/var", "--public", "/var/tmp", "--", "true"], "one lies in the other"),
    (["--secret", "/etc/alternatives", "--", "true"], "one lies in the other"),
    (["--secret", "/etc", "--", "true"], "one lies in the other"),
    (["--public", "/var/tmp", "--report", "/var/tmp/confine-tried", "--", "true"], "which is public"),
    (["--secret", "/etc"] * 9 + ["--", "true"], "at most 8"),
    (["--faults", "/var/tmp/confine-tried", "--", "true"], "it stands after the --secret"),
    (["--secret", "/var/log", "--faults", "/etc", "--", "true"], "can't be written"),
    (["--secret", "/var/log", "--faults", "/dev/full", "--", "true"], "is no plain file"),
    (["--secret", "/var/log", "--report", "/var/tmp/confine-tried", "--faults", "/var/tmp/confine-tried", "--", "true"], "it is a report"),
    (["--secret", "/var/log", "--faults", "/var/tmp/confine-tried", "--faults", "/var/tmp/confine-tried", "--", "true"], "the faults of two"),
    (["--public", "/var/tmp", "--secret", "/var/log", "--faults", "/var/tmp/confine-tried", "--", "true"], "which is public"),
    (["--secret", "/var/tmp", "--secret", "/var/log", "--faults", "/var/tmp/confine-tried", "--", "true"], "it lies in /var/tmp"),
    (["--secret", "/var/tmp", "--faults", "/var/tmp/confine-tried", "--", "true"], "it lies in /var/tmp, and is no secret"),
    (["--secret", "/var/log", *["--faults", "/var/tmp/confine-tried"] * 9, "--", "true"], "at most 8"),
    (["--policy", "/no/such/file", "--", "true"], "/no/such/file: "),
)


# Policies that are none, and a piece of the line that says so.
WRONG_POLICIES = (
    ("categories = [", "policy:1: a bracket is not closed"),
    ("x = [}", "policy:1: brackets don't close each other"),
    ("x = ]", "policy:1: brackets don't close each other"),
    ("x = " + "[" * 9, "policy:1: brackets nest too deep"),
    ("x" + ".x" * 20_000 + " = 1", "policy:1: a key has too many dots"),
    ("x" + ".x" * 50_000 + " = 1", "policy: a policy has at most 65536 bytes"),
    ("#" * 65_537, "policy: a policy has at most 65536 bytes"),
    ('x = "', "policy:1: a text is not closed"),
    ("x = 3\ny = \"\"\"a\"\"\"", "policy:2: a text stands on one line"),
    ("x = \\", "policy:1: "),
    ('categories = ["first"]\nread = [{folder = "secret", label = {first = true}}]', "policy:2: a level is from 0 to 3"),
    ('categories = ["first"]\nread = [{folder = "secret", label = {first = 3.0}}]', "policy:2: a level is from 0 to 3"),
    ("colours = []", "no word of a policy: colours"),
    ("categories = 3", "a list is wanted"),
    ('categories = ["First"]', "a name has up to 31"),
    ('categories = ["a", "a"]', "named twice"),
    ("categories = [" + ", ".join(f'"c{it}"' for it in range(9)) + "]", "at most 8 categories"),
    ('read = [{folder = "none"}]', "is not there"),
    ("read = [{label = {}}]", "folder is wanted"),
    ('read = [{folder = "secret", label = {first = 3}}]', "no category: first"),
    ('categories = ["first"]\nread = [{folder = "secret", label = {first = 4}}]', "a level is from 0 to 3"),
    ('categories = ["first"]\nprogram = {clearance = {first = 0}}', "a level is from 1 to 3"),
    ('categories = ["first"]\nprogram = {label = {first = 3}, clearance = {first = 2}}', "above its clearance"),
    ('write = [{file = "secret"}]', "can't be written"),
    ('gate = [{name = "a b", program = ["true"]}]', "a name has up to 31"),
    ('gate = [{name = "a"}]', "program is wanted"),
    ('gate = [{name = "run", program = ["true"]}]', "a gate of its own"),
    ('gate = [{name = "a", program = ["true"], owns = ["first"]}]', "no category: first"),
    ('gate = [{name = "a", program = ["true"], file = "open"}]', "no file of [[write]]"),
    ('public = ["secret/key"]', "is no folder"),
    ("public = [" + ", ".join(['"public"'] * 33) + "]", "at most 32 public folders"),
    ('read = [{folder = ""}]', "a text is wanted"),
    ('read = [{folder = "' + "a" * 4096 + '"}]', "a text is wanted"),
    (r'read = [{folder = "secret\u0000"}]', "a text is wanted"),
    ("read = [3]", "a table is wanted"),
    ('read = [{folder = "secret", label = 3}]', "a table is wanted"),
    ('read = [{folder = "secret", colour = 1}]', "no word of a policy: colour"),
    ('categories = ["first"]\nread = [{folder = "secret", label = {first = "3"}}]', "a level is from 0 to 3"),
    ('categories = ["' + "a" * 32 + '"]', "a name has up to 31"),
    ("categories = [3]", "a text is wanted"),
    ("write = [{}]", "file is wanted"),
    ('write = [{file = "report", colour = 1}]', "no word of a policy: colour"),
    ("write = [" + ", ".join(['{file = "report"}'] * 9) + "]", "at most 8 reports"),
    ("program = {colour = 1}", "no word of a policy: colour"),
    ('gate = [{name = "a", program = ["true"], colour = 1}]', "no word of a policy: colour"),
    ('gate = [{program = ["true"]}]', "name is wanted"),
    ('gate = [{name = "a", program = [' + ", ".join(['"true"'] * 17) + "]}]", "at most 16 words"),
    ("gate = [" + ", ".join(['{name = "a", program = ["true"]}'] * 9) + "]", "at most 8 gates"),
    ('categories = ["none"]', "none is the label of no category"),
    ('faults = [{file = "errors"}]', "a label above 1 is wanted"),
    ('categories = ["first"]\nfaults = [{file = "errors", label = {first = 1}}]', "a label above 1 is wanted"),
    ("faults = [{}]", "file is wanted"),
    ('faults = [{file = "errors", colour = 1}]', "no word of a policy: colour"),
    ('gate = [{name = "a", program = ["true"], answers = 1}]', "true or false is wanted"),
    ('write = [{file = "open"}]\ngate = [{name = "a", program = ["true"], answers = true, file = "open"}]', "a gate answers or writes a file"),
)


def says_why_of_policy(room, policy, piece):
    rooms = Rooms(room)
    rooms.end()
    with open(rooms.paths["F"], "w", encoding="utf-8") as it:
        it.write(policy)
    return says_why(["--policy", rooms.paths["F"], "--", "true"], piece)


def says_why(words, piece):
    done = subprocess.run([CONFINE, *words], stdout=subprocess.PIPE, stderr=subprocess.PIPE, text=True)
    lines = done.stderr.splitlines()
    if os.path.isfile("/var/tmp/confine-tried"):
        os.remove("/var/tmp/confine-tried")
    return done.returncode == 2 and not done.stdout and len(lines) == 1 and piece in lines[0]


def says_it_cannot(words="", status=UNABLE):
    """Whether it says in one line that it can't confine, or that its words make no plan, and starts nothing, where there may be no user
    namespace."""
    inside = f"echo 0 > /proc/sys/user/max_user_namespaces && exec {CONFINE} {words} -- /bin/echo started"
    words = ["unshare", "--user", "--map-root-user", "sh", "-c", inside]
    done = subprocess.run(words, stdout=subprocess.PIPE, stderr=subprocess.PIPE, text=True)
    return done.returncode == status and not done.stdout and len(done.stderr.splitlines()) == 1


# What the page shows, and the files of the home folder in which it is typed there.
PAGE, HOME = "docs/CONFINE.md", "/home/me"
FILES = {"Documents/a.txt": "nothing\n", "Documents/b.txt": "EICAR\n", "doctor/notes": "fever\nfever\nfever\n", "bank/list": "rent\n", "tools/none": ""}


def policy_of(page):
    """The policy that the page shows."""
    lines = page[page.index("    categories = ") :].split("\n")
    return "".join(f"{it[4:]}\n" for it in itertools.takewhile(lambda it: not it or it.startswith("    "), lines))


def try_documented(report, room):
    """The commands of the page, typed in a home folder, print what stands below them."""
    page, home = text(PAGE), f"{room}/home"
    for file, made in {**FILES, "policy": policy_of(page)}.items():
        os.makedirs(os.path.dirname(f"{home}/{file}"), exist_ok=True)
        with open(f"{home}/{file}", "w", encoding="utf-8") as it:
            it.write(made)
    os.symlink(os.path.abspath(os.path.dirname(CONFINE)), f"{home}/out")
    commands = commands_in(page)
    report.counts(len(commands) > 5, f"{PAGE} has {len(commands)} commands")
    for command, wanted in commands:
        how = {"cwd": home, "env": {**os.environ, "HOME": home}, "stdin": subprocess.DEVNULL, "stdout": subprocess.PIPE, "stderr": subprocess.STDOUT, "text": True}
        said = subprocess.run(["sh", "-c", command], **how).stdout.replace(home, HOME)
        report.counts(said == wanted, f"{command}: {'as' if said == wanted else f'{said!r}, not as'} in {PAGE}")


# Calls without which a machine can't confine: Landlock's, those of filters, of mounts and of namespaces.
NEEDED = (444, 445, 446, 317, 428, 429, 442, 272)


def says_it_lacks(lacking, call):
    """Whether it says in one line that a machine that lacks a call can't confine, soon, and starts nothing."""
    words = [lacking, str(call), CONFINE, "--", "/bin/echo", "started"]
    try:
        done = subprocess.run(words, stdout=subprocess.PIPE, stderr=subprocess.PIPE, text=True, timeout=20)
    except subprocess.TimeoutExpired:
        return False
    return done.returncode == UNABLE and not done.stdout and len(done.stderr.splitlines()) == 1


def left_running(mark):
    """Whether a process runs whose words have a mark in them."""
    for it in os.listdir("/proc"):
        try:
            if it.isdigit() and mark in open(f"/proc/{it}/cmdline", errors="replace").read().split("\0"):
                return True
        except OSError:
            continue
    return False


def ends_with_broker():
    """Whether a program ends once the broker is killed."""
    mark = "3600.25"
    broker = subprocess.Popen([CONFINE, "--", "/bin/sleep", mark])
    deadline = time.monotonic() + 20
    while not left_running(mark) and time.monotonic() < deadline:
        time.sleep(0.05)
    was_running = left_running(mark)
    broker.kill()
    broker.wait()
    while left_running(mark) and time.monotonic() < deadline:
        time.sleep(0.05)
    return was_running and not left_running(mark)


# A gate that does not end, with a child that would go on, and what holds all that can hold the broker.
LASTING = """
[[gate]]
name = "lasting"
program = ["sh", "-c", "trap : TERM; sleep 3600.5 & wait; sleep 3600.5"]
"""
HOLDING = (
    ("a program that goes on", "sleep 3600.5"),
    ("a gate that does not end", "echo x > /gate/lasting; sleep 3600.5"),
    ("a gate that does not end, and a program that has", "echo x > /gate/lasting"),
    ("a program that prints where nobody reads", "yes 3600.5"),
    ("programs that wait for their place", "for i in $(seq 20); do confine-run first -- sleep 3600.5; confine-run none -- sleep 3600.5 & done; wait"),
    ("a program that reads what another does not write", "mkfifo /tmp/f; confine-run none -- cat < /tmp/f & exec 5> /tmp/f; sleep 3600.5"),
)


def ends_by(confine, room, program, sign):
    """Whether a signal ends confine within a second, and all that it started."""
    rooms = Rooms(room)
    rooms.end()
    with open(rooms.paths["F"], "w", encoding="utf-8") as it:
        it.write(POLICY + LASTING)
    how = {"stdin": subprocess.DEVNULL, "stdout": subprocess.PIPE, "stderr": subprocess.DEVNULL, "start_new_session": True}
    broker = subprocess.Popen([confine, "--policy", rooms.paths["F"], "--", "/bin/sh", "-c", program], **how)
    time.sleep(1.5)
    begin = time.monotonic()
    broker.send_signal(sign)
    try:
        status = broker.wait(20)
    except subprocess.TimeoutExpired:
        status = None
    took = time.monotonic() - begin
    broker.kill()
    while left_running("3600.5") and time.monotonic() < begin + 2:
        time.sleep(0.02)
    return status == 128 + sign and took < 1 and not left_running("3600.5")


def ends_with_reader(confine):
    """Whether a program that prints without end ends once nobody reads it."""
    done = subprocess.run(f"{confine} -- yes | head -1", shell=True, stdout=subprocess.PIPE, stderr=subprocess.PIPE, text=True, timeout=20)
    return (done.stdout, done.stderr) == ("y\n", "")


def try_ends(report, confine, room):
    report.counts(ends_with_reader(confine), "confine: a program ends once nobody reads what it prints")
    for what, program in HOLDING:
        for sign in (signal.SIGTERM, signal.SIGINT, signal.SIGHUP):
            report.counts(ends_by(confine, f"{room}/scene", program, sign), f"confine: {sign.name} ends all within a second: {what}")


def reached(auditor, dump, said, what):
    """What the auditor says that flows from a thing reach, by names of --explain's lines; None where it doesn't find the dump clean."""
    names = dict(re.findall(r"confine: #(\d+) is (.*)", said))
    category = re.search(r"confine: category #(\d+) ", said)[1]
    start = next(it for it, name in names.items() if name == what)
    done = subprocess.run([auditor, dump, "--from", start, "--category", category], stdout=subprocess.PIPE, text=True)
    verdict, *lines = done.stdout.splitlines()
    return [names.get(it.split(" ")[1], it) for it in lines] if (done.returncode, verdict) == (0, "clean") else None


def tells_flows(auditor, room):
    """Whether the dump of a run tells that its secret can have reached its report and not what is printed."""
    rooms = Rooms(room)
    rooms.end()
    passed = [it for name in rooms.paths for it in ("--env", name)]
    words = [CONFINE, "--explain", "--audit", f"{room}/dump", *rooms.words(TWO), *passed, "--", "/bin/sh", "-c", "cat $S/key > $R; echo x > $U; echo done"]
    done = subprocess.run(words, env={**os.environ, **rooms.paths}, stdout=subprocess.PIPE, stderr=subprocess.PIPE, text=True)
    report, secret = rooms.paths["R"], rooms.paths["S"]
    return reached(auditor, f"{room}/dump", done.stderr, secret) == [report]


def is_audited(auditor, dump):
    done = subprocess.run([auditor, dump], stdout=subprocess.PIPE, text=True)
    return (done.returncode, done.stdout) == (0, "clean\n")


def ways(report):
    """As whom and by what scenes are played: as root, as an ordinary user, and as one for whom the machine has no /dev/fuse; or as who
    plays them."""
    if os.getuid() or not shutil.which("setpriv"):
        report.say("left out: confine: the scenes of others than who plays them")
        return ((os.getuid(), ()),)
    if subprocess.run([*WITHOUT_FUSE, "true"], stderr=subprocess.DEVNULL).returncode:
        report.say("left out: confine: the scenes without /dev/fuse")
        return ((0, ()), (NOBODY, ()))
    return ((0, ()), (NOBODY, ()), (NOBODY, WITHOUT_FUSE))


def try_scene(report, confine, room, scene, user, audit, by=()):
    """Plays a scene with confine, and an attack without it too. Whether its dump audits clean; what is refused at its start has none."""
    name = f"confine: {scene.name} ({'root' if not user else 'a user'}{', without /dev/fuse' if by else ''})"
    if scene.leaks and not by:
        report.counts(Play(None, room, scene, user).is_seen(), f"{name}: it is seen without confine")
    wrong = Play(confine, room, scene, user, by).wrong()
    report.counts(not wrong, name + "".join(f": {it}" for it in wrong))
    dump = f"{room}/dump"
    return audit is None or (not os.path.exists(dump) if scene.laid and scene.status == USAGE else is_audited(audit, dump))


def lay_without_labels(room):
    """Lays what stands for confine-run where a scene is played without confine."""
    os.makedirs(f"{room}/bare")
    with open(f"{room}/bare/confine-run", "w", encoding="utf-8") as it:
        it.write(WITHOUT_LABELS)
    os.chmod(f"{room}/bare/confine-run", 0o755)


def try_scenes(report, room, auditor, more):
    os.chmod(room, 0o755)
    confine = shutil.copy(CONFINE, f"{room}/confine")
    os.chmod(confine, 0o755)
    lay_without_labels(room)
    scenes, unclean = (*SCENES, *POLICY_SCENES, *ATTACKS, *more), []
    for user, by in ways(report):
        for scene in scenes:
            if min(user, 1) in scene.users and not (scene.laid and os.getuid()) and not try_scene(report, confine, f"{room}/scene", scene, user, auditor, by):
                unclean.append(scene.name)
    if auditor:
        report.counts(not unclean, f"confine: the dumps of all scenes audit clean{unclean or ''}")
        report.counts(tells_flows(auditor, f"{room}/scene"), "confine: the dump tells what a secret can have reached")
    else:
        report.say("left out: audits of confine's dumps: ./histar-audit is not built")


# What a build with checks does otherwise, since it maps all of its memory at its start.
UNCHECKED = ("uses its memory up",)


def try_checked(report, library, room, more):
    """Plays all scenes with a confine that is built with the compiler's checks of addresses and of undefined behavior."""
    env = {**os.environ, "HISTAR_LIB": os.path.realpath(library), "CHECKED": "1"}
    done = subprocess.run(["bindings/confine/build.sh"], env=env, stdout=subprocess.PIPE, stderr=subprocess.STDOUT, text=True)
    if done.returncode:
        report.fails(f"confine: it is not built with checks: {done.stdout}")
        return
    confine, user = shutil.copy(f"{CONFINE}-checked", f"{room}/checked"), ways(report)[-1]
    for scene in (*SCENES, *POLICY_SCENES, *ATTACKS, *more):
        if min(user[0], 1) in scene.users and not (scene.laid and os.getuid()) and scene.name not in UNCHECKED:
            wrong = Play(confine, f"{room}/scene", scene, *user).wrong()
            report.counts(not wrong, f"confine, with checks: {scene.name}" + "".join(f": {it}" for it in wrong))
    try_ends(report, confine, room)


def try_wrong(report, library, room, more=()):
    """Whether scenes notice wrong confines."""
    os.chmod(room, 0o755)
    scenes = {it.name: it for it in (*SCENES, *POLICY_SCENES, *ATTACKS, *more)}
    confine_wrong.try_all(report, library, f"{room}/wrong", (Play, scenes, ways(report)))


def try_all(report, library, auditor, is_long=False):
    """Plays all scenes, and has the auditor look at their dumps, where there is one."""
    if not built(report, library):
        return
    probe = subprocess.run([CONFINE, "--", "/bin/true"], stdout=subprocess.PIPE, stderr=subprocess.STDOUT, text=True)
    if probe.returncode == UNABLE:
        report.say(f"left out: the scenes of confine: {probe.stdout.strip()}")
        return
    is_wrapped(report, "confine --help", shown_at_terminal([CONFINE, "--help"], columns=40), "something failed.")
    for words, piece in WRONG_WORDS:
        report.counts(says_why(words, piece), f"confine: wrong words: {' '.join(words) or 'none'}")
    with tempfile.TemporaryDirectory(prefix="confine-", dir="/var/tmp") as room:
        report.counts(ends_with_broker(), "confine: the program ends with the broker")
        try_ends(report, CONFINE, room)
        try_documented(report, room)
        report.counts(says_it_cannot(), "confine: where there are no user namespaces it says so, and starts nothing")
        report.counts(all(says_it_cannot("--secret /etc", USAGE) for _ in range(8)), "confine: where there are no user namespaces a wrong plan is told of alone")
        report.counts(lacks_static(room, library), "confine: where no static library is there its build says so")
        for policy, piece in WRONG_POLICIES:
            report.counts(says_why_of_policy(f"{room}/scene", policy, piece), f"confine: a policy that is none: {piece}")
        tried = Tried(room)
        for call in NEEDED:
            report.counts(says_it_lacks(f"{tried.room}/lacking", call), f"confine: a machine without the call {call}: it says so, and starts nothing")
        try_scenes(report, room, auditor, tried.scenes(report, is_long))
        try_checked(report, library, room, tried.scenes(report, False))
        try_wrong(report, library, room, tried.scenes(report, False))
    confine_programs.try_all(report)


if __name__ == "__main__":
    whole = Report()
    made = "crates/histar_audit/out/histar_audit"
    try_all(whole, "out/lib", os.path.abspath(made) if os.path.isfile(made) else None, is_long=True)
    whole.finish()
