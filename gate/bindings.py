"""The kernel as a library for C, Rust and Python: it is built, and programs in bindings/ are compiled against it and run. The scripts
of examples/ print by them what is stored, and ./histar-audit finds the dumps of their logs clean; the scripts of the rules
print what is stored of them; random scripts print what ./histar prints, leave the tables that its dump has, and dump what it
dumps; random records leave the heap as it was; each row of the table of misuse is refused and changes nothing; threads share a
kernel; a service comes back at its checkpoint. The programs of docs/EMBED.md print what it says.

What a machine lacks (compilers, cargo, valgrind, clang's runtime) is left out, with a line for each."""
import glob
import os
import re
import shutil
import subprocess
import tempfile

from gate import cluster, confine, python
from gate.headers import unguarded, wrong
from gate.plays import Script, is_clean, ran, text
from gate.rules import played_rules
from gate.scripts import script

SEEDS = range(1, 41)
RECORDS = 10_000_000
SESSIONS = 100_000
LOGGED_SESSIONS = 2_000
SHARED_CALLS = 10_000_000
LOGGED_CALLS = 1_000_000
CLIENTS = "160"
FUZZ_SECONDS = int(os.environ.get("FUZZ_SECONDS", "60"))
THREAD_SECONDS = int(os.environ.get("THREAD_SECONDS", "60"))
WARNINGS = ["-Wall", "-Wextra", "-Wpedantic", "-Werror"]
WRAPPED = "-Wl,--wrap=malloc,--wrap=realloc,--wrap=free"
# Each function of the header is the library's then, and called.
CALLED = ["-O0", "-w", "-DCALLED", *(f"-D{it}=extern inline __attribute__((gnu_inline))" for it in ("HISTAR_INLINE", "HISTAR_INTO_CALLER"))]
MISUSE = ("misuse", "-pthread", f"{WRAPPED},--wrap=histar_layout")
MANIFEST = ["--offline", "--manifest-path", "bindings/rust/Cargo.toml"]


# What a compiler warns of: a refusal that nobody looks at, NULL, and a number or a category for an object.
MISUSED_CALLS = ("histar_cat_create(k, HISTAR_BOOT, 0)", "if (histar_open(0, 64)) return", "if (histar_self_set_label(k, HISTAR_BOOT, 0)) return",
                 "if (histar_meta_get(k, HISTAR_BOOT, histar_in(HISTAR_ROOT, HISTAR_DEVICE), 0, 64)) return",
                 "if (histar_unref(k, 2, HISTAR_NOWHERE)) return", "if (histar_unref(k, HISTAR_BOOT, histar_in(HISTAR_ROOT, histar_category_of(4)))) return")
RANDOM_WORDS = ["--pages", "512"]

# What the login gates of bindings/ print.
LOGIN = "sword: refused 5 CannotObserve\nsword: sends a packet\nswordfish: reads mail of ann\nswordfish: sends CannotModify\n"
TABLES = ("live", "use", "map", "label", "order")


def run(*words, env=None):
    """Whether a command ended with 0, and all that it said."""
    how = {"stdin": subprocess.DEVNULL, "stdout": subprocess.PIPE, "stderr": subprocess.STDOUT, "text": True, "errors": "replace"}
    done = subprocess.run(words, env={**os.environ, **(env or {})}, **how)
    return done.returncode == 0, done.stdout


def examples():
    """The scripts of examples/ without a fault."""
    found = [Script(it) for it in sorted(glob.glob("examples/*.histar"))]
    return [it for it in found if it.status == 0]


def program_in(document, language):
    """The first block of a document in this language."""
    return document.split(f"```{language}\n", 1)[1].split("```\n", 1)[0]


def without_example():
    """The public functions of the crate for Rust whose documents have no example. What stands in raw.rs and records.rs only the crate sees."""
    for file in sorted(glob.glob("bindings/rust/histar/src/**/*.rs", recursive=True)):
        documents = [] if file.endswith(("/raw.rs", "/records.rs")) else re.findall(r"((?: *(?://|#\[).*\n)*) *pub (?:const )?fn (\w+)", text(file))
        yield from (f"{file}: {name}" for above, name in documents if "/// ```" not in above)


def but_self_get(dump):
    """A dump without the reads by which a player looks whether a thread is live, and those of the same kind."""
    return re.sub(rb"^read \d+ self_get .*\n", b"", dump or b"", flags=re.M)


def ran_dumping(dump, *words):
    """How a command ended, and the dump that it wrote; none where it wrote none."""
    if os.path.isfile(dump):
        os.remove(dump)
    status, said = ran(*words, "--dump", dump)
    if not os.path.isfile(dump):
        return status, said, None
    with open(dump, "rb") as it:
        return status, said, it.read()


def but_not(differing):
    return "".join(f", but not {it}" for it in differing)


class Bindings:
    """A run over the library in a folder, with a room for programs."""

    def __init__(self, report, library, room, histar, auditor):
        self.report = report
        self.library = library
        self.room = room
        self.histar = histar
        self.auditor = auditor
        self.kept = {}
        self.rules = list(played_rules())

    def leave_out(self, what, why):
        self.report.say(f"left out: {what}: {why}")

    def counts(self, what, *words, env=None):
        """Runs a command, counts whether it went well, and shows what it said where it did not."""
        is_well, said = run(*words, env=env)
        if not is_well:
            self.report.say(said[-3000:])
        self.report.counts(is_well, what)
        return is_well

    def words_of(self, compiler, source, program, *flags):
        """The command that compiles a file or folder of bindings/c to a program."""
        files = sorted(glob.glob(f"bindings/c/{source}/*.c")) or [f"bindings/c/{source}"]
        words = [*compiler, "-g", *flags, *files, "-o", program]
        if "-x" in flags:
            words += ["-x", "none"]
        return [*words, f"{self.library}/libhistar.a"]

    def compile(self, compiler, source, name, *flags):
        """A program of bindings/c, none where it is not compiled."""
        program = f"{self.room}/{name}"
        what = f"{' '.join([*compiler, *flags])} bindings/c/{source}"
        return program if self.counts(what, *self.words_of(compiler, source, program, "-O2", *flags, "-Iinclude")) else None

    def play(self, player, name):
        """The scripts of examples/ by a player, against what is stored."""
        stored = examples()
        dump = f"{self.room}/logged"
        differing, unclean = [], []
        for it in stored:
            if ran_dumping(dump, *player, it.file, *it.words)[:2] != (0, it.out):
                differing.append(it.file)
            if self.auditor and not is_clean(ran(self.auditor, dump)):
                unclean.append(it.file)
        self.report.counts(not differing, f"{name}: {len(stored)} scripts of examples/ print what is stored" + but_not(differing))
        if self.auditor:
            self.report.counts(not unclean, f"{name}: ./histar-audit finds the dumps of their logs clean" + but_not(unclean))
        else:
            self.leave_out(f"{name}: audits of logs", "./histar-audit is not built")

    def play_rules(self, player, name):
        """The scripts of the rules by a player, against what is stored of them."""
        differing = [it.name for it in self.rules if ran(*player, self.kept_script(it), *it.words) != (0, it.out)]
        what = f"{name}: {len(self.rules)} scripts of the rules print what is stored of them"
        self.report.counts(bool(self.rules) and not differing, what + but_not(differing))

    def kept_script(self, rule):
        """A script of the rules as a file."""
        file = f"{self.room}/{rule.name}.histar"
        if not os.path.isfile(file):
            with open(file, "w", encoding="utf-8") as it:
                it.write(rule.text)
        return file

    def play_random(self, player, name):
        """Random scripts by a player, against the proved program."""
        if not self.histar:
            self.leave_out(f"{name}: random scripts", "./histar is not built")
            return
        differing = [seed for seed in SEEDS if self.differs(player, seed)]
        what = f"{name}: {len(SEEDS)} random scripts print what ./histar prints, leave the tables of its dump, and dump what it dumps but self_get"
        self.report.counts(not differing, what + but_not(differing))

    def differs(self, player, seed):
        """Whether a player plays a random script otherwise than the proved program does."""
        words = [*player, self.random_script(seed), *RANDOM_WORDS, "--tables", "yes"]
        status, said, dump = ran_dumping(f"{self.room}/logged", *words)
        return (status, said, but_self_get(dump)) != self.proved(seed)

    def random_script(self, seed):
        file = f"{self.room}/{seed}.histar"
        if not os.path.isfile(file):
            with open(file, "w", encoding="utf-8") as it:
                it.write(script(seed))
        return file

    def proved(self, seed):
        """How the proved program ends with a random script, what it prints, with the tables of its dump, and the dump but self_get."""
        if seed not in self.kept:
            words = [self.histar, "run", self.random_script(seed), *RANDOM_WORDS]
            status, said, dump = ran_dumping(f"{self.room}/dump", *words)
            tables = "".join(it for it in dump.decode().splitlines(keepends=True) if it.startswith(TABLES))
            self.kept[seed] = status, said + tables, but_self_get(dump)
        return self.kept[seed]

    def write_wrong(self, header):
        """Puts a wrong header where programs are compiled against it."""
        os.makedirs(f"{self.room}/wrong", exist_ok=True)
        for name, written in (("histar.h", header), ("histar_debug.h", text("include/histar_debug.h"))):
            with open(f"{self.room}/wrong/{name}", "w", encoding="utf-8") as it:
                it.write(written)

    def is_told(self, compiler, header):
        """Whether a header is none that C compiles, or some script tells it from the true one."""
        self.write_wrong(header)
        player = f"{self.room}/wrong/play"
        if not run(*self.words_of([compiler, "-std=gnu11"], "play", player, "-O0", f"-I{self.room}/wrong"))[0]:
            return False
        return any(self.differs([player], seed) for seed in SEEDS) or any(ran(player, it.file, *it.words) != (0, it.out) for it in examples())

    def try_wrong_headers(self, compiler):
        if not self.histar:
            self.leave_out("wrong headers", "./histar is not built")
            return
        with open("include/histar.h", encoding="utf-8") as it:
            tried = [(line, self.is_told(compiler, header)) for line, header in wrong(it.read())]
        missed = [f"line {line}" for line, is_told in tried if not is_told]
        self.report.counts(tried and not missed, f"the player tells {len(tried)} wrong headers from the true one" + but_not(missed))

    def try_misuse(self, compiler):
        """The table of misuse, by the header, by one without each guard, and what a compiler warns of."""
        misuse = self.compile([compiler, "-std=gnu11"], MISUSE[0], "misuse-played", *WARNINGS, *MISUSE[1:])
        if misuse:
            self.counts("C: each row of the table of misuse is refused, and changes nothing", misuse)
        missed = [str(line) for line, header in unguarded(text("include/histar.h")) if not (header and self.is_seen(compiler, header))]
        self.report.counts(not missed, "the table of misuse tells each header that lacks a guard" + but_not(missed))
        for call in MISUSED_CALLS:
            self.report.counts(not self.is_warned_of(compiler, "(void)0") and self.is_warned_of(compiler, call), f"{compiler} warns of {call}")

    def is_seen(self, compiler, header):
        """Whether some row of the table of misuse goes otherwise by a header, or a secret stays. A row that ends the program, or does not
        end, goes otherwise."""
        self.write_wrong(header)
        for source, *flags in (MISUSE, ("forgotten.c", "-pthread")):
            program = f"{self.room}/wrong/program"
            words = self.words_of([compiler, "-std=gnu11"], source, program, "-O2", *flags, "-w", f"-I{self.room}/wrong")
            if run(*words)[0] and not run("timeout", "240", program)[0]:
                return True
        return False

    def is_warned_of(self, compiler, call):
        """Whether a compiler warns of a statement."""
        with open(f"{self.room}/warned.c", "w", encoding="utf-8") as it:
            it.write(f'#include "histar.h"\nvoid f(histar *k);\nvoid f(histar *k) {{ (void)k; {call}; }}\n')
        return not run(compiler, "-std=c11", "-Wall", "-Werror", "-Iinclude", "-c", f"{self.room}/warned.c", "-o", f"{self.room}/warned.o")[0]

    def try_header(self, compiler, standard, *flags):
        """The header by a compiler, without a warning, and the first program."""
        name = f"first-{compiler}-{standard}".replace("+", "p")
        program = self.compile([compiler, f"-std={standard}"], "first_refusal.c", name, *WARNINGS, *flags)
        if program:
            said = ran(program)
            self.report.counts(said == (0, "the owner reads key\nrefused 5 CannotObserve\n"), f"{name}: the first program")

    def try_thrown(self, compiler):
        """What a text goes to throws, and the kernel goes on."""
        program = self.compile([compiler, "-std=c++17"], "thrown.cpp", f"thrown-{compiler}".replace("+", "p"), *WARNINGS, "-pthread")
        if program:
            self.report.counts(ran("timeout", "60", program) == (0, "1 1\n"), f"{compiler}: an exception, or a thread's end, costs a text alone")

    def try_forgotten(self, compiler):
        """Nothing of a secret is left in the process, and the search finds what is left on purpose. And a child of fork."""
        program = self.compile([compiler, "-std=gnu11"], "forgotten.c", "forgotten", *WARNINGS, "-pthread")
        if program:
            self.counts("C: a kernel that is closed leaves nothing of a secret in the process", program)
            self.report.counts(ran(program, "found")[0] == 1, "C: the search finds a copy that is left on purpose")
        program = self.compile([compiler, "-std=gnu11"], "emptied.c", "emptied", *WARNINGS, "-Wl,--wrap=madvise,--wrap=clock_gettime,--wrap=getpid")
        if program:
            self.counts("C: a child of fork is refused where the system empties no page, and has a number of its own", program)

    def try_documented(self, language, compiler, *links):
        """The program of docs/EMBED.md in a language, compiled so, prints what the text below it says."""
        document = text("docs/EMBED.md")
        program = program_in(document, language)
        wanted = document.split(program, 1)[1].split("It prints `", 1)[1].split("`", 1)[0]
        source, made = f"{self.room}/documented.{language}", f"{self.room}/documented-{language}"
        with open(source, "w", encoding="utf-8") as it:
            it.write(program)
        if self.counts(f"{' '.join(compiler[:2])} over the program of docs/EMBED.md", *compiler, source, "-o", made, *links):
            self.report.counts(ran(made) == (0, f"{wanted}\n"), f"the program of docs/EMBED.md in {language} prints {wanted}")

    def try_c(self):
        compilers = [it for it in ("gcc", "clang") if shutil.which(it)]
        if not compilers:
            self.leave_out("C", "neither gcc nor clang is on the path")
        for compiler in compilers:
            self.try_header(compiler, "c11")
            self.try_documented("c", [compiler, "-std=c11", "-Iinclude", *WARNINGS], f"{self.library}/libhistar.a")
            player = self.compile([compiler, "-std=gnu11"], "play", f"play-{compiler}", *WARNINGS)
            if player:
                self.play([player], f"C by {compiler}")
                self.play_rules([player], f"C by {compiler}")
                self.play_random([player], f"C by {compiler}")
            self.try_called(compiler)
        for compiler in ("g++", "clang++"):
            if shutil.which(compiler):
                self.try_header(compiler, "c++17", "-x", "c++")
                self.try_thrown(compiler)
            else:
                self.leave_out("C++", f"{compiler} is not on the path")
        if compilers:
            self.try_memory(compilers[0])
            self.try_wrong_headers(compilers[0])
            self.try_misuse(compilers[0])
            self.try_forgotten(compilers[0])
            self.try_threads(compilers[0])
            self.try_coming_back(compilers[0])
            login = self.compile([compilers[0], "-std=c11"], "login.c", "login", *WARNINGS)
            if login:
                self.report.counts(ran(login) == (0, LOGIN), "C: a login gate")
        self.try_sanitizers()

    def try_called(self, compiler):
        """The library's own functions, as other languages call them."""
        player = self.compile([compiler, "-std=gnu11"], "play", f"play-called-{compiler}", *CALLED)
        if player:
            self.play([player], f"C by {compiler}, called")
            self.play_random([player], f"C by {compiler}, called")
        misuse = self.compile([compiler, "-std=gnu11"], MISUSE[0], f"misuse-called-{compiler}", *CALLED, *MISUSE[1:])
        if misuse:
            self.counts(f"C by {compiler}, called: each row of the table of misuse is refused, and changes nothing", misuse)

    def try_memory(self, compiler):
        """Random records, and valgrind over the scripts."""
        records = self.compile([compiler, "-std=gnu11"], "random_records.c", "records", *WARNINGS)
        if records:
            self.counts(f"{RECORDS:,} random records leave the heap as it was", records, str(RECORDS))
        soak = self.compile([compiler, "-std=gnu11"], "soak.c", "soak", *WARNINGS)
        if soak:
            self.soak(soak)
        long_log = self.compile([compiler, "-std=gnu11"], "long_log.c", "long_log", *WARNINGS, WRAPPED)
        if long_log:
            self.counts(f"the dump of {LOGGED_CALLS:,} calls takes no more memory than that of 1,000", long_log, str(LOGGED_CALLS))
        self.compile([compiler, "-std=gnu11"], "bench.c", "bench", *WARNINGS)
        self.try_refused(compiler)
        if not shutil.which("valgrind"):
            self.leave_out("valgrind", "it is not on the path")
            return
        checked = ["valgrind", "-q", "--error-exitcode=9", "--leak-check=full"]
        player = f"{self.room}/play-{compiler}"
        if os.path.isfile(player):
            self.play([*checked, player], "C under valgrind")
        if records:
            self.counts("random records under valgrind", *checked, records, "20000")

    def soak(self, soak):
        """Sessions come and go on one kernel, and it takes no memory: without a log, and with one that is dumped and cut whenever it is full."""
        self.counts(f"{SESSIONS:,} sessions of 100 writes take no memory", soak, str(SESSIONS), "100")
        folder = f"{self.room}/soak-dumps"
        os.makedirs(folder, exist_ok=True)
        # (a log that was cut keeps the next number of each thread that ever called)
        self.counts(f"{LOGGED_SESSIONS:,} sessions of 100 writes take no memory with a log that is cut", soak, str(LOGGED_SESSIONS), "100", folder)
        if not self.auditor:
            self.leave_out("audits of logs that are cut", "./histar-audit is not built")
            return
        logs = sorted(glob.glob(f"{folder}/dump-*"))
        unclean = [os.path.basename(it) for it in logs if not is_clean(ran(self.auditor, it))]
        self.report.counts(len(logs) == 3 and not unclean, f"./histar-audit finds {len(logs)} logs that were cut clean" + but_not(unclean))

    def try_threads(self, compiler):
        """Eight threads that share a kernel: for some time, under valgrind, and with clang's sanitizer of threads."""
        threads = self.compile([compiler, "-std=gnu11"], "threads.c", "threads", *WARNINGS, "-pthread")
        if threads:
            self.counts(f"C: eight threads share a kernel for {THREAD_SECONDS} seconds", threads, str(THREAD_SECONDS))
            self.audit_seats(threads)
        given = self.compile([compiler, "-std=gnu11"], "given_back.c", "given_back", *WARNINGS, "-pthread", WRAPPED)
        if given:
            self.counts(f"C: what all seats have seen is given back, over {SHARED_CALLS:,} calls", given, str(SHARED_CALLS), str(THREAD_SECONDS))
        self.compile([compiler, "-std=gnu11"], "shared_bench.c", "shared_bench", *WARNINGS, "-pthread")
        if threads and shutil.which("valgrind"):
            self.counts("C: eight threads share a kernel, under valgrind", "valgrind", "-q", "--error-exitcode=9", "--leak-check=full", threads, "0", "0")
        if not self.has_runtime("thread"):
            self.leave_out("the sanitizer of threads", "clang or its runtime is missing")
            return
        watched = self.compile(["clang", "-std=gnu11", "-fsanitize=thread", "-DLOGS=1"], "threads.c", "threads-watched", "-pthread")
        if watched:
            self.counts("C: eight threads share a kernel, with clang's sanitizer of threads", watched, "5", "0")

    def audit_seats(self, threads):
        """The dumps of what eight seats have seen, one after another."""
        if not self.auditor:
            self.leave_out("audits of seats", "./histar-audit is not built")
            return
        folder = f"{self.room}/seats"
        os.makedirs(folder, exist_ok=True)
        self.counts("C: eight seats dump what they have seen", threads, "0", "0", folder)
        seats = sorted(glob.glob(f"{folder}/seat-*"))
        unclean = [os.path.basename(it) for it in seats if not is_clean(ran(self.auditor, it))]
        self.report.counts(len(seats) == 8 and not unclean, f"./histar-audit finds the dumps of {len(seats)} seats clean" + but_not(unclean))

    def try_coming_back(self, compiler):
        """A service that ends and comes back at its checkpoint, and audits of that and of its log."""
        service = self.compile([compiler, "-std=gnu11"], "comes_back.c", "comes_back", *WARNINGS)
        if not service:
            return
        texts = [f"{self.room}/state", f"{self.room}/calls"]
        said = [ran(service, *texts, CLIENTS) for _ in range(3)]
        self.report.counts(said == [(0, f"start {n}\n") for n in (1, 2, 3)], f"C: a service with {CLIENTS} clients comes back at its checkpoint")
        if self.auditor:
            unclean = [it for it in texts if not is_clean(ran(self.auditor, it))]
            self.report.counts(not unclean, "./histar-audit finds its checkpoint and its log clean" + but_not(unclean))
        else:
            self.leave_out("audits of a checkpoint", "./histar-audit is not built")

    def try_refused(self, compiler):
        """A kernel is opened with each request for memory refused in turn, and calls take none."""
        opener = self.compile([compiler, "-std=gnu11"], "refused_memory.c", "opener", *WARNINGS, WRAPPED)
        if opener:
            self.counts("C: a kernel is opened with each request for memory refused in turn, and calls take none", opener)

    def has_runtime(self, flags):
        """Whether clang links a program with these flags."""
        with open(f"{self.room}/empty.c", "w", encoding="utf-8") as it:
            it.write("#include <stddef.h>\nint LLVMFuzzerTestOneInput(const unsigned char *at, size_t n) { return at == NULL && n; }\n")
            it.write("" if "fuzzer" in flags else "int main(void) { return 0; }\n")
        return shutil.which("clang") and run("clang", f"-fsanitize={flags}", f"{self.room}/empty.c", "-o", f"{self.room}/empty")[0]

    def try_sanitizers(self):
        if not self.has_runtime("address,undefined"):
            self.leave_out("sanitizers", "clang or its runtime is missing")
        else:
            clang = ["clang", "-std=gnu11", "-fsanitize=address,undefined", "-fno-sanitize-recover=all"]
            player = self.compile(clang, "play", "play-sanitized")
            if player:
                self.play([player], "C with sanitizers")
                self.play_random([player], "C with sanitizers")
        if not self.has_runtime("fuzzer,address"):
            self.leave_out("the fuzzer", "clang or its runtime is missing")
            return
        fuzzer = self.compile(["clang", "-std=gnu11", "-fsanitize=fuzzer,address,undefined"], "fuzz.c", "fuzz")
        if fuzzer:
            words = [f"-max_total_time={FUZZ_SECONDS}", "-max_len=4096", "-seed=20261127", f"-artifact_prefix={self.room}/"]
            self.counts(f"{FUZZ_SECONDS} seconds of clang's fuzzer find nothing", fuzzer, *words)

    def try_rust(self):
        if not shutil.which("cargo"):
            self.leave_out("Rust", "cargo is not on the path")
            return
        env = {"HISTAR_LIB": os.path.realpath(self.library)}
        lacking = list(without_example())
        self.report.counts(not lacking, "each public function of the crate has an example" + but_not(lacking))
        self.counts("cargo test: the crate histar, with the examples of its documents", "cargo", "test", "--quiet", *MANIFEST, env=env)
        self.counts("cargo check without the library", "cargo", "check", "--quiet", *MANIFEST, env={"HISTAR_LIB": self.room})
        if shutil.which("cargo-clippy"):
            words = ["cargo", "clippy", "--quiet", "--all-targets", *MANIFEST, "--", "-D", "warnings"]
            self.counts("cargo clippy without a warning", *words, env=env)
        self.counts("cargo doc without a warning", "cargo", "doc", "--no-deps", *MANIFEST, env={**env, "RUSTDOCFLAGS": "-D warnings"})
        is_packed, said = run("cargo", "package", "--allow-dirty", "--no-metadata", "--package", "histar", *MANIFEST, env=env)
        self.report.counts(is_packed and "warning" not in said, "cargo package without a warning")
        if self.counts("cargo build of the crate, examples and benches", "cargo", "build", "--release", "--lib", "--examples", "--benches", *MANIFEST, env=env):
            player = ["bindings/rust/target/release/examples/play"]
            self.report.counts(ran("bindings/rust/target/release/examples/login") == (0, LOGIN), "Rust: a login gate")
            self.try_documented("rust", ["rustc", "--edition=2021", "--extern", "histar=bindings/rust/target/release/libhistar.rlib"])
            self.play(player, "Rust")
            self.play_rules(player, "Rust")
            self.play_random(player, "Rust")
        self.try_serde(env)
        cluster.try_all(self.report, self.library, self.room, self.auditor)


    def try_serde(self, env):
        """The crate that writes names by serde, where Debian's packages of it are."""
        if not glob.glob(f"{cluster.PACKAGES}/serde_json-*"):
            self.leave_out("the crate histar-serde", "librust-serde-json-dev is not there")
            return
        folder = "bindings/rust/histar-serde"
        words = ["sh", "-c", 'cd "$0" && exec cargo "$@"', folder]  # (the folder's own file says where packages are)
        self.counts("cargo test: the crate histar-serde", *words, "test", "--quiet", "--offline", env=env)
        self.counts("cargo doc of histar-serde without a warning", *words, "doc", "--quiet", "--offline", "--no-deps", env={**env, "RUSTDOCFLAGS": "-D warnings"})


def built(tree, program):
    """A program, which is started only where it is built."""
    places = [f"{it}/crates/{program}/out/{program}" for it in (tree, ".")]
    return next((it for it in places if os.path.isfile(it)), None)


def try_all(report, tree="."):
    """Builds the library in a tree and tries all that the machine allows."""
    is_built, said = run(f"{tree}/lib")
    report.counts(is_built, "./lib: the library is proved and built")
    if not is_built:
        report.say(said[-3000:])
        return
    with tempfile.TemporaryDirectory(prefix="bindings-") as room:
        bindings = Bindings(report, f"{tree}/out/lib", room, built(tree, "histar"), built(tree, "histar_audit"))
        bindings.try_c()
        python.try_all(bindings, program_in, LOGIN)
        bindings.try_rust()
    confine.try_all(report, f"{tree}/out/lib", built(tree, "histar_audit"), is_long=True)
