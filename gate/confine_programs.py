"""Programs that people run, in confine: each reads a secret folder and leaves something in its report, as it does without confine.
docs/CONFINE.md has the table, by `python3 -m gate.confine_programs`. What the machine lacks is left out, by name."""
import os
import shutil
import sqlite3
import subprocess
import tempfile

from gate.report import Report

CONFINE = "out/confine"

FILES = {
    "hello.c": '#include <stdio.h>\nint main(void) { puts("hello"); return 0; }\n',
    "hello.cpp": '#include <iostream>\nint main() { std::cout << "hello\\n"; }\n',
    "Hello.java": 'class Hello { public static void main(String[] all) { System.out.println("hello"); } }\n',
    "hello.rs": 'fn main() { println!("hello"); }\n',
    "Makefile": "T := $(shell echo hello)\nall: one two\n\tcat one two > $(R)\none two:\n\techo $(T) > $@; test -s $@\n",
    "CMakeLists.txt": "cmake_minimum_required(VERSION 3.10)\nproject(hello C)\nadd_executable(hello hello.c)\n",
    "text": "hello\nfever\nhello\n",
    "note.md": "# hello\n\nA *note*.\n",
    "hello.tex": "\\documentclass{article}\\begin{document}hello\\end{document}\n",
    "hello.go": 'package main\n\nimport "fmt"\n\nfunc main() { fmt.Println("hello") }\n',
    "crate/Cargo.toml": '[package]\nname = "hello"\nversion = "0.1.0"\nedition = "2021"\n',
    "crate/src/main.rs": 'fn main() { println!("hello"); }\n',
    "test_hello.py": 'def test_hello():\n    assert "hello" in "hello fever"\n',
    "hello.ipynb": '{"cells": [{"cell_type": "code", "execution_count": null, "metadata": {}, "outputs": [], "source": ["print(6 * 7)"]}], "metadata": {}, "nbformat": 4, "nbformat_minor": 2}\n',
    "hello.json": '{"say": "hello"}\n',
}

# A name, the program that it needs, what is run, and bytes that the report has then.
ROWS = (
    ("cat, >", "cat", "cat $S/text > $R", b"fever"),
    ("cp", "cp", "cp $S/text $R", b"fever"),
    ("cp -p", "cp", "cp -p $S/text $R", b"fever"),
    ("mv", "mv", "cp $S/text /tmp/t && mv /tmp/t $R", b"fever"),
    ("install", "install", "install -m 755 $S/text $R", b"fever"),
    ("dd", "dd", "dd if=$S/text of=$R status=none", b"fever"),
    ("tee", "tee", "tee $R < $S/text", b"fever"),
    ("sort -o", "sort", "sort -o $R $S/text", b"fever\nhello"),
    ("sed -i", "sed", "cp $S/text $R && sed -i s/fever/cold/ $R", b"cold"),
    ("grep -r", "grep", "grep -rh fever $S > $R", b"fever"),
    ("find, xargs", "xargs", "find $S -type f -print0 | xargs -0 cat > $R", b"fever"),
    ("diff, patch", "patch", "cp $S/text /tmp/t; sed s/fever/cold/ /tmp/t | diff -u /tmp/t - > /tmp/p; patch -s /tmp/t /tmp/p && cp /tmp/t $R", b"cold"),
    ("awk", "awk", "awk '/fever/ { print NR }' $S/text > $R", b"2\n"),
    ("perl", "perl", "perl -ne 'print if /fever/' $S/text > $R", b"fever"),
    ("bash, <(..)", "bash", "bash -c 'cat <(cat $S/text) > $R'", b"fever"),
    ("/dev/stdin", "cat", "cat $S/text | cat /dev/stdin > $R; echo more >> /dev/stdout", b"fever"),
    ("tar", "tar", "mkdir /tmp/o && tar cf /tmp/t.tar -C $S . && tar xf /tmp/t.tar -C /tmp/o && tar czf $R -C /tmp/o .", b"\x1f\x8b"),
    ("gzip", "gzip", "gzip -c $S/text > $R", b"\x1f\x8b"),
    ("xz -T2", "xz", "xz -T2 -c $S/text > $R", b"7zXZ"),
    ("zstd", "zstd", "zstd -q -f $S/text -o $R", b"\x28\xb5\x2f\xfd"),
    ("zip, unzip", "zip", "rm -f $R; (cd $S && zip -q $R text) && unzip -p $R text > /tmp/t && cmp /tmp/t $S/text", b"PK"),
    ("sqlite3", "sqlite3", "sqlite3 $R 'create table t(a); insert into t values (42)'; sqlite3 $R 'select a from t' > /tmp/t; grep -q 42 /tmp/t", b"SQLite format 3"),
    ("git", "git", "git clone -q $S/repo /tmp/c && cd /tmp/c && echo more >> text && git -c user.name=a -c user.email=a@b commit -qam more && git log --oneline | wc -l > $R", b"2\n"),
    ("git status", "git", "cd $S/repo && git status > $R", b"nothing to commit"),
    ("make", "make", "mkdir /tmp/m && cd /tmp/m && make -s -j4 -f $S/Makefile", b"hello\nhello"),
    ("cmake", "cmake", "cmake -S $S -B /tmp/b && cmake --build /tmp/b && /tmp/b/hello > $R", b"hello"),
    ("gcc -o", "gcc", "gcc -O2 $S/hello.c -o $R && $R > /tmp/t && grep -q hello /tmp/t", b"\x7fELF"),
    ("g++", "g++", "g++ $S/hello.cpp -o /tmp/h && /tmp/h > $R", b"hello"),
    ("clang", "clang", "clang $S/hello.c -o /tmp/h && /tmp/h > $R", b"hello"),
    ("ld -r, strip", "strip", "gcc -c $S/hello.c -o /tmp/h.o && strip -g /tmp/h.o -o $R", b"\x7fELF"),
    ("python3", "/usr/bin/python3", "/usr/bin/python3 -c 'import os; print(open(os.environ[\"S\"]+\"/text\").read())' > $R", b"fever"),
    ("python3, multiprocessing", "/usr/bin/python3", "cat $S/text; /usr/bin/python3 -c 'import multiprocessing as m; l = m.Lock(); p = m.Pool(4); print(sum(p.map(abs, range(1000))))' > $R", b"499500"),
    ("python3 -m venv", "/usr/bin/python3", "cat $S/text; /usr/bin/python3 -m venv --without-pip /tmp/v && /tmp/v/bin/python -c 'import sys; print(sys.prefix)' > $R", b"/tmp/v"),
    ("node", "node", "node -e 'console.log(require(\"fs\").readFileSync(process.env.S+\"/text\",\"utf8\"))' > $R", b"fever"),
    ("java, javac", "javac", "javac -d /tmp $S/Hello.java && java -cp /tmp Hello > $R", b"hello"),
    ("rustc", "rustc", "rustc $S/hello.rs -o /tmp/h && /tmp/h > $R", b"hello"),
    ("cargo build --offline", "cargo", "cp -r $S/crate /tmp/c && cd /tmp/c && cargo build -q --offline && target/debug/hello > $R", b"hello"),
    ("go build", "go", "go build -o /tmp/h $S/hello.go && /tmp/h > $R", b"hello"),
    ("pytest", "pytest", "cd $S && pytest -q > $R", b"1 passed"),
    ("jupyter nbconvert", "jupyter", "jupyter nbconvert --to markdown --stdout $S/hello.ipynb > $R", b"print(6 * 7)"),
    ("jupyter nbconvert --execute", "jupyter", "cp $S/hello.ipynb /tmp && jupyter nbconvert --execute --to markdown --stdout /tmp/hello.ipynb > $R", b"42"),
    ("soffice", "soffice", "soffice --headless --convert-to pdf --outdir /tmp $S/text && cp /tmp/text.pdf $R", b"%PDF"),
    ("sqlite3, a report twice", "sqlite3", "cat $S/text; for i in 1 2; do sqlite3 $R 'create table if not exists t(a); insert into t values (42)'; done; test $(sqlite3 $R 'select count(*) from t') = 2", b"SQLite format 3"),
    ("sqlite3, a WAL", "sqlite3", "sqlite3 $S/wal.db 'select a from t' > $R", b"42"),
    ("sqlite3, a WAL with no -shm", "sqlite3", "sqlite3 $S/cold.db 'select a from t' > $R", b"42"),
    ("sqlite3, a WAL with no -shm, copied", "sqlite3", "cp $S/cold.db* /tmp; sqlite3 /tmp/cold.db 'select a from t' > $R", b"42"),
    ("sqlite3, a WAL of a report", "sqlite3", "cat $S/text; sqlite3 $R 'pragma journal_mode=wal; create table t(a); insert into t values (42); select a from t' > /tmp/t; grep 42 /tmp/t", b"SQLite format 3"),
    ("gpg -d", "gpg", "mkdir -m 700 /tmp/g; gpg --homedir /tmp/g --batch --passphrase pw --pinentry-mode loopback -d $S/text.gpg > $R", b"fever"),
    ("gpg, keys", "gpg", "cat $S/text; mkdir -m 700 /tmp/g; gpg --homedir /tmp/g --batch --passphrase '' --quick-gen-key a && gpg --homedir /tmp/g --export a > $R", b"a"),
    ("vim -es", "vim", "vim -es -u NONE -c '%s/fever/cold/' -c 'w! '$R -c 'q!' $S/text", b"cold"),
    ("jq", "jq", "jq -r .say $S/hello.json > $R", b"hello"),
    ("file", "file", "file -b $S/hello.c > $R", b"C source"),
    ("openssl", "openssl", "openssl enc -aes-256-cbc -pbkdf2 -k pw -in $S/text -out $R", b"Salted__"),
    ("gpg -c", "gpg", "mkdir -m 700 /tmp/g; gpg --homedir /tmp/g --batch --yes --passphrase pw --pinentry-mode loopback -c -o $R $S/text", b""),
    ("ssh-keygen", "ssh-keygen", "cat $S/text; ssh-keygen -q -t ed25519 -N '' -f /tmp/k && cat /tmp/k.pub > $R", b"ssh-ed25519"),
    ("rsync", "rsync", "rsync -a $S/ /tmp/r/ && cat /tmp/r/text > $R", b"fever"),
    ("iconv", "iconv", "iconv -f UTF-8 -t UTF-16LE $S/text -o $R", b"f\0e\0v\0e\0r"),
    ("ffmpeg", "ffmpeg", "cat $S/text; ffmpeg -v error -f lavfi -i sine=duration=1 -y -f wav $R", b"RIFF"),
    ("convert", "/usr/bin/convert", "cat $S/text; /usr/bin/convert -size 8x8 xc:red png:$R", b"PNG"),
    ("pandoc", "pandoc", "pandoc $S/note.md -o $R -t html", b"<em>note</em>"),
    ("pdflatex", "pdflatex", "cd /tmp && pdflatex -interaction=batchmode $S/hello.tex && cp hello.pdf $R", b"%PDF"),
    ("tmux", "tmux", "cat $S/text; tmux -L x new-session -d 'cat $S/text > $R'; sleep 1", b"fever"),
    ("strace, gdb", "strace", "strace -o $R cat $S/text", b"execve"),
    ("curl", "curl", "cat $S/text; curl -s -m 3 http://127.0.0.1:1/ -o $R; test -s $R", b"html"),
)

# What the programs are told of the environment.
PASSED = ("S", "R", "GIT_CONFIG_GLOBAL", "RUSTUP_HOME", "CARGO_HOME", "JAVA_HOME")

# What can't work, and why.
WITHOUT = {
    "tmux": "it has no terminal and no socket with a name",
    "strace, gdb": "no process traces another",
    "curl": "there is no network",
    "jupyter nbconvert --execute": "there is no network: a kernel is asked by one",
    "soffice": "no socket has a name; and its starter looks for /proc/version, which tells of the machine",
    "gpg, keys": "no socket has a name: keys are an agent's",
    "sqlite3, a WAL with no -shm": "the file can't be made beside it: it is to be copied",
}


def make_wal(folder):
    """A database whose last rows are in its log: by a copy of it in use."""
    used = sqlite3.connect(f"{folder}/used.db")
    used.execute("pragma journal_mode = wal")
    used.execute("create table t(a)")
    used.execute("insert into t values (42)")
    used.commit()
    for name, ends in (("wal", ("", "-wal", "-shm")), ("cold", ("", "-wal"))):
        for it in ends:
            shutil.copy(f"{folder}/used.db{it}", f"{folder}/{name}.db{it}")
    used.close()


def make_sources(folder):
    for name, text in FILES.items():
        os.makedirs(os.path.dirname(f"{folder}/{name}"), exist_ok=True)
        with open(f"{folder}/{name}", "w", encoding="utf-8") as it:
            it.write(text)
    repository = f"{folder}/repo"
    commands = (["init", "-q", repository], ["-C", repository, "add", "."], ["-C", repository, "-c", "user.name=a", "-c", "user.email=a@b", "commit", "-qm", "one"])
    os.makedirs(repository)
    shutil.copy(f"{folder}/text", repository)
    for it in commands:
        subprocess.run(["git", *it], stdout=subprocess.DEVNULL, stderr=subprocess.DEVNULL)
    keys = ["gpg", "--homedir", folder, "--batch", "--yes", "--passphrase", "pw", "--pinentry-mode", "loopback", "-c", "-o", f"{folder}/text.gpg", f"{folder}/text"]
    if shutil.which("gpg"):
        subprocess.run(keys, stdout=subprocess.DEVNULL, stderr=subprocess.DEVNULL)
    make_wal(folder)


def tried(row, room):
    """What a program left in its report, with how it ended."""
    _, _, command, _ = row
    shutil.rmtree(room, ignore_errors=True)
    os.makedirs(f"{room}/src")
    make_sources(f"{room}/src")
    env = {**os.environ, "S": f"{room}/src", "R": f"{room}/out/report.out", "HOME": "/tmp", "GIT_CONFIG_GLOBAL": "/dev/null"}
    os.makedirs(f"{room}/out")
    tools = [it for it in (f"{os.path.expanduser('~')}/.rustup", f"{os.path.expanduser('~')}/.cargo") if os.path.isdir(it)]
    env.update({"RUSTUP_HOME": tools[0], "CARGO_HOME": tools[1]} if len(tools) == 2 else {})
    passed = [it for name in PASSED for it in ("--env", name)]
    words = [os.path.abspath(CONFINE), *passed, "--secret", env["S"], "--report", env["R"], *(it for tool in tools for it in ("--public", tool)), "--", "sh", "-c", command]
    done = subprocess.run(words, env=env, cwd=room, stdin=subprocess.DEVNULL, stdout=subprocess.PIPE, stderr=subprocess.PIPE, timeout=120)
    with open(env["R"], "rb") as it:
        return it.read(), done


def is_there(program):
    return shutil.which(program, path=os.environ["PATH"] + ":/root/.cargo/bin") is not None


def results():
    """Each row that the machine has the program of, and whether it works."""
    with tempfile.TemporaryDirectory(prefix="programs-", dir="/var/tmp") as room:
        for row in ROWS:
            if not is_there(row[1]):
                yield row[0], None, ""
                continue
            left, done = tried(row, f"{room}/it")
            yield row[0], bool(left) and row[3] in left, done.stderr.decode(errors="replace")


def try_all(report):
    """Each program works in confine, or is among those that can't."""
    for name, works, said in results():
        if works is None:
            report.say(f"left out: confine: {name}: it is not on the path")
        else:
            report.counts(works == (name not in WITHOUT), f"confine: {name} {'works' if works else 'does not work'} {'' if works else said}".rstrip())


if __name__ == "__main__":
    whole = Report()
    try_all(whole)
    whole.finish()
