"""The packages in a Debian of their own, where no Rattle toolchain is. mmdebstrap makes its root; dpkg installs the packages there, and
programs are run and built. Where no such root can be made a line says why."""
import glob
import os
import shutil
import subprocess
import tempfile

from gate import versions

NEEDED = "mount,gcc,g++,libc6-dev,pkg-config,python3,cargo"
DEBIAN = "bookworm"
# What becomes the root of the commands after it, so that namespaces of users can be made there.
INSIDE = 'mount --bind "$0" "$0" && cd "$0" && mount --rbind /dev dev && mount -t proc proc proc && pivot_root . mnt && umount -l mnt && exec "$@"'
EXAMPLES = "/usr/share/doc/koalaingot/examples"

FILES = {
    "try.c": '#include <histar.h>\n#include <stdio.h>\nint main(void)\n{\n    static histar k;\n    uint32_t refusal = histar_open(&k, 64);\n'
    '    if (refusal) return printf("%u %s\\n", refusal, histar_refusal_name(refusal)), 1;\n    puts("open");\n    return (int)histar_close(&k);\n}\n',
    "rust/Cargo.toml": '[package]\nname = "try"\nversion = "0.1.0"\nedition = "2021"\n\n[dependencies]\nhistar = { path = "/usr/share/histar/rust/histar" }\n',
    "rust/src/main.rs": 'fn main() {\n    println!("{:?}", histar::Kernel::boot(64).is_ok());\n}\n',
    "secret/key": "key\n",
}

PYTHON = "import ctypes; it = ctypes.CDLL('libhistar.so.0'); print(it.histar_version(), hasattr(it, 'histar_boot'), hasattr(it, 'rattle_alloc'))"
OTHER = r'sed "s/\(define HISTAR_LAYOUT\) .*/\1 2001/" /usr/include/histar.h > /srv/histar.h && cc -I/srv'

# What is typed there, and what it prints.
ROWS = (
    ("no toolchain is there", "command -v rt || echo none", "none\n"),
    ("histar --version", "histar --version", "histar {version}\n"),
    ("histar --version --long", "histar --version --long | sed -n 's/ .*//; 2,$p'", "commit\nkit\nsources\n"),
    ("histar run", f"histar run {EXAMPLES}/first.histar --dump /srv/dump | cmp - {EXAMPLES}/first.out && echo same", "same\n"),
    ("histar-audit", "histar-audit /srv/dump", "clean\n"),
    ("histar show page", "histar show page /srv/dump --out /srv/page.html && grep -c '</html>' /srv/page.html", "1\n"),
    ("confine", "confine --secret /srv/secret --report /srv/report -- sh -c 'cat /srv/secret/key; cp /srv/secret/key /srv/report' 2> /srv/told; cat /srv/report", "key\n"),
    ("cc by pkg-config", "cc /srv/try.c $(pkg-config --cflags --libs histar) -o /srv/try && /srv/try", "open\n"),
    ("cc, the archive", "cc /srv/try.c -l:libhistar.a -o /srv/try && /srv/try", "open\n"),
    ("c++ by pkg-config", "c++ -x c++ /srv/try.c $(pkg-config --cflags --libs histar) -o /srv/try && /srv/try", "open\n"),
    ("cargo", "cd /srv/rust && cargo run --offline --quiet", "true\n"),
    ("Python", f'python3 -c "{PYTHON}"', "{number} True False\n"),
    ("the package of Python", "python3 -c \"import histar; print(histar.Kernel(64).session().cat_create())\"", "#1\n"),
    ("its compiled files", "ls /usr/lib/python3/dist-packages/histar/__pycache__ | wc -l", "11\n"),
    ("a header of another layout", f"{OTHER} /srv/try.c -lhistar -o /srv/try && /srv/try", "32 OtherVersion\n"),
    ("all go again", "dpkg --remove koalaingot python3-histar libhistar-dev libhistar0 > /dev/null && ls -d /usr/bin/histar* /usr/share/histar /usr/lib/python3/dist-packages/histar 2> /dev/null | wc -l", "0\n"),
)


def ran(*words):
    done = subprocess.run(words, stdin=subprocess.DEVNULL, stdout=subprocess.PIPE, stderr=subprocess.STDOUT, text=True)
    return done.returncode, done.stdout


def within(root, command):
    """A command of a shell in the root, as root there."""
    return ran("unshare", "--mount", "--pid", "--fork", "sh", "-c", INSIDE, root, "env", "-i", "PATH=/usr/sbin:/usr/bin", "HOME=/root", "sh", "-c", command)


def why_not():
    """Why no root can be made; none where it can."""
    if os.getuid():
        return "not root"
    return None if shutil.which("mmdebstrap") else "mmdebstrap is not on the path"


def lay(root, packages):
    """The packages installed in the root, with what is compiled there; what dpkg said where it failed."""
    for name, text in FILES.items():
        os.makedirs(os.path.dirname(f"{root}/srv/{name}"), exist_ok=True)
        with open(f"{root}/srv/{name}", "w", encoding="utf-8") as it:
            it.write(text)
    for it in packages:
        shutil.copy(it, f"{root}/srv")
    status, said = within(root, "dpkg --install /srv/*.deb")
    return None if status == 0 else said


def play(report, root):
    told = {"version": versions.read(), "number": versions.number(versions.read())}
    for what, command, wanted in ROWS:
        status, said = within(root, command)
        report.counts(said == wanted.format(**told), f"packages: in a Debian of their own: {what}" + ("" if said == wanted.format(**told) else f": {status}, {said[-800:]}"))


def try_packages(report, folder):
    """Installs the packages of a folder in a new root, and plays all there."""
    lacking = why_not()
    if lacking:
        report.say(f"left out: the packages in a Debian of their own: {lacking}")
        return
    with tempfile.TemporaryDirectory(prefix="root-", dir="/var/tmp") as room:
        status, said = ran("mmdebstrap", "--quiet", "--variant=apt", f"--include={NEEDED}", DEBIAN, f"{room}/root")
        if status:
            report.say(f"left out: the packages in a Debian of their own: mmdebstrap: {said.strip()[-200:]}")
            return
        failed = lay(f"{room}/root", sorted(glob.glob(f"{folder}/*.deb")))
        report.counts(failed is None, f"packages: dpkg installs them in a Debian of their own{failed or ''}")
        if failed is None:
            play(report, f"{room}/root")
